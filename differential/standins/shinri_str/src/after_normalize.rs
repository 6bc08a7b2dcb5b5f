// Follows normalize.rs in its own module: doors to what is not public there.

pub fn normal_form_with_reasons(
    terms: &mut Context,
    eq: &mut EqualityEngine,
    known: &[TermId],
    t: TermId,
    reasons: &mut Vec<shinri_theory::types::EqLeaf>,
) -> Vec<TermId> {
    normal_form_cited(terms, eq, known, t, reasons)
}

pub fn deep_normal_form_with_reasons(
    terms: &mut Context,
    eq: &mut EqualityEngine,
    known: &[TermId],
    t: TermId,
    reasons: &mut Vec<shinri_theory::types::EqLeaf>,
) -> Option<Vec<TermId>> {
    deep_normal_form_cited(terms, eq, known, t, reasons)
}
