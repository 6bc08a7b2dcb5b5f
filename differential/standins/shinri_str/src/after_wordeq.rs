// Follows wordeq.rs in its own module: doors to what is not public there.

pub fn flattened(terms: &Context, word: &[TermId]) -> Vec<TermId> {
    flatten_concat_atoms(terms, word)
}

pub fn atoms_same(terms: &mut Context, eq: &mut EqualityEngine, a: TermId, b: TermId) -> bool {
    same(terms, eq, a, b)
}

pub fn strip_pair(terms: &mut Context, eq: &mut EqualityEngine, a: TermId, b: TermId, out: &mut Vec<EqLeaf>) -> bool {
    same_explain(terms, eq, a, b, out)
}

pub fn occurs_conflict(terms: &mut Context, eq: &mut EqualityEngine, single: TermId, rest: &[TermId]) -> bool {
    occurs_unsat(terms, eq, single, rest)
}

pub fn forced_length_conflict(terms: &mut Context, eq: &mut EqualityEngine, lhs: &[TermId], rhs: &[TermId]) -> bool {
    single_var_forced_length_conflict(terms, eq, lhs, rhs)
}

#[allow(clippy::too_many_arguments)]
pub fn resolve_stripped(
    terms: &mut Context,
    eq: &mut EqualityEngine,
    lhs: &[TermId],
    rhs: &[TermId],
    just: Vec<EqLeaf>,
    eqn_lit: Lit,
    fresh_ctr: &mut u32,
    emitted: &mut FxHashSet<(TermId, TermId)>,
) -> StepResult {
    resolve_inner(terms, eq, lhs, rhs, just, eqn_lit, fresh_ctr, emitted)
}
