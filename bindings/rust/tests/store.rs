use labels::{term_place, Answer, EmptyParts, Form, Reason, Refusal, Store, Term};

/// A root joins the class of another root by an asserted equality.
fn merge(s: &mut Store, child: Term, parent: Term, number: u32) {
    s.terms[term_place(child, 3)..term_place(child, 8)].copy_from_slice(&[parent, parent, 1, number, 1]);
}

#[test]
fn terms_are_made_once() {
    let mut s = Store::new();
    let (a, x) = (s.constant("ab").unwrap(), s.variable("x").unwrap());
    assert_eq!(s.constant("ab"), Ok(a));
    let both = s.concatenation(&[a, x]).unwrap();
    assert_eq!(s.concatenation(&[a, x]), Ok(both));
    let n = s.length(both).unwrap();
    assert_eq!(s.equation(both, a).unwrap(), n + 1);
    assert_eq!(s.state, [5, 2, 3, 0, 0, 0, 0, 0]);
    assert_eq!(s.audit(), Ok(()));
}

#[test]
fn refusals_leave_the_store_alone() {
    let mut s = Store::new();
    assert_eq!(s.variable(""), Err(Refusal::Argument));
    let x = s.variable("x").unwrap();
    assert_eq!(s.concatenation(&[x]), Err(Refusal::Argument));
    assert_eq!(s.find(x + 1), Err(Refusal::Argument));
    s.state[2] = 16385;
    assert_eq!(s.constant("a"), Err(Refusal::Sizes));
    assert_eq!(s.state, [1, 0, 16385, 0, 0, 0, 0, 0]);
    s.state[2] = 1;
    s.terms[term_place(1, 0)] = 6;
    assert_eq!(s.audit(), Err(Refusal::Records));
    s.reasons.clear();
    s.state[3] = u32::MAX;
    assert_eq!(s.audit(), Err(Refusal::Sizes));
    assert_eq!(s.reason_list(), []);
    // a question begins with no reasons, whatever was counted
    assert_eq!(s.explain(1, 1), Err(Refusal::Records));
}

#[test]
fn explanations() {
    let mut s = Store::new();
    let (x, y) = (s.variable("x").unwrap(), s.variable("y").unwrap());
    assert_eq!(s.explain(x, y), Err(Refusal::Argument));
    // y joins x's class by the asserted equality 7
    merge(&mut s, y, x, 7);
    assert_eq!(s.find(y), Ok(x));
    assert_eq!(s.explain(y, x), Ok(vec![Reason::Asserted(7)]));
    assert_eq!(s.explain(x, x), Ok(vec![]));
}

#[test]
fn normal_forms() {
    let mut s = Store::new();
    let (x, a, z) = (s.variable("x").unwrap(), s.constant("a").unwrap(), s.variable("z").unwrap());
    let az = s.concatenation(&[a, z]).unwrap();
    let xax = s.concatenation(&[x, a, x]).unwrap();
    assert_eq!(s.normal_form(&[], xax), Ok(Form { atoms: vec![x, a, x], reasons: vec![] }));
    // x joins the class of "a" ++ z by the asserted equality 3
    merge(&mut s, x, az, 3);
    let reasons = vec![Reason::Asserted(3)];
    assert_eq!(s.normal_form(&[az], x), Ok(Form { atoms: vec![az], reasons: reasons.clone() }));
    assert_eq!(s.reason_list(), reasons);
    assert_eq!(s.deep_normal_form(&[az], x), Ok(Some(Form { atoms: vec![a, z], reasons })));
    // the concatenation is met for expansion twice
    assert_eq!(s.deep_normal_form(&[az], xax), Ok(None));
    assert_eq!(s.normal_form(&[0], x), Err(Refusal::Argument));
    assert_eq!(s.audit(), Ok(()));
}

#[test]
fn word_equations() {
    let mut s = Store::new();
    let (v, u, x) = (s.variable("v").unwrap(), s.variable("u").unwrap(), s.variable("x").unwrap());
    let (a, b) = (s.constant("a").unwrap(), s.constant("b").unwrap());
    assert_eq!(s.resolve_equation(&[], &[], 1), Ok(Answer::Done));
    assert_eq!(s.resolve_equation(&[v], &[a], 0), Err(Refusal::Argument));
    assert_eq!(s.resolve_equation(&[v], &[x], 1), Ok(Answer::Propagate { variable: v, word: x, link: false, reasons: vec![] }));
    merge(&mut s, u, v, 5);
    assert_eq!(s.resolve_equation(&[v], &[a, u, b], 1), Ok(Answer::Conflict { reasons: vec![Reason::Asserted(5)] }));
    // x = "" or x = "a" ++ !strk0
    match s.resolve_equation(&[x, v], &[a, x], 7) {
        Ok(Answer::Split { atoms, guard: -7, terms_made: 5, reasons }) => assert_eq!((atoms.len(), reasons), (2, vec![])),
        other => panic!("{other:?}"),
    }
    assert_eq!(s.resolve_equation(&[x, v], &[a, x], 7), Ok(Answer::Saturated { reasons: vec![] }));
    let split = Answer::Split { atoms: vec![13, 16, 19], guard: 3, terms_made: 9, reasons: vec![] };
    assert_eq!(s.resolve_equation(&[v, x], &[x, v], -3), Ok(split));
    assert_eq!(s.audit(), Ok(()));
}

/// A Split's number and by how much the store has more terms after it. The keys are not counted, so that the same heads can be split again.
fn made(s: &mut Store, ask: impl FnOnce(&mut Store) -> Result<Answer, Refusal>) -> (u32, u32) {
    let before = s.state[0];
    match ask(s) {
        Ok(Answer::Split { terms_made, .. }) => {
            s.state[4] = 0;
            (terms_made, s.state[0] - before)
        }
        other => panic!("{other:?}"),
    }
}

#[test]
fn terms_that_a_split_makes() {
    let mut s = Store::new();
    let (x, y) = (s.variable("x").unwrap(), s.variable("y").unwrap());
    let heads = |s: &mut Store| made(s, |s| s.resolve_equation(&[x, y], &[y, x], 1));
    assert_eq!(heads(&mut s), (9, 9));
    // the lengths and their equation are there; len y = len x is not
    assert_eq!(heads(&mut s), (6, 6));
    assert_eq!(made(&mut s, |s| s.resolve_equation(&[y, x], &[x, y], 1)), (7, 7));
    let mut s = Store::new();
    let (x, y, ab) = (s.variable("x").unwrap(), s.variable("y").unwrap(), s.constant("ab").unwrap());
    let lengths = (s.length(y).unwrap(), s.length(x).unwrap());
    s.equation(lengths.0, lengths.1).unwrap();
    assert_eq!(made(&mut s, |s| s.resolve_equation(&[x, y], &[y, x], 1)), (7, 7));
    let character = |s: &mut Store| made(s, |s| s.resolve_equation(&[x], &[ab, y], 1));
    assert_eq!(character(&mut s), (6, 6));
    assert_eq!(character(&mut s), (3, 3));
    // the form of x ++ "a" ++ "b" makes a constant of its own
    let mut s = Store::new();
    let (x, y, a, b) = (s.variable("x").unwrap(), s.variable("y").unwrap(), s.constant("a").unwrap(), s.constant("b").unwrap());
    let (lhs, rhs) = (s.concatenation(&[x, a, b]).unwrap(), s.concatenation(&[y, x]).unwrap());
    let e = s.equation(lhs, rhs).unwrap();
    assert_eq!(made(&mut s, |s| s.step(&[], e, 1)), (9, 10));
}

#[test]
fn empty_parts() {
    let mut s = Store::new();
    let label: Vec<Term> = (0..8).map(|i| s.variable(&format!("part {i}")).unwrap()).collect();
    let whole = s.concatenation(&label).unwrap();
    merge(&mut s, label[1], label[0], 1);
    s.explain(label[0], label[1]).unwrap();
    // another form: none, and nothing is made
    let (full, before) = (s.clone(), s.state);
    assert_eq!(s.empty_parts(&[], &label[..1]).unwrap(), EmptyParts { variables: vec![], empty: None, link: false });
    assert_eq!(s.empty_parts(&[], &[whole, 10]), Err(Refusal::Argument));
    assert_eq!(s.state, before);
    // the reasons counted stay
    let parts = s.empty_parts(&[whole], &[]).unwrap();
    assert_eq!((&parts.variables[..2], parts.variables.len()), (&[label[0], label[2]][..], 7));
    assert_eq!((parts.empty, parts.link, s.reason_list()), (Some(10), true, vec![Reason::Asserted(1)]));
    // no room for ""
    s = full;
    s.terms.truncate(term_place(10, 0));
    assert_eq!(s.empty_parts(&[], &label), Err(Refusal::Room));
    assert_eq!(s.state, before);
}

#[test]
fn equal_lists() {
    let mut s = Store::new();
    let (x, y, a) = (s.variable("x").unwrap(), s.variable("y").unwrap(), s.constant("a").unwrap());
    merge(&mut s, y, x, 9);
    assert_eq!(s.nf_equal(&[x, a], &[y, a]), Ok(true));
    assert_eq!(s.nf_equal(&[x], &[a]), Ok(false));
    assert_eq!(s.nf_equal(&[x], &[x, a]), Ok(false));
    assert_eq!(s.nf_equal_explain(&[x, a], &[y, a]), Ok(vec![Reason::Asserted(9)]));
    assert_eq!(s.nf_equal_explain(&[x], &[x, a]), Err(Refusal::Argument));
}

/// Three equations, one after the other.
#[test]
fn steps() {
    let mut s = Store::new();
    let (x, a) = (s.variable("x").unwrap(), s.constant("a").unwrap());
    let (xa, b) = (s.concatenation(&[x, a]).unwrap(), s.constant("b").unwrap());
    let e = s.equation(xa, b).unwrap();
    let known = [x, a, xa, b];
    assert_eq!(s.step(&known, e, 9), Ok(Answer::Conflict { reasons: vec![] }));
    let y = s.variable("y").unwrap();
    merge(&mut s, y, x, 3);
    let by = s.concatenation(&[b, y]).unwrap();
    let e = s.equation(x, by).unwrap();
    assert_eq!(s.step(&known, e, 10), Ok(Answer::Conflict { reasons: vec![Reason::Asserted(3)] }));
    let e = s.equation(x, b).unwrap();
    assert_eq!(s.step(&known, e, 11), Ok(Answer::Propagate { variable: x, word: b, link: false, reasons: vec![] }));
    assert_eq!(s.step(&known, x, 11), Err(Refusal::Argument));
    assert_eq!(s.step(&known, e, i32::MIN), Err(Refusal::Argument));
    assert_eq!(s.audit(), Ok(()));
}

#[test]
fn unexpanded() {
    let mut s = Store::new();
    let (x, y, a, z) = (s.variable("x").unwrap(), s.variable("y").unwrap(), s.constant("a").unwrap(), s.variable("z").unwrap());
    let az = s.concatenation(&[a, z]).unwrap();
    let xyx = s.concatenation(&[x, y, x]).unwrap();
    let e = s.equation(xyx, y).unwrap();
    merge(&mut s, x, az, 2);
    assert_eq!(s.step(&[az], e, 1), Ok(Answer::Unexpanded));
    assert_eq!(s.reason_list(), []);
}

/// The undone merge: while x and y are joined the equation is a conflict that names the join's reason, so the rule kept of it goes when the
/// join goes; gone back, the same equation is none.
#[test]
fn a_join_is_undone() {
    let mut s = Store::new();
    let (x, y) = (s.variable("x").unwrap(), s.variable("y").unwrap());
    let (a, b) = (s.constant("a").unwrap(), s.constant("b").unwrap());
    let before = s.terms.clone();
    assert_eq!(s.set_mark(), Ok(1));
    assert_eq!(s.join(x, y, Reason::Asserted(3)), Ok(true));
    assert_eq!(s.find(x), s.find(y));
    assert_eq!(s.explain(x, y), Ok(vec![Reason::Asserted(3)]));
    let answer = s.resolve_equation(&[x], &[a, y, b], 1).unwrap();
    assert_eq!(answer, Answer::Conflict { reasons: vec![Reason::Asserted(3)] });
    assert_eq!(s.go_back(1), Ok(()));
    assert_eq!(s.state[6..], [0, 0]);
    assert_eq!(s.terms, before);
    assert_eq!(s.explain(x, y), Err(Refusal::Argument));
    // the rule named the join's reason: it is dropped with the join, and the equation conflicts no more
    assert!(answer.reasons().contains(&Reason::Asserted(3)));
    assert!(!matches!(s.resolve_equation(&[x], &[a, y, b], 1).unwrap(), Answer::Conflict { .. }));
    assert_eq!(s.audit(), Ok(()));
}

#[test]
fn marks_are_numbered_in_the_order_set() {
    let mut s = Store::new();
    let (x, y, z) = (s.variable("x").unwrap(), s.variable("y").unwrap(), s.variable("z").unwrap());
    // with no mark standing a join is not recorded
    assert_eq!(s.join(x, y, Reason::Interface(4)), Ok(true));
    assert_eq!(s.join(y, x, Reason::Asserted(5)), Ok(false));
    assert_eq!(s.join(x, x, Reason::Asserted(5)), Ok(false));
    assert_eq!(s.state[6..], [0, 0]);
    assert_eq!(s.go_back(1), Err(Refusal::Mark));
    assert_eq!((s.set_mark(), s.set_mark()), (Ok(1), Ok(2)));
    assert_eq!(s.join(z, y, Reason::Asserted(6)), Ok(true));
    assert_eq!(s.state[6..], [2, 1]);
    assert_eq!(s.explain(z, x), Ok(vec![Reason::Asserted(6), Reason::Interface(4)]));
    // a term made since the mark stays, alone
    let late = s.variable("late").unwrap();
    assert_eq!(s.join(late, z, Reason::Asserted(7)), Ok(true));
    assert_eq!(s.go_back(2), Ok(()));
    assert_eq!(s.state[6..], [1, 0]);
    assert_eq!((s.find(late), s.find(z)), (Ok(late), Ok(z)));
    assert_eq!(s.find(x), s.find(y));
    // the mark is used up, and its number is given again
    assert_eq!(s.go_back(2), Err(Refusal::Mark));
    assert_eq!(s.go_back(0), Err(Refusal::Mark));
    assert_eq!(s.set_mark(), Ok(2));
    for i in 3..=64 {
        assert_eq!(s.set_mark(), Ok(i));
    }
    assert_eq!(s.set_mark(), Err(Refusal::Mark));
    assert_eq!(s.go_back(1), Ok(()));
    assert_eq!(s.state, [4, 0, 7, 2, 0, 0, 0, 0]);
    assert_eq!(s.audit(), Ok(()));
}

#[test]
fn refused_joins_and_marks_write_nothing() {
    let mut s = Store::new();
    let (x, y) = (s.variable("x").unwrap(), s.variable("y").unwrap());
    let n = s.length(x).unwrap();
    assert_eq!(s.set_mark(), Ok(1));
    let kept = s.clone();
    let same = |s: &Store| assert_eq!((&s.state, &s.terms, &s.marks), (&kept.state, &kept.terms, &kept.marks));
    assert_eq!(s.join(x, n, Reason::Asserted(1)), Err(Refusal::Argument));
    assert_eq!(s.join(0, y, Reason::Asserted(1)), Err(Refusal::Argument));
    assert_eq!(s.join(x, y, Reason::Interface(1 << 31)), Err(Refusal::Argument));
    assert_eq!(s.go_back(2), Err(Refusal::Mark));
    same(&s);
    // a recorded join that is no trace of one
    s.state[7] = 1;
    assert_eq!(s.join(x, y, Reason::Asserted(1)), Err(Refusal::Classes));
    assert_eq!(s.go_back(1), Err(Refusal::Classes));
    s.state[7] = 512;
    assert_eq!(s.set_mark(), Err(Refusal::Sizes));
    s.state[7] = 0;
    same(&s);
    s.marks.truncate(1596);
    assert_eq!(s.go_back(1), Err(Refusal::Sizes));
    // the other calls leave marks alone
    assert_eq!(s.find(y), Ok(y));
}
