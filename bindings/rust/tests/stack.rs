//! The calls do with 192 KiB of stack on the stores that take most of it, a tower of congruences above all, each explained by the one below it.

use labels::{term_place, Answer, Fit, Reason, Span, Store, Term, CELL_WIDTH, LIST, TERMS};
use std::thread;

/// What the header asks for. A thread's own words are within it, so a call has less.
const STACK: usize = 192 * 1024;

/// x is x ++ z by a1, and each further t ++ z is t by a congruence with the one below: one term a level, up to the limit of terms. On the top
/// two stand the variables u and v, by a6 and a7; the third term given is their equation. `join` makes no congruences, so these are written
/// into the words.
fn under_a_tower() -> (Store, [Term; 3]) {
    let mut s = Store::new();
    let (x, z) = (s.variable("x").unwrap(), s.variable("z").unwrap());
    let (mut below, mut top) = (x, s.concatenation(&[x, z]).unwrap());
    let edge = |s: &mut Store, child: Term, parent, kind, value, stamp| {
        s.terms[term_place(child, 3)..term_place(child, 8)].copy_from_slice(&[parent, parent, kind, value, stamp]);
    };
    edge(&mut s, top, below, 1, 1, 1);
    let mut stamp = 1;
    while (s.state[0] as usize) < TERMS - 3 {
        let above = s.concatenation(&[top, z]).unwrap();
        // the edge's chain: for each argument the pair that is equal
        let first = s.state[1] as usize + 1;
        s.cells[CELL_WIDTH * first..CELL_WIDTH * (first + 2)].copy_from_slice(&[top, below, first as u32 + 1, z, z, 0]);
        s.state[1] += 2;
        stamp += 1;
        edge(&mut s, above, top, 3, first as u32, stamp);
        (below, top) = (top, above);
    }
    let (u, v) = (s.variable("u").unwrap(), s.variable("v").unwrap());
    s.join(u, top, Reason::Asserted(6)).unwrap();
    s.join(v, below, Reason::Asserted(7)).unwrap();
    let e = s.equation(u, v).unwrap();
    assert_eq!((s.audit(), s.state[0] as usize), (Ok(()), TERMS));
    (s, [u, v, e])
}

fn in_a_thread<T: Send + 'static>(mut s: Store, ask: impl FnOnce(&mut Store) -> T + Send + 'static) -> T {
    thread::Builder::new().stack_size(STACK).spawn(move || ask(&mut s)).unwrap().join().unwrap()
}

#[test]
fn questions_through_a_tower() {
    let (s, [u, v, e]) = under_a_tower();
    assert_eq!(in_a_thread(s.clone(), move |s| s.step(&[u], e, 1)), Ok(Answer::Done));
    assert_eq!(in_a_thread(s.clone(), move |s| s.step(&[], e, 1)), Ok(Answer::Done));
    assert_eq!(in_a_thread(s.clone(), move |s| s.resolve_equation(&[u, u], &[v, v], 1)), Ok(Answer::Done));
    let mut explained = in_a_thread(s.clone(), move |s| s.explain(u, v)).unwrap();
    explained.sort();
    assert_eq!(explained, [1, 6, 7].map(Reason::Asserted));
    let mut equal = in_a_thread(s.clone(), move |s| s.nf_equal_explain(&[u], &[v])).unwrap();
    equal.sort();
    assert_eq!(equal, explained);
    let mut form = in_a_thread(s.clone(), move |s| s.normal_form(&[u], v)).unwrap();
    form.reasons.sort();
    assert_eq!((form.atoms, &form.reasons), (vec![u], &explained));
    let mut deep = in_a_thread(s, move |s| s.deep_normal_form(&[u], v)).unwrap().unwrap();
    deep.reasons.sort();
    assert_eq!((deep.atoms, deep.reasons), (vec![u], explained));
}

#[test]
fn concatenations_within_each_other() {
    let mut s = Store::new();
    let x = s.variable("x").unwrap();
    let t = (0..508).fold(x, |t, _| s.concatenation(&[t, x]).unwrap());
    let empty = s.constant("").unwrap();
    assert_eq!(in_a_thread(s.clone(), move |s| s.normal_form(&[], t)).unwrap().atoms, vec![x; 509]);
    assert_eq!(in_a_thread(s.clone(), move |s| s.deep_normal_form(&[], t)), Ok(None));
    let answer = in_a_thread(s, move |s| s.resolve_equation(&[t], &[t - 1], 1)).unwrap();
    assert_eq!(answer, Answer::Propagate { variable: x, word: empty, link: false, reasons: vec![] });
}

#[test]
fn lists_of_most_entries() {
    let mut s = Store::new();
    let x = s.variable("x").unwrap();
    let code = s.constant(&"A".repeat(16_000)).unwrap();
    let fit = in_a_thread(s.clone(), move |s| s.forced_length(&[x; LIST], &[code; LIST]));
    assert_eq!(fit, Ok(Fit { variables: 1024, constant: 0, against: 16_384_000, span: Span::Length { length: 16_000, rest: 0 } }));
    let answer = in_a_thread(s.clone(), move |s| s.resolve_equation(&[x; LIST], &[code; LIST], 1));
    assert!(matches!(answer, Ok(Answer::Split { .. })), "{answer:?}");
    let parts = in_a_thread(s, move |s| s.empty_parts(&[], &[x; LIST])).unwrap();
    assert_eq!(parts.variables, [x]);
}

#[test]
fn joins_of_most_terms() {
    let mut s = Store::new();
    let line: Vec<Term> = (0..TERMS).map(|i| s.variable(&format!("x{i}")).unwrap()).collect();
    let (first, last) = (line[0], line[TERMS - 1]);
    let joined = in_a_thread(s, move |s| {
        for (i, pair) in line.windows(2).enumerate() {
            if i % 8 == 0 {
                s.set_mark().unwrap();
            }
            s.join(pair[0], pair[1], Reason::Asserted(i as u32)).unwrap();
        }
        let all = s.explain(line[0], line[TERMS - 1]).unwrap().len();
        s.go_back(1).unwrap();
        (all, s.find(first) == s.find(last))
    });
    assert_eq!(joined, (TERMS - 1, false));
}
