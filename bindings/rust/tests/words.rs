//! Merges that a caller writes into the records itself, by the manual's rules ('Where the caller writes the records itself').

use labels::{term_place, Answer, Reason, Refusal, Store, Term, BUCKETS, CELL_WIDTH};

const ASSERTED: u32 = 1;
const CONGRUENCE: u32 = 3;
const DEFINITIONAL: u32 = 4;

fn word(s: &mut Store, t: Term, field: usize) -> &mut u32 {
    &mut s.terms[term_place(t, field)]
}

/// The terms from t up to its root, by class parents (field 3) or forest parents (field 4).
fn path(s: &mut Store, t: Term, field: usize) -> Vec<Term> {
    let mut path = vec![t];
    loop {
        let (last, up) = (path[path.len() - 1], *word(s, path[path.len() - 1], field));
        if up == last {
            return path;
        }
        path.push(up);
    }
}

/// Rules 2 to 5: the class's root goes below the other's, the tree is turned so that a is its root, and the edge goes from a to b.
fn merge(s: &mut Store, a: Term, b: Term, kind: u32, value: u32, stamp: u32) {
    let (root, above) = (*path(s, a, 3).last().unwrap(), *path(s, b, 3).last().unwrap());
    *word(s, root, 3) = above;
    for pair in path(s, a, 4).windows(2).rev() {
        let (t, p) = (pair[0], pair[1]);
        *word(s, p, 4) = t;
        for field in 5..8 {
            *word(s, p, field) = *word(s, t, field);
        }
    }
    *word(s, a, 4) = b;
    (*word(s, a, 5), *word(s, a, 6), *word(s, a, 7)) = (kind, value, stamp);
}

/// Rules 5 and 6: a chain of the pairs of parts, and one more than the highest stamp on their paths, which the caller has.
fn congruence(s: &mut Store, a: Term, b: Term, pairs: &[(Term, Term)], stamp: u32) {
    let first = s.state[1] + 1;
    for (i, &(t, u)) in pairs.iter().enumerate() {
        let cell = first + i as u32;
        let next = if i + 1 == pairs.len() { 0 } else { cell + 1 };
        s.cells[CELL_WIDTH * cell as usize..CELL_WIDTH * (cell as usize + 1)].copy_from_slice(&[t, u, next]);
    }
    s.state[1] += pairs.len() as u32;
    merge(s, a, b, CONGRUENCE, first, stamp);
}

/// Every merge of six variables in every order of the ends leaves classes and explanations as `join` does.
#[test]
fn as_a_join() {
    let edges = [(1, 2), (3, 4), (2, 3), (5, 6), (1, 6)];
    for turned in 0..1 << edges.len() {
        let mut joined = Store::new();
        for name in ["a", "b", "c", "d", "e", "f"] {
            joined.variable(name).unwrap();
        }
        let mut written = joined.clone();
        for (i, &(a, b)) in edges.iter().enumerate() {
            let (a, b) = if turned >> i & 1 == 1 { (b, a) } else { (a, b) };
            joined.join(a, b, Reason::Asserted(i as u32)).unwrap();
            merge(&mut written, a, b, ASSERTED, i as u32, 0);
            assert_eq!(written.audit(), Ok(()));
            for t in 1..=6 {
                for u in 1..=6 {
                    assert_eq!(written.explain(t, u), joined.explain(t, u));
                }
            }
        }
    }
}

/// x = y by a1 makes x ++ z and y ++ z equal, and these make two longer ones equal; an explanation names a1. A turned edge keeps its chain.
#[test]
fn congruences() {
    let mut s = Store::new();
    let [x, y, z, u] = ["x", "y", "z", "u"].map(|name| s.variable(name).unwrap());
    let (xz, yz) = (s.concatenation(&[x, z]).unwrap(), s.concatenation(&[y, z]).unwrap());
    let (long, other) = (s.concatenation(&[xz, u]).unwrap(), s.concatenation(&[yz, u]).unwrap());
    merge(&mut s, x, y, ASSERTED, 1, 0);
    congruence(&mut s, xz, yz, &[(x, y), (z, z)], 1);
    congruence(&mut s, other, long, &[(yz, xz), (u, u)], 2);
    assert_eq!(s.audit(), Ok(()));
    assert_eq!(s.explain(long, other), Ok(vec![Reason::Asserted(1)]));
    s.join(xz, u, Reason::Interface(2)).unwrap();
    s.join(yz, z, Reason::Asserted(3)).unwrap();
    assert_eq!(s.audit(), Ok(()));
    assert_eq!(s.explain(u, z), Ok([Reason::Interface(2), Reason::Asserted(1), Reason::Asserted(3)].to_vec()));
    // the same stamp on a pair's path is refused
    *word(&mut s, other, 7) = 1;
    assert_eq!(s.audit(), Err(Refusal::Congruences));
}

/// A definitional merge needs no reason and none is named; the five words put back undo it.
#[test]
fn definitional() {
    let mut s = Store::new();
    let (x, a, b) = (s.variable("x").unwrap(), s.constant("a").unwrap(), s.constant("b").unwrap());
    let (e, n) = (s.equation(x, b).unwrap(), s.length(x).unwrap());
    let kept = s.terms.clone();
    merge(&mut s, x, a, DEFINITIONAL, 0, 0);
    assert_eq!(s.step(&[x, a, b], e, 1), Ok(Answer::Conflict { reasons: vec![] }));
    for t in 1..=s.state[0] {
        let links = term_place(t, 3)..term_place(t, 8);
        s.terms[links.clone()].copy_from_slice(&kept[links]);
    }
    assert_eq!(s.step(&[x, a, b], e, 1), Ok(Answer::Propagate { variable: x, word: b, link: false, reasons: vec![] }));
    // a length is alone in its class
    merge(&mut s, n, e, ASSERTED, 1, 0);
    assert_eq!(s.audit(), Err(Refusal::Classes));
}

/// The count of terms put back breaks the index, and a caller that cuts it itself, as a refused call does, has the store of before; after a join,
/// go back to a mark first. A key can be put back alone.
#[test]
fn the_state_put_back() {
    let mut s = Store::new();
    let (x, y) = (s.variable("x").unwrap(), s.variable("y").unwrap());
    let before = s.clone();
    let mark = s.set_mark().unwrap();
    let split = s.resolve_equation(&[x, y], &[y, x], 1).unwrap();
    assert!(matches!(&split, Answer::Split { terms_made: 9, .. }));
    assert_eq!(s.resolve_equation(&[x, y], &[y, x], 1), Ok(Answer::Saturated { reasons: vec![] }));
    let late = s.state[0];
    let late = (1..=late).rev().find(|&t| *word(&mut s, t, 0) <= 3).unwrap();
    s.join(x, late, Reason::Asserted(1)).unwrap();
    let joined = s.clone();
    s.state = before.state;
    assert_eq!(s.audit(), Err(Refusal::Classes));
    s = joined;
    s.go_back(mark).unwrap();
    let mut again = s.clone();
    again.state[4] = before.state[4];
    assert!(matches!(again.resolve_equation(&[x, y], &[y, x], 1), Ok(Answer::Split { terms_made: 6, .. })));
    s.state = before.state;
    assert_eq!(s.audit(), Err(Refusal::Index));
    cut(&mut s);
    assert_eq!(s.terms[..term_place(3, 0)], before.terms[..term_place(3, 0)]);
    assert_eq!(s.resolve_equation(&[x, y], &[y, x], 1), Ok(split));
}

/// Heads and ninth words of counted terms that name a term above the count become 0.
fn cut(s: &mut Store) {
    let n = s.state[0];
    for place in (0..BUCKETS).chain((1..=n).map(|t| term_place(t, 8))) {
        if s.terms[place] > n {
            s.terms[place] = 0;
        }
    }
}

/// The bucket of each term by the manual's rule, and from them the heads and the ninth words: what the calls leave, also those that were refused
/// while they worked, and the audit of each word changed.
#[test]
fn the_index() {
    let mut s = Store::new();
    let [x, y] = ["x", "y"].map(|name| s.variable(name).unwrap());
    let at = s.constant("@").unwrap();
    let xx = s.concatenation(&[x, x]).unwrap();
    let n = s.length(x).unwrap();
    s.equation(xx, at).unwrap();
    assert_eq!(*word(&mut s, xx, 8), n, "x ++ x and the length of x are in one bucket: 3 + 1 + 1 and 4 + 1");
    assert_eq!(index(&s), determined(&s));
    assert!(matches!(s.resolve_equation(&[x, y], &[at, x], 1), Ok(Answer::Split { .. })));
    assert_eq!(index(&s), determined(&s));
    // room for one term more: "" is made behind "@", in bucket 1, and the call is refused at the next term
    let mut full = Store::new();
    let at = full.constant("@").unwrap();
    let [x, y] = ["x", "y"].map(|name| full.variable(name).unwrap());
    full.terms.truncate(term_place(5, 0));
    let entry = index(&full);
    assert_eq!(full.resolve_equation(&[x, y], &[at], 1), Err(Refusal::Room));
    assert_eq!((index(&full), *word(&mut full, at, 8)), (entry, 0));
    // another number in one word
    let count = s.state[0];
    for place in (0..BUCKETS).chain((1..=count).map(|t| term_place(t, 8))) {
        for value in (0..=count + 1).chain([u32::MAX]).filter(|&value| value != s.terms[place]) {
            let mut bad = s.clone();
            bad.terms[place] = value;
            assert_eq!((bad.audit(), bad.find(0)), (Err(Refusal::Index), Err(Refusal::Index)), "{place} {value}");
        }
    }
}

/// The heads and the ninth words of the counted terms.
fn index(s: &Store) -> (Vec<u32>, Vec<u32>) {
    (s.terms[..BUCKETS].to_vec(), (1..=s.state[0]).map(|t| s.terms[term_place(t, 8)]).collect())
}

/// The same from the records alone: the lowest term of each bucket, and the next higher one of a term's bucket.
fn determined(s: &Store) -> (Vec<u32>, Vec<u32>) {
    let all = || 1..=s.state[0];
    let next = |above: Term, b: usize| all().find(|&t| t > above && bucket(s, t) == b).unwrap_or(0);
    ((0..BUCKETS).map(|b| next(0, b)).collect(), all().map(|t| next(t, bucket(s, t))).collect())
}

/// The remainder by 64 of a term's kind plus all its characters or all its parts' numbers.
fn bucket(s: &Store, t: Term) -> usize {
    let [kind, first, second] = [0, 1, 2].map(|field| s.terms[term_place(t, field)] as usize);
    let numbers: Vec<u32> = match kind {
        1 | 2 => s.chars[first..first + second].to_vec(),
        3 => {
            let (mut parts, mut c) = (vec![], first);
            while c != 0 {
                parts.push(s.cells[CELL_WIDTH * c]);
                c = s.cells[CELL_WIDTH * c + 2] as usize;
            }
            parts
        }
        _ => vec![first as u32, second as u32],
    };
    (kind + numbers.iter().map(|&x| x as usize).sum::<usize>()) % BUCKETS
}
