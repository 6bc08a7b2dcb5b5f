//! Document 01's label cases and its example of the program, and document 02's Notes 4 and 5 on their smallest inputs: the port's answers held to the unchanged Rust's with the departures on top, and
//! these to document 01 written anew. Without the feature `port` the port is left out.

use differential::{
    call::*,
    compare::difference,
    draft::*,
    generate,
    lent::{Lent, Pair},
    model,
    oracle::{self, Mode},
    random::Random,
};

fn run(s: &Lent, call: Call) -> Outcome {
    let r = Request::new(call);
    let outcome = oracle::run(s, &r, Mode::Departing).outcome;
    assert_eq!(difference(s, &r, &outcome, &model::run(s, &r)), None);
    #[cfg(feature = "port")]
    assert_eq!(difference(s, &r, &outcome, &differential::port::run(s, &r).expect("the library has the call")), None);
    outcome
}

fn resolve(d: &Draft, lhs: &[u32], rhs: &[u32]) -> (Vec<u32>, Vec<Pair>) {
    let o = run(&lay_out(d), Call::ResolveEquation { lhs: lhs.to_vec(), rhs: rhs.to_vec(), guard: 9 });
    let call = Call::ResolveEquation { lhs: vec![], rhs: vec![], guard: 9 };
    (o.answer[..o.meant(&call).0].to_vec(), o.exit.reason_list())
}

#[test]
fn starred() {
    let mut d = Draft::default();
    let [a, ab, b, bzc, z, empty] = ["a", "ab", "b", "bzc", "z", ""].map(|w| d.constant(w));
    let [u, v, w, x, y, k] = ["u", "v", "w", "x", "y", "!strk0"].map(|n| d.variable(n));
    let merged = |p: u32, q: u32, n: u32| {
        let mut d = d.clone();
        d.merge(p, q, Label::Asserted(n));
        d
    };
    let split = |atoms: u32| (vec![SPLIT, atoms, -9i32 as u32, 9], vec![]);
    assert_eq!(resolve(&d, &[], &[]), (vec![DONE], vec![]));
    assert_eq!(resolve(&d, &[a, x], &[ab, y]), (vec![DONE], vec![]));
    assert_eq!(resolve(&merged(u, v, 5), &[v], &[a, u, b]), (vec![CONFLICT], vec![(1, 5)]));
    assert_eq!(resolve(&merged(v, a, 5), &[v], &[x, a, y]), split(3));
    assert_eq!(resolve(&merged(w, u, 7), &[u, z, w], &[bzc]), (vec![CONFLICT], vec![(1, 7)]));
    assert_eq!(resolve(&merged(x, empty, 7), &[], &[x, y]), (vec![PROPAGATE, y, empty, 1], vec![]));
    assert_eq!(resolve(&d, &[k], &[x]), split(3));
    assert_eq!(resolve(&merged(x, y, 9), &[x, u], &[y, a]), (vec![PROPAGATE, u, a, 0], vec![(1, 9)]));
    assert_eq!(resolve(&merged(x, y, 9), &[x, u, w], &[y, a, v]), (vec![SATURATED], vec![]));
}

#[test]
fn unexpanded() {
    let mut d = Draft::default();
    let (x, y, z, a) = (d.variable("x"), d.variable("y"), d.variable("z"), d.constant("a"));
    let az = d.concat(&[a, z]);
    d.merge(x, az, Label::Asserted(1));
    let t = d.concat(&[x, y, x]);
    let e = d.add(Spec::Equation(t, y));
    let s = lay_out(&d);
    let o = run(&s, Call::Step { known: vec![az, x, y, z], equation: e, guard: 1 });
    assert_eq!((o.answer[0], o.exit.reason_list()), (UNEXPANDED, vec![]));
    let o = run(&s, Call::DeepNormalForm { known: vec![az], t });
    assert_eq!((&o.answer[..2], o.exit.reason_list()), (&[0, 0][..], vec![(1, 1)]));
}

// document 02's Note 4: what the list has is not added, by kind and number; what came in stays as it is
#[test]
fn each_reason_once() {
    let mut d = Draft::default();
    let [x, y, z] = ["x", "y", "z"].map(|n| d.variable(n));
    let empty = d.constant("");
    d.merge(x, y, Label::Asserted(1));
    d.merge(y, z, Label::Interface(1));
    let explained = |incoming: &[Pair], room: usize| {
        let mut d = Draft { reasons: incoming.to_vec(), layout: 0, ..d.clone() };
        d.spare[3] = room;
        let o = run(&lay_out(&d), Call::Explain { a: x, b: z });
        (o.code, o.exit.reason_list())
    };
    let (a1, i1, a2) = ((1, 1), (2, 1), (1, 2));
    assert_eq!(explained(&[], 2), (0, vec![a1, i1]));
    assert_eq!(explained(&[], 1).0, 7);
    assert_eq!(explained(&[a1], 1), (0, vec![a1, i1]));
    assert_eq!(explained(&[i1], 1), (0, vec![i1, a1]));
    assert_eq!(explained(&[i1, a2, a1], 0), (0, vec![i1, a2, a1]));
    assert_eq!(explained(&[a2, a2, a1, a1], 1), (0, vec![a2, a2, a1, a1, i1]));
    assert_eq!(explained(&[a2], 1).0, 7);
    // room for one
    let few = |d: &Draft, lhs: &[u32], rhs: &[u32]| {
        let mut d = Draft { layout: 0, ..d.clone() };
        d.spare[3] = 1;
        resolve(&d, lhs, rhs)
    };
    assert_eq!(few(&d, &[x, x], &[y, y]), (vec![DONE], vec![]));
    // [x, ""] = [y, x, x]: the match of x and y has a reason of its own, whether it came in or not; one number for both has none
    assert_eq!(resolve(&d, &[x, empty], &[y, x, x]), (vec![SATURATED], vec![]));
    d.reasons = vec![a1];
    assert_eq!(resolve(&d, &[x, empty], &[y, x, x]), (vec![SATURATED], vec![a1]));
    assert_eq!(resolve(&d, &[x, empty], &[x, y, y]), (vec![SPLIT, 3, -9i32 as u32, 9], vec![a1]));
}

// a match by definitional merges alone has no reason, so that a Split follows
#[test]
fn no_reason_of_its_own() {
    let mut d = Draft::default();
    let [x, y] = ["x", "y"].map(|n| d.variable(n));
    let empty = d.constant("");
    d.merge(x, y, Label::Definitional);
    assert_eq!(resolve(&d, &[x, empty], &[y, x, x]), (vec![SPLIT, 3, -9i32 as u32, 9], vec![]));
}

// document 02's Note 5: the number of a Split, and by how much the store has more terms
fn made(d: &Draft, call: Call) -> (u32, u32) {
    let s = lay_out(d);
    let o = run(&s, call);
    assert_eq!(o.answer[0], SPLIT);
    (o.answer[3], o.exit.count() - s.count())
}

fn made_by(d: &Draft, lhs: &[u32], rhs: &[u32]) -> u32 {
    let (number, grown) = made(d, Call::ResolveEquation { lhs: lhs.to_vec(), rhs: rhs.to_vec(), guard: 9 });
    assert_eq!(number, grown);
    number
}

// 'six terms, plus one for each of the two lengths and their equation that was absent'
#[test]
fn terms_of_a_split_over_heads() {
    let mut none = Draft::default();
    let [x, y] = ["x", "y"].map(|n| none.variable(n));
    let empty = none.constant("");
    let heads = |d: &Draft| made_by(d, &[x, y], &[y, x]);
    // lengths of these terms, then an equation between two of the lengths
    let with = |lengths: &[u32], equation: Option<(usize, usize)>| {
        let mut d = none.clone();
        let l: Vec<u32> = lengths.iter().map(|&t| d.add(Spec::Length(t))).collect();
        equation.map(|(a, b)| d.add(Spec::Equation(l[a], l[b])));
        d
    };
    assert_eq!(heads(&none), 9);
    assert_eq!(heads(&with(&[x], None)), 8);
    assert_eq!(heads(&with(&[y], None)), 8);
    assert_eq!(heads(&with(&[x, y], None)), 7);
    assert_eq!(heads(&with(&[x, y], Some((1, 0)))), 7);
    assert_eq!(heads(&with(&[x, y], Some((0, 1)))), 6);
    assert_eq!(made_by(&with(&[x, y], Some((0, 1))), &[y, x], &[x, y]), 7);
    // the lowest record decides
    assert_eq!(heads(&with(&[x, x, y], Some((1, 2)))), 7);
    assert_eq!(heads(&with(&[x, x, y], Some((0, 2)))), 6);
    // a head "" against a variable is a split over two heads
    assert_eq!(made_by(&none, &[empty, y], &[x, x]), 9);
    assert_eq!(made_by(&with(&[empty, x], Some((0, 1))), &[empty, y], &[x, x]), 6);
}

// 'three, plus one for each of the empty constant, its equation and the character constant that was absent'
#[test]
fn terms_of_a_split_over_a_character() {
    let mut none = Draft::default();
    let [x, y] = ["x", "y"].map(|n| none.variable(n));
    let ab = none.constant("ab");
    let with = |words: &[&str], equation: Option<(u32, usize)>| {
        let mut d = none.clone();
        let l: Vec<u32> = words.iter().map(|w| d.constant(w)).collect();
        equation.map(|(v, at)| d.add(Spec::Equation(v, l[at])));
        d
    };
    for (words, equation, number) in [
        (&[][..], None, 6),
        (&[""][..], None, 5),
        (&["a"][..], None, 5),
        (&["", "a"][..], None, 4),
        (&[""][..], Some((x, 0)), 4),
        (&["", "a"][..], Some((x, 0)), 3),
        (&["", "a"][..], Some((y, 0)), 4),
        (&["", "", "a"][..], Some((x, 1)), 4),
        (&["b", "ab"][..], None, 6),
    ] {
        let d = with(words, equation);
        assert_eq!(made_by(&d, &[x], &[ab, y]), number);
        assert_eq!(made_by(&d, &[ab, y], &[x]), number);
    }
    let mut d = with(&["", "a"], None);
    d.add(Spec::Equation(ab + 1, x));
    assert_eq!(made_by(&d, &[x], &[ab, y]), 4);
}

// 'terms of the normal forms left out': x ++ "a" ++ "b" = y ++ x, whose left form makes "ab"
#[test]
fn terms_of_a_split_in_the_step() {
    let mut d = Draft::default();
    let (x, y, a, b) = (d.variable("x"), d.variable("y"), d.constant("a"), d.constant("b"));
    let (l, r) = (d.concat(&[x, a, b]), d.concat(&[y, x]));
    let equation = d.add(Spec::Equation(l, r));
    assert_eq!(made(&d, Call::Step { known: vec![], equation, guard: 9 }), (9, 10));
    let aby = d.concat(&[a, b, y]);
    let equation = d.add(Spec::Equation(x, aby));
    assert_eq!(made(&d, Call::Step { known: vec![], equation, guard: 9 }), (5, 6));
}

// 256 and 257 atoms after the first form, after a round, and just after an atom's expansion
#[test]
fn deep_atoms() {
    for (n, some) in [(256, 1), (257, 0)] {
        let mut d = Draft::default();
        let (x, y) = (d.variable("x"), d.variable("y"));
        let first = d.concat(&vec![x; n]);
        let most = d.concat(&vec![x; n - 1]);
        let (ends, begins) = (d.concat(&[y, x]), d.concat(&[x, y]));
        assert_eq!(run(&lay_out(&d), Call::DeepNormalForm { known: vec![], t: first }).answer[0], some);
        // y's representative is the concatenation of all but one
        d.merge(y, most, Label::Asserted(1));
        for t in [ends, begins] {
            let o = run(&lay_out(&d), Call::DeepNormalForm { known: vec![most], t });
            assert_eq!((o.answer[0], o.answer[1]), (some, some * n as u32));
        }
    }
}

#[test]
fn chained_expansions() {
    for (n, concats) in [(64, 0), (65, 1)] {
        let d = generate::chained(&mut Random::new(1), n, Label::Asserted(1));
        let s = lay_out(&d);
        // a variable's representative is the concatenation merged with it
        let known: Vec<u32> = d.strings().into_iter().filter(|&t| d.parts(t).is_some()).collect();
        let o = run(&s, Call::DeepNormalForm { known, t: d.count() - 2 });
        let list = &o.list[..o.answer[1] as usize];
        assert_eq!(list.iter().filter(|&&t| s.kind(t) == differential::lent::CONCATENATION).count(), concats, "{n}");
    }
}

// the example of `labelstep`: conflict 0, conflict 1 a3, propagate 1 4 0 0
#[test]
fn the_program() {
    let mut d = Draft::default();
    let (x, a) = (d.variable("x"), d.constant("a"));
    let xa = d.concat(&[x, a]);
    let b = d.constant("b");
    let e = d.add(Spec::Equation(xa, b));
    let known = vec![x, a, xa, b];
    let step = |d: &Draft, equation: u32, guard: i32| {
        let o = run(&lay_out(d), Call::Step { known: known.clone(), equation, guard });
        (o.answer[..4].to_vec(), o.exit.reason_list())
    };
    let (answer, reasons) = step(&d, e, 9);
    assert_eq!((answer[0], reasons), (CONFLICT, vec![]));
    let y = d.variable("y");
    d.merge(y, x, Label::Asserted(3));
    let by = d.concat(&[b, y]);
    let e = d.add(Spec::Equation(x, by));
    let (answer, reasons) = step(&d, e, 10);
    assert_eq!((answer[0], reasons), (CONFLICT, vec![(1, 3)]));
    let e = d.add(Spec::Equation(x, b));
    assert_eq!(step(&d, e, 11), (vec![PROPAGATE, x, b, 0], vec![]));
}
