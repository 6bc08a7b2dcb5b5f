//! The index over the store: document 02's Note 9 by hand, and that a wrong index is found.

use differential::{
    audit::audit,
    call::*,
    compare::difference,
    draft::*,
    generate,
    index::{bucket, Index},
    indexes,
    lent::*,
    lists::{self, Answering},
    marks::{self, Act, Marked, WORDS},
    model,
    oracle::{self, Mode},
    random::Random,
};

// variables x and y, "a", x ++ x, the length of x, x = y
fn labels() -> Lent {
    let mut d = Draft::default();
    let (x, y) = (d.variable("x"), d.variable("y"));
    d.constant("a");
    d.concat(&[x, x]);
    d.add(Spec::Length(x));
    d.add(Spec::Equation(x, y));
    lay_out(&d)
}

fn asked(s: &Lent, call: Call) -> Outcome {
    let r = Request::new(call);
    let expected = oracle::run(s, &r, Mode::Departing).outcome;
    assert_eq!(difference(s, &r, &expected, &model::run(s, &r)), None, "{r:?}\n{s}");
    #[cfg(feature = "port")]
    if let Some(got) = differential::port::run(s, &r) {
        assert_eq!(difference(s, &r, &expected, &got), None, "{r:?}\n{s}");
    }
    expected
}

#[test]
fn buckets_heads_and_chains() {
    let s = labels();
    // 2 + 120 and 2 + 121, less 64; 1 + 97, less 64; 3 + 1 + 1, x being counted twice; 4 + 1; 5 + 1 + 2
    assert_eq!((1..=6).map(|t| bucket(&s, t)).collect::<Vec<_>>(), [58, 59, 34, 5, 5, 8]);
    let index = Index::determined(&s);
    let heads: Vec<(usize, u32)> = index.heads.iter().copied().enumerate().filter(|h| h.1 != 0).collect();
    assert_eq!(heads, [(5, 4), (8, 6), (34, 3), (58, 1), (59, 2)]);
    assert_eq!(index.nexts, [0, 0, 0, 5, 0, 0]);
    assert_eq!((audit(&s), Index::standing(&s, 6)), (0, index));
    // a sum of 64, and the empty text
    let mut d = Draft::default();
    d.constant("?");
    d.constant("");
    let s = lay_out(&d);
    assert_eq!((bucket(&s, 1), bucket(&s, 2)), (0, 1));
    // no terms: 64 heads of 0
    let s = lay_out(&Draft { layout: 5, ..Draft::default() });
    assert_eq!((&s.terms[..BUCKETS], audit(&s)), (&[0; BUCKETS][..], 0));
}

#[test]
fn the_lowest_is_found_and_a_new_term_goes_to_the_end() {
    let mut d = Draft::default();
    for w in ["ab", "ba", "ab"] {
        d.constant(w);
    }
    let s = lay_out(&d);
    assert_eq!(asked(&s, Call::MakeConstant { text: text("ab") }).answer[0], 1);
    assert_eq!(asked(&s, Call::MakeConstant { text: text("ba") }).answer[0], 2);
    // of the same bucket: 1 + 99 + 96
    let o = asked(&s, Call::MakeConstant { text: text("c`") });
    let made = o.answer[0];
    assert_eq!((made, bucket(&o.exit, made)), (4, bucket(&s, 1)));
    assert_eq!(Index::standing(&o.exit, 4).nexts, [2, 3, 4, 0]);
}

// "@", x, y and room for four terms, [x, y] = ["@"]: "" is made behind "@", the next term is refused
#[test]
fn a_refused_call_leaves_the_index_of_entry() {
    let mut d = Draft { spare: [1, 40, 40, 4, 4], ..Draft::default() };
    let (at, x, y) = (d.constant("@"), d.variable("x"), d.variable("y"));
    let s = lay_out(&d);
    assert_eq!(bucket(&s, at), 1);
    let o = asked(&s, Call::ResolveEquation { lhs: vec![x, y], rhs: vec![at], guard: 1 });
    assert_eq!((o.code, Index::standing(&o.exit, 3)), (8, Index::determined(&s)));
}

// 12 comes after 4 and before 5, in every call
#[test]
fn refusals_go_by_their_place() {
    let mut s = labels();
    s.terms[63] = 1;
    let calls = [
        Call::Audit,
        Call::MakeConstant { text: vec![0x30000] },
        Call::MakeVariable { name: vec![] },
        Call::MakeConcatenation { parts: vec![] },
        Call::MakeLength { t: 0 },
        Call::MakeEquation { t: 0, u: 0 },
        Call::Find { t: 0 },
        Call::Explain { a: 0, b: 0 },
        Call::NormalForm { known: vec![0], t: 0 },
        Call::DeepNormalForm { known: vec![0], t: 0 },
        Call::ResolveEquation { lhs: vec![0], rhs: vec![], guard: 0 },
        Call::Step { known: vec![0], equation: 0, guard: 0 },
        Call::NfEqual { lhs: vec![0], rhs: vec![] },
        Call::NfEqualExplain { lhs: vec![0], rhs: vec![] },
        Call::EmptyParts { lhs: vec![0], rhs: vec![] },
        Call::ForcedLength { lhs: vec![0], rhs: vec![] },
    ];
    assert_eq!(calls.len(), NAMES.len());
    for call in calls {
        assert_eq!(asked(&s, call).code, 12);
    }
    let m = Marked::unmarked(s.clone(), vec![0; WORDS]);
    for act in [Act::Join { a: 0, b: 0, kind: 0, number: 0 }, Act::SetMark, Act::GoBack { mark: 0 }] {
        let told = marks::run(&m, &act, 8);
        assert_eq!((told.code, &told.exit), (12, &m), "{act:?}");
        #[cfg(feature = "port")]
        if let Some(by_port) = differential::port::run_act(&m, &act, 8) {
            assert_eq!(told, by_port, "{act:?}");
        }
    }
    // a trail that fails is 3, a congruence 4, before it
    let mut bad = m.clone();
    bad.store.state[7] = 1;
    assert_eq!(marks::audit_marked(&bad), 3);
    let mut d = Draft::default();
    let (x, u) = (d.variable("x"), d.variable("u"));
    let (xx, uu) = (d.concat(&[x, x]), d.concat(&[u, u]));
    d.merge(x, u, Label::Asserted(1));
    d.edges.push(Edge { a: xx, b: uu, label: Label::Congruence, stamp: 0 });
    let mut s = lay_out(&d);
    s.terms[63] = 1;
    assert_eq!(audit(&s), 4);
    // the count put back
    let mut s = labels();
    s.state[0] = 4;
    assert_eq!(audit(&s), 12);
}

type Calls = fn(&Lent, &Request) -> Outcome;

// calls on drawn stores, as `compare` makes them
fn found_by_calls(call: Calls) -> bool {
    let mut random = Random::new(9);
    (0..3_000).any(|_| {
        let p = generate::profile(&mut random);
        let s = lay_out(&generate::draft(&mut random, p));
        let kind = random.below(NAMES.len());
        let r = generate::request(&mut random, &s, kind);
        difference(&s, &r, &model::run(&s, &r), &call(&s, &r)).is_some()
    })
}

// damaged indexes, the small stores first and some that are drawn
fn found_by_damage(call: Calls) -> bool {
    let by = Answering { call: &|s, r| Some(call(s, r)), act: &|s, a, n| Some(marks::run(s, a, n)) };
    let small = indexes::small();
    (0..60)
        .chain(small.len() as u64..small.len() as u64 + 40)
        .any(|i| indexes::round(i, &small, &mut Random::new(i), &by, &mut indexes::Tally::default()).is_err())
}

// an outcome whose index was made otherwise
fn otherwise(s: &Lent, r: &Request, change: impl Fn(&mut Lent)) -> Outcome {
    let mut o = model::run(s, r);
    if o.code == 0 && o.exit.count() > s.count() {
        change(&mut o.exit);
    }
    o
}

#[test]
fn nothing_is_found_where_nothing_is_wrong() {
    let right: Calls = model::run;
    assert!(!found_by_calls(right) && !found_by_damage(right));
}

#[test]
fn planted_faults_are_found() {
    // the last term at the front of its chain
    let front: Calls = |s, r| {
        otherwise(s, r, |exit| {
            let (t, b) = (exit.count(), bucket(exit, exit.count()));
            let last = (1..t).rev().find(|&u| bucket(exit, u) == b);
            if let Some(u) = last {
                exit.terms[term_place(u, NEXT)] = 0;
                exit.terms[term_place(t, NEXT)] = exit.terms[b];
                exit.terms[b] = t;
            }
        })
    };
    assert!(found_by_calls(front));
    // a part that stands twice counted once
    let once: Calls = |s, r| {
        otherwise(s, r, |exit| {
            let t = exit.count();
            if exit.kind(t) == CONCATENATION {
                let mut parts = exit.parts(t);
                parts.sort();
                parts.dedup();
                let b = (CONCATENATION + parts.iter().sum::<u32>()) as usize % BUCKETS;
                if b != bucket(exit, t) {
                    let named = (0..BUCKETS).chain((1..t).map(|u| term_place(u, NEXT))).find(|&at| exit.terms[at] == t);
                    exit.terms[named.unwrap()] = 0;
                    exit.terms[b] = t;
                }
            }
        })
    };
    assert!(found_by_calls(once));
    // a cut that leaves one head: it names the term above the count
    let left: Calls = |s, r| {
        let mut o = model::run(s, r);
        if o.code == 8 && r.call.number() >= 8 {
            if let Some(b) = (0..BUCKETS).find(|&b| s.terms[b] == 0) {
                o.exit.terms[b] = s.count() + 1;
            }
        }
        o
    };
    let mut d = Draft { spare: [1, 40, 40, 4, 4], ..Draft::default() };
    let (at, x, y) = (d.constant("@"), d.variable("x"), d.variable("y"));
    let (s, r) = (lay_out(&d), Request::new(Call::ResolveEquation { lhs: vec![x, y], rhs: vec![at], guard: 1 }));
    assert!(difference(&s, &r, &model::run(&s, &r), &left(&s, &r)).is_some());
    // an audit that does not look at the heads of buckets without terms
    let empty: Calls = |s, r| {
        seen_as(s, r, |good| {
            let has: Vec<usize> = (1..=good.count()).map(|t| bucket(good, t)).collect();
            (0..BUCKETS).filter(|b| !has.contains(b)).for_each(|b| good.terms[b] = 0);
        })
    };
    assert!(found_by_damage(empty));
    // one that does not look where a chain ends
    let ends: Calls = |s, r| {
        seen_as(s, r, |good| {
            for t in 1..=good.count() {
                if (t + 1..=good.count()).all(|u| bucket(good, u) != bucket(good, t)) {
                    good.terms[term_place(t, NEXT)] = 0;
                }
            }
        })
    };
    assert!(found_by_damage(ends));
    // one that looks at a ninth word that is not counted
    let free: Calls = |s, r| {
        let mut o = model::run(s, r);
        let above = s.terms.get(term_place(s.count() + 1, NEXT));
        if o.code == 0 && above.is_some_and(|&next| next != 0) {
            o = Outcome::idle(s, r, 12);
        }
        o
    };
    assert!(found_by_damage(free));
    // a wrong argument before the index
    let early: Calls = |s, r| {
        let mut o = model::run(s, r);
        if o.code == 12 && r.call == (Call::Find { t: 0 }) {
            o.code = 5;
        }
        o
    };
    let mut s = labels();
    s.terms[5] = 5;
    let r = Request::new(Call::Find { t: 0 });
    assert!(difference(&s, &r, &oracle::run(&s, &r, Mode::Departing).outcome, &early(&s, &r)).is_some());
}

// a call that takes a store for another, which it would leave as it is
fn seen_as(s: &Lent, r: &Request, mend: impl Fn(&mut Lent)) -> Outcome {
    let mut o = model::run(s, r);
    if o.code == 12 {
        let mut good = s.clone();
        mend(&mut good);
        o = Outcome { exit: s.clone(), ..model::run(&good, r) };
    }
    o
}

// going back leaves heads and ninth words, and lists find where it does not
#[test]
fn going_back_leaves_the_index() {
    let act = |s: &Marked, a: &Act, n: usize| {
        let mut told = marks::run(s, a, n);
        if told.code == 0 && matches!(a, Act::GoBack { .. }) && s.store.count() > 0 {
            let at = term_place(1, NEXT);
            told.exit.store.terms[at] ^= 1;
        }
        Some(told)
    };
    let by = Answering { call: &|s, r| Some(model::run(s, r)), act: &act };
    assert!((0..200).any(|i| lists::list(&mut Random::new(i), &by, &mut lists::Tally::default()).is_err()));
}
