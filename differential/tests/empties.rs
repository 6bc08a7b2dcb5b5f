//! Every empty part in one call: small cases of document 02's Note 3 by hand, by the repetition in Rust, by the model and by the port, and that
//! the comparison finds planted faults.

use differential::{
    call::*,
    draft::*,
    empties,
    lent::{Lent, TERMS, VARIABLE},
    lists::Answering,
    marks, model,
    oracle::{self, Mode},
    random::Random,
};

fn parts(lhs: &[u32], rhs: &[u32]) -> Request {
    Request::new(Call::EmptyParts { lhs: lhs.to_vec(), rhs: rhs.to_vec() })
}

fn by_model<'a>(call: &'a (dyn Fn(&Lent, &Request) -> Option<Outcome> + Sync)) -> Answering<'a> {
    Answering { call, act: &|s, a, n| Some(marks::run(s, a, n)) }
}

// the outcome, after all that a call is held to, of the model and of the port
fn told(d: &Draft, lhs: &[u32], rhs: &[u32]) -> Outcome {
    let (s, r) = (lay_out(d), parts(lhs, rhs));
    let by = by_model(&|s, r| Some(model::run(s, r)));
    empties::one(&mut Random::new(1), &by, &s, &r, &mut empties::Tally::default()).unwrap();
    #[cfg(feature = "port")]
    {
        let by = Answering { call: &differential::port::run, act: &differential::port::run_act };
        empties::one(&mut Random::new(2), &by, &s, &r, &mut empties::Tally::default()).unwrap();
    }
    oracle::run(&s, &r, Mode::Departing).outcome
}

// answer words 0 to 2, the list, and how many terms there are
fn given(d: &Draft, lhs: &[u32], rhs: &[u32]) -> ([u32; 3], Vec<u32>, u32) {
    let o = told(d, lhs, rhs);
    assert_eq!(o.code, 0);
    (o.answer[..3].try_into().unwrap(), o.list[..o.answer[0] as usize].to_vec(), o.exit.count())
}

fn variables(n: usize) -> Draft {
    let mut d = Draft::default();
    for i in 0..n {
        d.variable(&format!("x{i}"));
    }
    d
}

// 'A label with eight optional parts against an empty code takes eight calls'
#[test]
fn eight_parts() {
    let d = variables(8);
    let eight: Vec<u32> = (1..=8).collect();
    assert_eq!(given(&d, &[], &eight), ([8, 9, 1], eight.clone(), 9));
    assert_eq!(given(&d, &eight, &[]), ([8, 9, 1], eight.clone(), 9));
    let full = Draft { spare: [0; 5], ..d };
    assert_eq!(told(&full, &[], &eight).code, 8);
    // no reason is added, so that 7 cannot come
    let reasons = Draft { spare: [1, 0, 0, 0, 0], reasons: vec![(1, 1)], ..full };
    assert_eq!(given(&reasons, &[], &eight).0, [8, 9, 1]);
}

#[test]
fn classes_and_places() {
    let mut d = variables(4);
    // 2 in the class of 1, 3 in that of "", which is 5; 4 in that of a second "", 6
    let (e, second) = (d.constant(""), d.constant(""));
    d.merge(2, 1, Label::Asserted(1));
    d.merge(3, e, Label::Interface(2));
    d.merge(4, second, Label::Definitional);
    assert_eq!(given(&d, &[], &[1, 1]), ([1, 5, 1], vec![1], 6));
    assert_eq!(given(&d, &[], &[2, 1]), ([1, 5, 1], vec![2], 6));
    assert_eq!(given(&d, &[3, 4, 2, 1], &[]), ([2, 5, 1], vec![4, 2], 6));
    assert_eq!(given(&d, &[], &[3, 3]), ([0, 5, 0], vec![], 6));
    // other lists
    for (l, r) in
        [(vec![], vec![]), (vec![], vec![1]), (vec![e], vec![1, 2]), (vec![], vec![1, e]), (vec![3], vec![3, 1, 4]), (vec![], vec![e, e])]
    {
        assert_eq!(given(&d, &l, &r), ([0, 0, 0], vec![], 6));
    }
    // all of them there: "" is made all the same
    let mut lone = variables(2);
    let a = lone.constant("a");
    lone.merge(1, 2, Label::Asserted(1));
    lone.merge(1, a, Label::Asserted(1));
    assert_eq!(given(&lone, &[], &[2, 1]), ([1, 4, 1], vec![2], 4));
    assert_eq!(given(&lone, &[a], &[2, 1]), ([0, 0, 0], vec![], 3));
}

#[test]
fn flattened_first() {
    let mut d = variables(3);
    let xy = d.concat(&[1, 2]);
    let deep = d.concat(&[xy, 3, xy]);
    assert_eq!(given(&d, &[], &[deep]), ([3, 6, 1], vec![1, 2, 3], 6));
    assert_eq!(given(&d, &[xy, 3], &[]), ([3, 6, 1], vec![1, 2, 3], 6));
    let mut t = xy;
    for _ in 0..9 {
        t = d.concat(&[t, t]);
    }
    // 1,024 atoms, and two more
    assert_eq!(given(&d, &[], &[t]).1, vec![1, 2]);
    assert_eq!(told(&d, &[], &[t, xy]).code, 6);
    assert_eq!(told(&d, &[1], &[t, xy]).code, 6);
}

#[test]
fn the_longest_list() {
    let mut d = variables(TERMS - 1);
    d.spare[0] = 1;
    let all: Vec<u32> = (1..TERMS as u32).rev().collect();
    assert_eq!(given(&d, &[], &[&all[..], &all].concat()), ([511, 512, 1], all, 512));
}

type Calls = fn(&Lent, &Request) -> Outcome;

// by the last few small stores and some that are drawn
fn found_by(by: &Answering) -> bool {
    let small = empties::small();
    let first = small.len() as u64 - 4;
    (first..first + 800).any(|i| empties::round(i, &small, &mut Random::new(i), by, &mut empties::Tally::default()).is_err())
}

fn found(call: Calls) -> bool {
    found_by(&by_model(&move |s, r| Some(call(s, r))))
}

// a fault in what the model answers to the one call: of the store, the two lists as one, and the outcome
fn finds(wrong: impl Fn(&Lent, &[u32], &mut Outcome) + Sync) -> bool {
    found_by(&by_model(&|s, r| {
        let mut o = model::run(s, r);
        if let (Call::EmptyParts { lhs, rhs }, 0) = (&r.call, o.code) {
            wrong(s, &[&lhs[..], rhs].concat(), &mut o);
        }
        Some(o)
    }))
}

fn put(o: &mut Outcome, list: &[u32]) {
    o.list[..list.len()].copy_from_slice(list);
    o.answer[0] = list.len() as u32;
    o.answer[2] = !list.is_empty() as u32;
}

fn listed(o: &Outcome) -> Vec<u32> {
    o.list[..o.answer[0] as usize].to_vec()
}

#[test]
fn planted_faults_are_found() {
    assert!(!found(model::run));
    // the link flag, the number of "", words of the answer that are not named
    assert!(finds(|_, _, o| o.answer[2] = 0));
    assert!(finds(|_, _, o| o.answer[2] = 1));
    assert!(finds(|_, _, o| if o.answer[0] == 0 {
        o.answer[1] = 0
    }));
    assert!(finds(|_, _, o| o.answer[3] = 0));
    // another order; the last of each class and not the first; one variable too few
    assert!(finds(|_, _, o| {
        let mut list = listed(o);
        list.reverse();
        put(o, &list)
    }));
    assert!(finds(|s, l, o| {
        let last = |v: u32| *l.iter().rfind(|&&u| s.kind(u) == VARIABLE && s.class_root(u) == s.class_root(v)).unwrap_or(&v);
        let list: Vec<u32> = listed(o).into_iter().map(last).collect();
        put(o, &list)
    }));
    assert!(finds(|_, _, o| {
        let list = listed(o);
        put(o, &list[..list.len().min(3)])
    }));
    // a variable of the class of a second "" passed over
    assert!(finds(|_, _, o| {
        let x = o.exit.clone();
        let with_empty = |v: u32| (1..=x.count()).any(|t| x.kind(t) == 1 && x.text(t).is_empty() && x.class_root(t) == x.class_root(v));
        let list: Vec<u32> = listed(o).into_iter().filter(|&v| !with_empty(v)).collect();
        put(o, &list)
    }));
    // two variables of one class, and one of the class of ""
    assert!(finds(|s, l, o| {
        if o.answer[1] > 0 && l.len() == 2 && l.iter().all(|&t| s.kind(t) == VARIABLE) {
            put(o, l)
        }
    }));
    // one variable alone against an empty list
    assert!(finds(|s, l, o| {
        if l.len() == 1 && s.kind(l[0]) == VARIABLE {
            put(o, l)
        }
    }));
    // "" made for other lists; "" made and joined; a reason added; a reason written above the count
    assert!(finds(|s, _, o| {
        if o.answer[1] == 0 && s.room()[0] > s.count() as usize {
            o.exit.add_term(1, 0, 0);
        }
    }));
    assert!(finds(|s, _, o| {
        if let (true, Some(&v)) = (o.exit.count() > s.count(), listed(o).first()) {
            let e = o.exit.count();
            o.exit.set_class_parent(v, e);
        }
    }));
    assert!(finds(|s, _, o| {
        if o.answer[0] > 0 && s.room()[3] > s.state[3] as usize {
            o.exit.add_reason((1, 1));
        }
    }));
    assert!(finds(|s, _, o| {
        if o.answer[0] > 0 && s.room()[3] > s.state[3] as usize {
            o.exit.reasons[2 * s.state[3] as usize] ^= 1;
        }
    }));
}

#[test]
fn planted_refusals_are_found() {
    // 8 with "" there; an answer's word written with 8
    assert!(found(|s, r| match (&r.call, model::run(s, r)) {
        (Call::EmptyParts { .. }, o) if o.code == 0 && o.answer[1] > 0 && s.room()[0] == s.count() as usize => Outcome::idle(s, r, 8),
        (_, o) => o,
    }));
    assert!(found(|s, r| {
        let mut o = model::run(s, r);
        if o.code == 8 && matches!(r.call, Call::EmptyParts { .. }) {
            o.answer[0] = 0;
        }
        o
    }));
    // each refusal left out; 7 is none of this call's
    for code in 1..=8 {
        let lax = |s: &Lent, r: &Request| {
            let mut o = model::run(s, r);
            if o.code == code && matches!(r.call, Call::EmptyParts { .. }) {
                o.code = 0;
                o.answer.iter_mut().take(3).for_each(|w| *w = 0);
            }
            Some(o)
        };
        assert_eq!(found_by(&by_model(&lax)), code != 7, "{code}");
    }
}

// an ordinary call that takes the last variable, and going back that does nothing: the subject's own repetition differs from the one call
#[test]
fn faults_of_the_ordinary_call_are_found() {
    let last: Calls = |s, r| {
        let mut o = model::run(s, r);
        if let (Call::ResolveEquation { lhs, rhs, .. }, 0, PROPAGATE) = (&r.call, o.code, o.answer.first().copied().unwrap_or(0)) {
            let apart = |v: u32| s.kind(v) == VARIABLE && o.exit.class_root(v) != o.exit.class_root(o.answer[2]);
            if let (1, Some(&v)) = (o.answer[3], lhs.iter().chain(rhs).rfind(|&&v| apart(v))) {
                o.answer[1] = v;
            }
        }
        o
    };
    assert!(found(last));
    let idle = |s: &marks::Marked, a: &marks::Act, n: usize| {
        let mut t = marks::run(s, a, n);
        if matches!(a, marks::Act::GoBack { .. }) {
            t.exit.store = s.store.clone();
        }
        Some(t)
    };
    assert!(found_by(&Answering { call: &|s, r| Some(model::run(s, r)), act: &idle }));
}
