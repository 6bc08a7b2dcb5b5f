//! The forced length by hand, on the small stores, and that it finds planted faults.

use differential::{
    call::*,
    draft::*,
    lengths::{one, round, small, Tally},
    lent::Lent,
    model,
    oracle::{self, Mode},
    random::Random,
};

fn by_model(s: &Lent, r: &Request) -> Option<Outcome> {
    Some(model::run(s, r))
}

// the answer's six words, or the refusal, by the Rust's own tests, the definitions written once more, and the port
fn asked(s: &Lent, lhs: &[u32], rhs: &[u32]) -> Result<Vec<u32>, u32> {
    let r = Request::new(Call::ForcedLength { lhs: lhs.to_vec(), rhs: rhs.to_vec() });
    one(&by_model, s, &r, &mut Tally::default()).unwrap();
    #[cfg(feature = "port")]
    one(&differential::port::run, s, &r, &mut Tally::default()).unwrap();
    let o = oracle::run(s, &r, Mode::Departing).outcome;
    if o.code == 0 {
        Ok(o.answer[..6].to_vec())
    } else {
        Err(o.code)
    }
}

// the manual's labels, and those of the readings
#[test]
fn by_hand() {
    let mut d = Draft { spare: [0; 5], ..Draft::default() };
    let [x, y, z] = ["x", "y", "z"].map(|n| d.variable(n));
    let [a, ab, abc, dash, code, even] = ["a", "A7", "A7-", "-", "A7-A71", "A7-A7"].map(|w| d.constant(w));
    let joined = d.concat(&[x, ab]);
    d.merge(x, y, Label::Asserted(1));
    let s = lay_out(&d);
    assert_eq!(asked(&s, &[code], &[z, dash, z]), Ok(vec![0, 2, 1, 6, 2, 1]));
    assert_eq!(asked(&s, &[z, dash, z], &[even]), Ok(vec![0, 2, 1, 5, 2, 0]));
    assert_eq!(asked(&s, &[ab], &[z, abc, z]), Ok(vec![1, 2, 3, 2, 1, 0]));
    assert_eq!(asked(&s, &[x], &[ab]), Ok(vec![0, 1, 0, 2, 2, 0]));
    assert_eq!(asked(&s, &[], &[x, x]), Ok(vec![0, 2, 0, 0, 0, 0]));
    // one class under two numbers, stripped heads of one class, a concatenation flattened
    assert_eq!(asked(&s, &[abc], &[x, y]), Ok(vec![0, 2, 0, 3, 1, 1]));
    assert_eq!(asked(&s, &[x, abc], &[y, z, z]), Ok(vec![0, 2, 0, 3, 1, 1]));
    assert_eq!(asked(&s, &[joined, y], &[abc, ab]), Ok(vec![0, 2, 2, 5, 1, 1]));
    // nothing left, both constant, neither, two classes; more than 1,024 atoms
    for (l, r) in [(vec![x], vec![y]), (vec![a], vec![ab]), (vec![x], vec![z]), (vec![abc], vec![x, z])] {
        assert_eq!(asked(&s, &l, &r), Err(11));
    }
    assert_eq!(asked(&s, &[joined; 513], &[a]), Err(6));
}

// reasons full: the numbers are shown, and the ordinary call is refused with 7
#[test]
fn reasons_full() {
    let mut d = Draft { spare: [0; 5], ..Draft::default() };
    let [x, y, z] = ["x", "y", "z"].map(|n| d.variable(n));
    let abc = d.constant("abc");
    d.merge(x, y, Label::Asserted(1));
    let s = lay_out(&d);
    assert_eq!(asked(&s, &[x, abc], &[y, z, z]), Ok(vec![0, 2, 0, 3, 1, 1]));
    assert_eq!(oracle::resolve_equation(&s, &[x, abc], &[y, z, z], 1, Mode::Departing).outcome.code, 7);
}

fn all_of(call: &dyn Fn(&Lent, &Request) -> Option<Outcome>, stores: &[Lent]) -> Result<Tally, String> {
    let (mut random, mut tally) = (Random::new(1), Tally::default());
    for i in 0..stores.len() as u64 + 50 {
        round(i, stores, &mut random, call, &mut tally)?;
    }
    Ok(tally)
}

// every eleventh small store, and some drawn ones: every outcome is met
#[test]
fn small_stores() {
    let some: Vec<Lent> = small().into_iter().step_by(11).collect();
    let t = all_of(&by_model, &some).unwrap();
    assert!(t.spans.iter().chain(&t.refuted).all(|&n| n > 0) && t.codes[11] > 0 && t.codes[5] > 0, "{:?} {:?} {:?}", t.spans, t.refuted, t.codes);
    #[cfg(feature = "port")]
    assert_eq!(all_of(&differential::port::run, &some).unwrap().calls, t.calls);
}

// a call that strips no class match, one that counts a variable among the constants, one with the shortage the other way round
#[test]
fn planted_faults() {
    let some: Vec<Lent> = small().into_iter().step_by(11).collect();
    let apart = |s: &Lent, r: &Request| {
        let mut t = s.clone();
        for i in 1..=t.count() {
            t.class_words(i).copy_from_slice(&[i, i, 4, 0, 0]);
        }
        let mut got = model::run(if r.call.number() == 15 { &t } else { s }, r);
        if r.call.number() == 15 {
            got.exit = s.clone();
        }
        Some(got)
    };
    let changed = |change: fn(&mut Outcome)| {
        move |s: &Lent, r: &Request| {
            let mut got = model::run(s, r);
            if r.call.number() == 15 && got.code == 0 {
                change(&mut got);
            }
            Some(got)
        }
    };
    let counted = changed(|o| o.answer[2] += 1);
    let turned = changed(|o| {
        if o.answer[0] == 1 {
            o.answer[4] = o.answer[4].wrapping_neg();
        }
    });
    assert!(all_of(&apart, &some).is_err() && all_of(&counted, &some).is_err() && all_of(&turned, &some).is_err());
}
