//! Characters renamed into the standard's range: the model stands, and planted faults are found.

use differential::{
    call::*,
    draft::lay_out,
    generate,
    lent::Lent,
    lists::Answering,
    marks, model,
    random::Random,
    renamed::{acts, one, Tally},
};

fn tried(call: &(dyn Fn(&Lent, &Request) -> Option<Outcome> + Sync), rounds: u64) -> (Tally, u64) {
    let act = |s: &marks::Marked, a: &marks::Act, n: usize| {
        // an act is refused as the audit is
        let audited = call(&s.store, &Request::new(Call::Audit))?.code;
        let mut told = marks::run(s, a, n);
        if audited != 0 {
            told.code = audited;
        }
        Some(told)
    };
    let by = Answering { call, act: &act };
    let (mut tally, mut wrong) = (Tally::default(), 0);
    for i in 0..rounds {
        let random = &mut Random::new(i);
        let p = generate::profile(random);
        let s = lay_out(&generate::draft(random, p));
        for kind in 0..NAMES.len() {
            let r = generate::request(random, &s, kind);
            wrong += one(random, &by, &s, &r, &mut tally).is_err() as u64;
        }
        wrong += acts(random, &by, &s, &mut tally).is_err() as u64;
    }
    (tally, wrong)
}

#[test]
fn renaming_changes_no_answer() {
    let (tally, wrong) = tried(&|s, r| Some(model::run(s, r)), 400);
    assert_eq!(wrong, 0);
    assert!(tally.calls.iter().all(|&n| n > 0) && tally.images.iter().all(|&n| n > 100) && tally.outside > 0 && tally.acts > 0);
}

/// A counted character of the store or of the call for which a test holds.
fn any(s: &Lent, r: &Request, test: impl Fn(u32) -> bool) -> bool {
    let handed: &[u32] = match &r.call {
        Call::MakeConstant { text } | Call::MakeVariable { name: text } => text,
        _ => &[],
    };
    s.counted()[3].iter().chain(handed).any(|&c| test(c))
}

#[test]
fn planted_faults_are_found() {
    // surrogates are refused; the highest character is; those above FFFF are cut in the answer
    let refusing = |s: &Lent, r: &Request, wrong: bool| Some(if wrong { Outcome::idle(s, r, 2) } else { model::run(s, r) });
    let surrogates = |s: &Lent, r: &Request| refusing(s, r, any(s, r, |c| (0xD800..0xE000).contains(&c)));
    assert!(tried(&surrogates, 40).1 > 0);
    let highest = |s: &Lent, r: &Request| refusing(s, r, any(s, r, |c| c == 0x2FFFF));
    assert!(tried(&highest, 40).1 > 0);
    let cut = |s: &Lent, r: &Request| {
        let mut o = model::run(s, r);
        let above = s.state[2] as usize;
        o.exit.chars[above..].iter_mut().for_each(|c| *c &= 0xFFFF);
        Some(o)
    };
    assert!(tried(&cut, 40).1 > 0);
    // characters are taken for equal where their last sixteen bits are
    let low = |s: &Lent, r: &Request| {
        let mut t = s.clone();
        t.chars.iter_mut().for_each(|c| *c &= 0xFFFF);
        let mut o = model::run(&t, r);
        let counted = s.state[2] as usize;
        if s.chars.len() >= counted {
            o.exit.chars[..counted].copy_from_slice(&s.chars[..counted]);
        }
        Some(o)
    };
    assert!(tried(&low, 40).1 > 0);
}
