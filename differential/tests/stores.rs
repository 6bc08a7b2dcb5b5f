//! The generated stores pass the audit, and the Rust runs on them.

use differential::{
    audit::audit,
    call::NAMES,
    damage,
    draft::lay_out,
    generate,
    oracle::{self, Mode},
    random::Random,
};

#[test]
fn random_stores_pass() {
    let mut random = Random::new(1);
    for i in 0..20_000 {
        let p = generate::profile(&mut random);
        let d = generate::draft(&mut random, p);
        let s = lay_out(&d);
        assert_eq!(audit(&s), 0, "draft {i}: {d:?}\n{s}");
        let kind = random.below(NAMES.len());
        let r = generate::request(&mut random, &s, kind);
        let a = oracle::run(&s, &r, Mode::Departing);
        assert_eq!(audit(&a.outcome.exit), 0, "after {r:?}: {d:?}\n{s}");
    }
}

#[test]
fn stores_at_their_limits_pass() {
    let mut random = Random::new(2);
    for i in 0..1_000 {
        let d = generate::at_limits(&mut random);
        let s = lay_out(&d);
        assert_eq!(audit(&s), 0, "draft {i}: {d:?}\n{s}");
        let kind = random.below(NAMES.len());
        let r = if random.one_in(3) { generate::long_request(&mut random, &s, kind) } else { generate::request(&mut random, &s, kind) };
        let a = oracle::run(&s, &r, Mode::Departing);
        assert_eq!(audit(&a.outcome.exit), 0, "after {r:?}: {d:?}\n{s}");
    }
}

// every rule can be broken alone, and the audit says which refusal is due
#[test]
fn damaged_stores_fail() {
    let mut random = Random::new(6);
    let rules = damage::rules();
    let mut broken = vec![0; rules.len()];
    for _ in 0..2_000 {
        let p = generate::profile(&mut random);
        let s = lay_out(&generate::draft(&mut random, p));
        for (i, rule) in rules.iter().enumerate() {
            broken[i] += damage::broken(&s, rule, &mut random).is_some() as u32;
        }
        audit(&damage::scrambled(&s, &mut random));
        audit(&damage::noise(&mut random));
    }
    for (i, rule) in rules.iter().enumerate() {
        assert!(broken[i] > 20, "{}: {} broken", rule.name, broken[i]);
    }
}
