//! Document 01 and document 02's Notes 4 and 5, written anew, against the unchanged Rust with the departures laid on top.

use differential::{
    call::{Call, NAMES, SPLIT},
    compare::difference,
    draft::lay_out,
    generate, model,
    oracle::{self, Mode},
    random::Random,
};

// the results, the cases of wordeq and of the step, the departures met, calls answered that were refused under 7 if reasons were repeated,
// Splits held back by reasons that were listed already, and Splits by the terms that they made, over a character and over two heads
#[derive(Default)]
struct Met {
    codes: [u32; 12],
    cases: [u32; 6],
    departures: [u32; 3],
    once: [u32; 2],
    made: [[u32; 4]; 2],
}

fn compare(seed: u64, count: usize, limits: bool) -> Met {
    let mut random = Random::new(seed);
    let mut met = Met::default();
    for i in 0..count {
        let d = if limits {
            generate::at_limits(&mut random)
        } else {
            let p = generate::profile(&mut random);
            let mut d = generate::draft(&mut random, p);
            generate::hand_in(&mut random, &mut d);
            generate::lay_ahead(&mut random, &mut d);
            d
        };
        let s = lay_out(&d);
        for kind in 0..NAMES.len() {
            let r = if limits && random.one_in(3) {
                generate::long_request(&mut random, &s, kind)
            } else {
                generate::request(&mut random, &s, kind)
            };
            let a = oracle::run(&s, &r, Mode::Departing);
            let b = model::run(&s, &r);
            met.codes[a.outcome.code as usize] += 1;
            if a.outcome.code == 0 && matches!(r.call, Call::ResolveEquation { .. } | Call::Step { .. }) {
                met.cases[a.outcome.answer[0] as usize] += 1;
                if a.outcome.answer[0] == SPLIT {
                    let heads = a.outcome.answer[1] as usize - 2;
                    met.made[heads][a.outcome.answer[3] as usize - [3, 6][heads]] += 1;
                }
            }
            met.once[0] += (a.once.seven && a.outcome.code == 0) as u32;
            met.once[1] += a.once.held_back as u32;
            let d = a.departures;
            met.departures.iter_mut().zip([d.passed, d.occurrence, d.forced]).for_each(|(x, y)| *x += y);
            if let Some(what) = difference(&s, &r, &a.outcome, &b) {
                panic!("{i}: {what}\n{r:?}\n{s}\n{}\n{b}", a.outcome);
            }
        }
    }
    met
}

#[test]
fn random_stores() {
    let met = compare(3, 4_000, false);
    let all = [&met.codes[5..6], &met.codes[7..10], &met.cases, &met.departures, &met.once, &met.made.concat()].concat();
    let met = (met.codes, met.cases, met.departures, met.once, met.made);
    assert!(met.0[0] > 0 && all.iter().all(|&n| n > 0), "{met:?}");
}

#[test]
fn stores_at_their_limits() {
    let met = compare(4, 200, true);
    assert!(met.codes[6] > 0 && met.codes[7] > 0 && met.codes[8] > 0, "{:?}", met.codes);
}
