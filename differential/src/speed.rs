//! Calls a second of the unchanged Rust and of the port, on the same stores.

use crate::{
    call::Call,
    draft::lay_out,
    generate::{self, Profile},
    lent::Lent,
    oracle::{refused_at_entry, World},
    random::Random,
};
use std::time::Instant;

pub(crate) const SIZES: [usize; 4] = [8, 64, 256, 512];
pub(crate) const KINDS: [(usize, &str); 5] =
    [(7, "explain"), (8, "normal_form"), (9, "deep_normal_form"), (10, "resolve_equation"), (11, "step")];
const REPEATS: usize = 40;

// the seconds that each of three takes at the least, of many times in turn: what else the machine does only adds to a time
fn least(mut works: [&mut dyn FnMut(); 3]) -> [f64; 3] {
    let mut best = [f64::INFINITY; 3];
    for _ in 0..REPEATS {
        for (work, best) in works.iter_mut().zip(&mut best) {
            let start = Instant::now();
            work();
            *best = start.elapsed().as_secs_f64().min(*best);
        }
    }
    best
}

pub(crate) struct Sample {
    pub store: Lent,
    pub calls: Vec<Call>,
}

pub(crate) fn samples(random: &mut Random, terms: usize, kind: usize) -> Vec<Sample> {
    (0..20)
        .map(|_| {
            let p = Profile { terms, merges: 8, letters: 3, longest: 5 };
            let mut d = generate::draft(random, p);
            d.specs.truncate(terms);
            d.spare = [600, 2100, 16500, 4200, 4200];
            d.names = 0;
            let d = fit(d);
            let store = lay_out(&d);
            let calls = (0..20)
                .map(|_| generate::call(random, &store, kind))
                .filter(|c| c.number() == kind && refused_at_entry(&store, &crate::call::Request::new(c.clone())) == 0)
                .collect();
            Sample { store, calls }
        })
        .collect()
}

// without what the terms cut off were named in
fn fit(mut d: crate::draft::Draft) -> crate::draft::Draft {
    let n = d.count();
    d.edges.retain(|e| e.a <= n && e.b <= n);
    d.keys.retain(|k| k.1 <= n);
    d
}

// the pairs of explain's calls as one call of nf_equal_explain, which explains them one by one after one audit
fn together(samples: &[Sample]) -> Vec<Sample> {
    let pair = |c: &Call| match c {
        Call::Explain { a, b } => (*a, *b),
        _ => unreachable!(),
    };
    let call = |s: &Sample| {
        let (lhs, rhs) = s.calls.iter().map(pair).unzip();
        Call::NfEqualExplain { lhs, rhs }
    };
    samples.iter().map(|s| Sample { store: s.store.clone(), calls: vec![call(s)] }).collect()
}

fn row(terms: usize, name: &str, samples: &[Sample], calls: usize) {
    let [rust, port, audit] = samples.iter().map(times).fold([0.0; 3], |a, b| [a[0] + b[0], a[1] + b[1], a[2] + b[2]]);
    let rate = |seconds: f64| calls as f64 / seconds;
    print!("{terms:5}  {name:17} {:13.0}", rate(rust));
    println!(" {:13.0} {:11.0} {:10.2} {:19.2}", rate(port), rate(audit), rust / port, rust / (port - audit).max(1e-9));
}

pub fn table(seed: u64) {
    println!("terms  call               Rust calls/s  port calls/s    audits/s  port/Rust  without audit/Rust");
    for terms in SIZES {
        let mut random = Random::new(seed);
        for (kind, name) in KINDS {
            let samples = samples(&mut random, terms, kind);
            let calls: usize = samples.iter().map(|s| s.calls.len()).sum();
            row(terms, name, &samples, calls);
            if name == "explain" {
                row(terms, "explain, together", &together(&samples), calls);
            }
        }
    }
}

/// The inputs that cost most, in seconds, each audit included.
pub fn worst() {
    use crate::{audit::audit, call::Request, compare::difference, model, oracle};
    println!("     Rust     audit      port  result");
    for (name, store, call) in generate::worst() {
        assert_eq!(audit(&store), 0, "{name}");
        let request = Request::new(call);
        let mut world = World::load(&store);
        let start = Instant::now();
        world.timed(&store, &request.call);
        print!("{:9.6}", start.elapsed().as_secs_f64());
        let expected = oracle::run(&store, &request, oracle::Mode::Departing).outcome;
        assert_eq!(difference(&store, &request, &expected, &model::run(&store, &request)), None, "{name}");
        worst_port(&store, &request, &expected);
        println!("  {} {:?}  {name}", expected.code, &expected.answer[..expected.meant(&request.call).0]);
    }
}

#[cfg(feature = "port")]
fn worst_port(store: &Lent, request: &crate::call::Request, expected: &crate::call::Outcome) {
    use crate::{call::Request, compare::difference, port};
    for r in [&Request::new(Call::Audit), request] {
        let start = Instant::now();
        let got = port::run(store, r);
        print!(" {:9.6}", start.elapsed().as_secs_f64());
        if let (Some(got), true) = (got, r == request) {
            assert_eq!(difference(store, request, expected, &got), None);
        }
    }
}

#[cfg(not(feature = "port"))]
fn worst_port(_: &Lent, _: &crate::call::Request, _: &crate::call::Outcome) {
    print!("                    ");
}

// seconds that the calls on one store take: the Rust, the port, and the port's audit as often, which the Rust does not have
#[cfg(feature = "port")]
fn times(s: &Sample) -> [f64; 3] {
    use crate::{
        index,
        port::{call, Lending},
    };
    let (mut world, mut list, mut answer) = (World::load(&s.store), [0; 1024], [0; 8]);
    let mut stores = [s.store.clone(), s.store.clone()];
    let [store, audited] = &mut stores;
    let mut rust = || s.calls.iter().for_each(|c| world.timed(&s.store, c));
    let mut port = || {
        for c in &s.calls {
            call(&mut Lending { store, list: &mut list, answer: &mut answer }, c);
            let grown = store.count() > s.store.count();
            store.state.copy_from_slice(&s.store.state);
            // as the Rust forgets what a call made
            if grown {
                index::cut(store);
            }
        }
    };
    let mut audit = || {
        for _ in &s.calls {
            call(&mut Lending { store: audited, list: &mut [], answer: &mut [] }, &Call::Audit);
        }
    };
    let seconds = least([&mut rust, &mut port, &mut audit]);
    assert_eq!(call(&mut Lending { store: &mut stores[0], list: &mut [], answer: &mut [] }, &Call::Audit), 0, "taken back");
    seconds
}

#[cfg(not(feature = "port"))]
fn times(s: &Sample) -> [f64; 3] {
    let mut world = World::load(&s.store);
    let mut rust = || s.calls.iter().for_each(|c| world.timed(&s.store, c));
    least([&mut rust, &mut || (), &mut || ()])
}
