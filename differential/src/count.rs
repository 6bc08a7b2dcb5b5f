//! Instructions for each call of the unchanged Rust, of the port and of its audit alone, on the same stores. Run under
//! `valgrind --tool=callgrind`, which counts the same whatever else the machine does.

use crate::{
    audit::audit,
    call::{Call, Request},
    generate::compiled,
    lent::Lent,
    oracle::World,
    port::{call, run, Lending},
    random::Random,
    speed::{samples, Sample, KINDS, SIZES},
};
use std::{arch::asm, fs};

const CASES: [&str; 7] = ["done", "saturated", "conflict", "propagate", "split", "unexpanded", "refused"];

// callgrind's requests: to count, from 0 on, to write the count to a file, and to stop
const START: u64 = 0x4354_0004;
const ZERO: u64 = 0x4354_0001;
const DUMP: u64 = 0x4354_0000;
const STOP: u64 = 0x4354_0005;

// the instructions that valgrind takes for a request; they change nothing
fn request(number: u64) {
    let words = [number, 0, 0, 0, 0, 0];
    unsafe {
        asm!("rol rdi, 3", "rol rdi, 13", "rol rdi, 61", "rol rdi, 51", "xchg rbx, rbx", in("rax") words.as_ptr(), inout("rdx") 0u64 => _);
    }
}

/// The count files that were written so far.
pub(crate) struct Counter {
    file: String,
    dumps: u32,
}

impl Counter {
    pub fn new(file: &str) -> Self {
        Counter { file: file.into(), dumps: 0 }
    }

    pub fn count(&mut self, work: impl FnOnce()) -> u64 {
        request(START);
        request(ZERO);
        work();
        request(DUMP);
        request(STOP);
        self.dumps += 1;
        let path = format!("{}.{}", self.file, self.dumps);
        let Ok(text) = fs::read_to_string(&path) else {
            eprintln!("no {path}: run under valgrind --tool=callgrind --callgrind-out-file={}", self.file);
            std::process::exit(1);
        };
        let total = text.lines().find_map(|l| l.strip_prefix("totals: ").or(l.strip_prefix("summary: ")));
        total.and_then(|n| n.trim().parse().ok()).expect("a total")
    }
}

// the case of each call's answer; the kinds without cases have one
fn case(s: &Sample, c: &Call) -> usize {
    let o = run(&s.store, &Request::new(c.clone())).expect("a call that the port has");
    match c {
        Call::ResolveEquation { .. } | Call::Step { .. } => {
            if o.code == 0 {
                o.answer[0] as usize
            } else {
                6
            }
        }
        _ => 0,
    }
}

// the samples with the calls of one case alone
fn of_case(samples: &[Sample], cases: &[Vec<usize>], case: usize) -> Vec<Sample> {
    let kept = |s: &Sample, cs: &[usize]| s.calls.iter().zip(cs).filter(|(_, k)| **k == case).map(|(c, _)| c.clone()).collect();
    samples.iter().zip(cases).map(|(s, cs)| Sample { store: s.store.clone(), calls: kept(s, cs) }).collect()
}

// each call on a store of its own, so that nothing has to be taken back
fn port(stores: &mut [Vec<Lent>], samples: &[Sample], audit: bool) {
    let (mut list, mut answer) = ([0; 1024], [0; 8]);
    for (stores, s) in stores.iter_mut().zip(samples) {
        for (store, c) in stores.iter_mut().zip(&s.calls) {
            call(&mut Lending { store, list: &mut list, answer: &mut answer }, if audit { &Call::Audit } else { c });
        }
    }
}

fn rust(worlds: &mut [World], samples: &[Sample]) {
    for (w, s) in worlds.iter_mut().zip(samples) {
        for c in &s.calls {
            w.timed(&s.store, c);
        }
    }
}

/// Where the counts are written is `file`, as valgrind was told.
pub fn table(seed: u64, kinds: &[usize], file: &str) {
    let mut counter = Counter::new(file);
    println!("terms  call               case        calls      Rust     audit  port without its audit  Rust/port  dump");
    for terms in SIZES {
        let mut random = Random::new(seed);
        samples(&mut random, terms, 0);
        for (kind, name) in KINDS {
            let all = samples(&mut random, terms, kind);
            if !kinds.contains(&kind) {
                continue;
            }
            let cases: Vec<Vec<_>> = all.iter().map(|s| s.calls.iter().map(|c| case(s, c)).collect()).collect();
            for (i, called) in CASES.iter().enumerate() {
                let some = of_case(&all, &cases, i);
                let n = some.iter().map(|s| s.calls.len() as u64).sum::<u64>();
                if n == 0 {
                    continue;
                }
                let mut worlds: Vec<World> = some.iter().map(|s| World::load(&s.store)).collect();
                let mut stores: Vec<Vec<Lent>> = some.iter().map(|s| vec![s.store.clone(); s.calls.len()]).collect();
                let by_rust = counter.count(|| rust(&mut worlds, &some)) / n;
                let audit = counter.count(|| port(&mut stores, &some, true)) / n;
                let whole = counter.count(|| port(&mut stores, &some, false)) / n;
                let work = whole.saturating_sub(audit).max(1);
                let ratio = by_rust as f64 / work as f64;
                let called = if kind < 10 { "" } else { called };
                println!("{terms:5}  {name:17}  {called:10} {n:6} {by_rust:9} {audit:9} {work:23} {ratio:10.2} {:5}", counter.dumps);
            }
        }
    }
    let store = compiled(70);
    assert_eq!(audit(&store), 0);
    let mut lent = store.clone();
    let alone = counter.count(|| {
        call(&mut Lending { store: &mut lent, list: &mut [], answer: &mut [] }, &Call::Audit);
    });
    println!("{:5}  the audit of a store as a compile has it, without congruences: {alone}", store.count());
}
