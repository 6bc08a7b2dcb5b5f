//! Joining, setting a mark and going back beside the unchanged Rust's merging, pushing and popping: times, and instructions under callgrind.
//! The audit of store and marks is taken apart; alone it is going back to mark 0, which answers 10.

use crate::{
    count::Counter,
    draft::{join, lay_out, Draft},
    generate::long_pairs,
    lent::{Pair, TERMS},
    marks::{Act, Marked, STANDING, WORDS},
    port::{act, ABSENT},
    random::Random,
};
use shinri_core::Lit;
use shinri_theory::{
    eq_engine::LentLabel,
    types::{ENodeId, EqJust},
    EqualityEngine,
};
use std::{hint::black_box, time::Instant};

const SIZES: [usize; 4] = [8, 32, 128, 512];
const STORES: usize = 20;
const CALLS: usize = 20;
const REPEATS: usize = 40;
const AUDIT: Act = Act::GoBack { mark: 0 };

fn joining(&(a, b): &Pair) -> Act {
    Act::Join { a, b, kind: 1, number: 1 }
}

fn merge(eq: &mut EqualityEngine, &(a, b): &Pair) {
    let merged = eq.merge(ENodeId::new(a), ENodeId::new(b), EqJust::Asserted(Lit::new(1)));
    assert!(merged.is_ok());
}

// calls of the port that must answer so
fn due(s: &mut Marked, a: &Act, code: u32) {
    let got = act(s, &mut [0; 8], a);
    assert_ne!(got, ABSENT, "the library does not have {a:?}");
    assert_eq!(got, code, "{a:?}");
}

/// One store with marks and joins, the same in the Rust, and joins to come under the last mark.
struct Shape {
    // before the joins to come, and after them
    before: Marked,
    after: Marked,
    joins: Vec<Pair>,
    // at the level of the last mark, without the joins to come
    eq: EqualityEngine,
    level: usize,
    // what the port works on
    lent: Marked,
}

impl Shape {
    // the terms, some joins, then marks with some joins under each but the last
    fn new(terms: usize, under: &[Vec<Pair>], joins: Vec<Pair>) -> Self {
        let mut d = Draft { spare: [0; 5], ..Draft::default() };
        let mut eq = EqualityEngine::default();
        for t in 1..=terms as u32 {
            d.variable(&format!("x{t}"));
            eq.lend(t, t, LentLabel::Definitional);
        }
        let mut s = Marked::unmarked(lay_out(&d), vec![0; WORDS]);
        for (level, some) in under.iter().enumerate() {
            if level > 0 {
                due(&mut s, &Act::SetMark, 0);
                eq.push();
            }
            for p in some {
                due(&mut s, &joining(p), 0);
                merge(&mut eq, p);
            }
        }
        eq.drain_merges(&mut vec![]);
        let before = s.clone();
        joins.iter().for_each(|p| due(&mut s, &joining(p), 0));
        Shape { lent: before.clone(), before, after: s, joins, eq, level: under.len() - 1 }
    }

    fn lend(&mut self, after: bool) {
        let from = if after { &self.after } else { &self.before };
        self.lent.store.state.copy_from_slice(&from.store.state);
        self.lent.store.terms.copy_from_slice(&from.store.terms);
        self.lent.marks.copy_from_slice(&from.marks);
    }

    // the Rust at the last mark again, with the joins to come or without
    fn merged(&mut self, after: bool) {
        self.eq.drain_merges(&mut vec![]);
        self.eq.pop(self.level - 1);
        self.eq.push();
        if after {
            self.joins.iter().for_each(|p| merge(&mut self.eq, p));
            self.eq.drain_merges(&mut vec![]);
        }
    }
}

// so many pairs of terms apart
fn apart(random: &mut Random, class: &mut [u32], n: usize) -> Vec<Pair> {
    let mut list = vec![];
    let terms = class.len() - 1;
    let mut left = (1..class.len()).filter(|&t| class[1..].contains(&(t as u32))).count() - 1;
    while list.len() < n && left > 0 {
        let (a, b) = (random.between(1, terms) as u32, random.between(1, terms) as u32);
        if class[a as usize] != class[b as usize] {
            join(class, a, b);
            list.push((a, b));
            left -= 1;
        }
    }
    list
}

// a quarter of the terms joined, and marks with joins under each; the last has those to come
fn drawn(random: &mut Random, terms: usize, marks: usize, each: usize) -> Shape {
    let mut class: Vec<u32> = (0..=terms as u32).collect();
    let mut under = vec![apart(random, &mut class, terms / 4)];
    for _ in 1..marks {
        under.push(apart(random, &mut class, each));
    }
    under.push(vec![]);
    let joins = apart(random, &mut class, each);
    Shape::new(terms, &under, joins)
}

fn shapes(random: &mut Random, terms: usize) -> Vec<Shape> {
    (0..STORES).map(|_| drawn(random, terms, 1, CALLS)).collect()
}

/// What is timed: the Rust, the port, and as many audits of the same stores; for joins each audit with its join.
#[derive(Clone, Copy, PartialEq)]
enum By {
    Rust,
    Port,
    Audit,
}

#[derive(Clone, Copy, PartialEq)]
enum Work {
    Join,
    SetMark,
    GoBack,
}

fn made_ready(s: &mut [Shape], work: Work) {
    for s in s {
        s.lend(work == Work::GoBack);
        s.merged(work == Work::GoBack);
    }
}

fn calls(s: &Shape, work: Work) -> usize {
    match work {
        Work::Join => s.joins.len(),
        Work::SetMark => CALLS,
        Work::GoBack => 1,
    }
}

fn run(s: &mut Shape, work: Work, by: By) {
    let answer = &mut [0; 8];
    match (work, by) {
        (Work::Join, By::Rust) => s.joins.iter().for_each(|p| merge(&mut s.eq, p)),
        (Work::Join, By::Port) => {
            for p in &s.joins {
                black_box(act(&mut s.lent, answer, &joining(p)));
            }
        }
        (Work::SetMark, By::Rust) => (0..CALLS).for_each(|_| s.eq.push()),
        (Work::SetMark, By::Port) => {
            let marks = s.lent.store.state[6];
            for _ in 0..CALLS {
                black_box(act(&mut s.lent, answer, &Act::SetMark));
                s.lent.store.state[6] = marks;
            }
        }
        (Work::GoBack, By::Rust) => s.eq.pop(s.level - 1),
        (Work::GoBack, By::Port) => {
            black_box(act(&mut s.lent, answer, &Act::GoBack { mark: s.level as u32 }));
        }
        (Work::Join, By::Audit) => {
            for p in &s.joins {
                black_box(act(&mut s.lent, answer, &AUDIT));
                black_box(act(&mut s.lent, answer, &joining(p)));
            }
        }
        (_, By::Audit) => {
            for _ in 0..calls(s, work) {
                black_box(act(&mut s.lent, answer, &AUDIT));
            }
        }
    }
}

// seconds at the least, of many times in turn
fn least(shapes: &mut [Shape], work: Work) -> [f64; 3] {
    let mut best = [f64::INFINITY; 3];
    for _ in 0..REPEATS {
        for (by, best) in [By::Rust, By::Port, By::Audit].into_iter().zip(&mut best) {
            made_ready(shapes, work);
            let start = Instant::now();
            shapes.iter_mut().for_each(|s| run(s, work, by));
            *best = start.elapsed().as_secs_f64().min(*best);
        }
    }
    made_ready(shapes, work);
    apart_from(work, best)
}

// the audits alone
fn apart_from<T: std::ops::Sub<Output = T> + Copy>(work: Work, [rust, port, audit]: [T; 3]) -> [T; 3] {
    [rust, port, if work == Work::Join { audit - port } else { audit }]
}

const WORKS: [(Work, &str); 3] = [(Work::Join, "join"), (Work::SetMark, "set_mark"), (Work::GoBack, "go_back")];

fn checked(shapes: &mut [Shape]) {
    for s in shapes {
        s.lend(true);
        due(&mut s.lent, &AUDIT, 10);
        due(&mut s.lent, &Act::GoBack { mark: s.level as u32 }, 0);
        assert_eq!(s.lent.store.terms, s.before.store.terms, "gone back");
    }
}

fn many_marks(random: &mut Random) -> Vec<Shape> {
    (0..STORES).map(|_| drawn(random, TERMS, 63, 4)).collect()
}

fn timed(terms: usize, name: &str, shapes: &mut [Shape]) {
    checked(shapes);
    for (work, called) in WORKS {
        let n: usize = shapes.iter().map(|s| calls(s, work)).sum();
        let [rust, port, audit] = least(shapes, work).map(|t| t / n as f64);
        let per = |t: f64| 1.0 / t;
        print!("{terms:5}  {:22} {n:6} {:13.0} {:13.0} {:11.0}", format!("{called}{name}"), per(rust), per(port), per(audit));
        println!(" {:10.5}", rust / port);
    }
}

pub fn table(seed: u64) {
    println!("terms  call                    calls  Rust calls/s  port calls/s    audits/s  port/Rust");
    for terms in SIZES {
        timed(terms, "", &mut shapes(&mut Random::new(seed), terms));
    }
    timed(TERMS, ", 63 marks", &mut many_marks(&mut Random::new(seed)));
    worst();
}

// seconds that the audit of store and marks takes on the inputs that cost most
fn worst() {
    println!("    audit  marks  joins");
    let free = || vec![0; WORDS];
    // 64 marks, and after each so many joins of a line; the line's end is the root of all
    let marked = |mut s: Marked, from: u32, each: u32| {
        for mark in 0..STANDING {
            due(&mut s, &Act::SetMark, 0);
            (0..each).for_each(|i| due(&mut s, &joining(&(from + mark * each + i, from + mark * each + i + 1)), 0));
        }
        s
    };
    let tell = |name: &str, mut s: Marked| {
        let start = Instant::now();
        due(&mut s, &AUDIT, 10);
        println!("{:9.6} {:6} {:6}  {name}", start.elapsed().as_secs_f64(), s.standing(), s.joins());
    };
    let separate = Shape::new(TERMS, &[vec![], vec![]], vec![]).before;
    let none = Marked::unmarked(separate.store, free());
    tell("512 terms in one line, 7 joins after each mark", marked(none.clone(), 1, 7));
    tell("512 separate terms", marked(none, 1, 0));
    // the most cells with a table of heights of each size
    for pairs in [20, 170, 682] {
        let mut s = Marked::unmarked(long_pairs(127, pairs, 0), free());
        let name = format!("256 congruences of {pairs} pairs with paths of 254 edges");
        tell(&format!("{name}, no mark"), s.clone());
        // 64 marks with no join: set by hand, since each call audits those before
        s.store.state[6] = STANDING;
        tell(&name, s);
        // a join after each mark, of variables apart
        let s = Marked::unmarked(long_pairs(127, pairs, STANDING + 1), free());
        let name = format!("{} congruences of {pairs} pairs with paths of 254 edges, a join after each mark", TERMS as u32 - 256 - STANDING - 1);
        tell(&name, marked(s, TERMS as u32 - STANDING, 1));
    }
}

// a line of joins, so that the way up from term 1 has so many edges in the forest and in its class; then 1 is joined with the last term
fn line(terms: usize, length: usize) -> Shape {
    let under: Vec<Pair> = (1..=length as u32).map(|t| (t, t + 1)).collect();
    Shape::new(terms, &[under, vec![]], vec![(1, terms as u32)])
}

fn counted(counter: &mut Counter, terms: usize, name: &str, shapes: &mut [Shape], work: Work) {
    let n: u64 = shapes.iter().map(|s| calls(s, work) as u64).sum();
    let whole = [By::Rust, By::Port, By::Audit].map(|by| {
        // once before, so that the Rust's lists have their room
        made_ready(shapes, work);
        shapes.iter_mut().for_each(|s| run(s, work, by));
        made_ready(shapes, work);
        counter.count(|| shapes.iter_mut().for_each(|s| run(s, work, by)))
    });
    made_ready(shapes, work);
    let [rust, port, audit] = apart_from(work, whole).map(|x| x / n);
    let own = port.saturating_sub(audit).max(1);
    println!("{terms:5}  {name:26} {n:6} {rust:9} {audit:9} {own:23} {:10.2}", rust as f64 / own as f64);
}

/// Where the counts are written is `file`, as valgrind was told.
pub fn counts(seed: u64, file: &str) {
    let mut counter = Counter::new(file);
    println!("terms  call                        calls      Rust     audit  port without its audit  Rust/port");
    for terms in SIZES {
        let mut shapes = shapes(&mut Random::new(seed), terms);
        checked(&mut shapes);
        for (work, called) in WORKS {
            counted(&mut counter, terms, called, &mut shapes, work);
        }
    }
    let mut shapes = many_marks(&mut Random::new(seed));
    for (work, called) in WORKS {
        counted(&mut counter, TERMS, &format!("{called}, 63 marks"), &mut shapes, work);
    }
    for (terms, length) in [(8, 4), (32, 4), (128, 4), (512, 4), (512, 0), (512, 1), (512, 16), (512, 64), (512, 256), (512, 510)] {
        let mut shapes = [line(terms, length)];
        checked(&mut shapes);
        counted(&mut counter, terms, &format!("join, {length} edges up"), &mut shapes, Work::Join);
        counted(&mut counter, terms, &format!("go_back, {length} edges up"), &mut shapes, Work::GoBack);
    }
}
