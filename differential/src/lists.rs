//! Random lists of calls that make terms, join them, set marks and go back. Each call is held to what document 02's Note 1 says of it:
//! to the words that `marks.rs` leaves; to snapshots of all terms taken at each mark; to the classes that the joins left standing
//! generate; and to the division that the unchanged Rust has after merging, pushing and popping likewise.

use crate::{
    call::*,
    claim::{answered, try_out, Tried},
    compare::difference,
    draft::{join, lay_out, Draft},
    generate,
    index::{self, Index},
    lent::*,
    marks::{self, Act, Marked, Told, ACTS, STANDING, STATE, WORDS},
    oracle::{self, Mode},
    random::Random,
};
use shinri_core::Lit;
use shinri_theory::{
    eq_engine::LentLabel,
    types::{ENodeId, EqJust},
    EqualityEngine,
};
use std::collections::{BTreeMap, HashMap};

/// Who answers; none where a call is not there.
pub struct Answering<'a> {
    pub call: &'a (dyn Fn(&Lent, &Request) -> Option<Outcome> + Sync),
    pub act: &'a (dyn Fn(&Marked, &Act, usize) -> Option<Told> + Sync),
}

/// What was met.
#[derive(Clone, Default)]
pub struct Tally {
    pub lists: u64,
    pub acts: [u64; 3],
    pub made: u64,
    pub explained: u64,
    pub audits: u64,
    /// by result
    pub codes: [u64; 16],
    pub in_one_class: u64,
    pub most_marks: u32,
    pub most_joins: u32,
    /// terms whose words were held to those at a mark, and later ones found alone
    pub restored: u64,
    pub later: u64,
    /// calls after which the Rust's division was compared, lists compared to their end, and lists left before it
    pub beside: u64,
    pub whole: u64,
    pub left: u64,
    pub stood: u64,
    pub untried: u64,
    pub absent: u64,
    pub differences: u64,
}

impl Tally {
    pub fn add(&mut self, o: &Tally) {
        self.acts.iter_mut().zip(o.acts).for_each(|(x, y)| *x += y);
        self.codes.iter_mut().zip(o.codes).for_each(|(x, y)| *x += y);
        self.most_marks = self.most_marks.max(o.most_marks);
        self.most_joins = self.most_joins.max(o.most_joins);
        let sums = [
            (&mut self.lists, o.lists),
            (&mut self.made, o.made),
            (&mut self.explained, o.explained),
            (&mut self.audits, o.audits),
            (&mut self.in_one_class, o.in_one_class),
            (&mut self.restored, o.restored),
            (&mut self.later, o.later),
            (&mut self.beside, o.beside),
            (&mut self.whole, o.whole),
            (&mut self.left, o.left),
            (&mut self.stood, o.stood),
            (&mut self.untried, o.untried),
            (&mut self.absent, o.absent),
            (&mut self.differences, o.differences),
        ];
        sums.into_iter().for_each(|(x, y)| *x += y);
    }

    pub fn print(&self) {
        for (name, n) in ACTS.iter().zip(self.acts) {
            println!("{name}: {n}");
        }
        println!("making calls: {}; explain: {}; go_back to 0 after a call: {}", self.made, self.explained, self.audits);
        println!("joins of one class: {}; most marks {}, most joins recorded {}", self.in_one_class, self.most_marks, self.most_joins);
        println!("terms held to their words at a mark: {}; later ones found alone: {}", self.restored, self.later);
        println!(
            "beside the Rust: {} calls; {} lists to their end, {} left where two concatenations had their arguments pairwise in one class",
            self.beside, self.whole, self.left
        );
        println!("explanations tried: {} stand, {} with no assignment to try", self.stood, self.untried);
        let c = &self.codes;
        println!(
            "{} lists, {} calls compared, {} that the port lacks; answered {}, refused 1: {}, 5: {}, 7 to 9: {}, 10: {}; {} differences",
            self.lists,
            self.acts.iter().sum::<u64>() + self.made + self.explained + self.audits,
            self.absent,
            c[0],
            c[1],
            c[5],
            c[7] + c[8] + c[9],
            c[10],
            self.differences
        );
    }
}

/// What a list has done so far.
struct Run {
    s: Marked,
    // the eight words of each term counted at each standing mark
    snapshots: Vec<Vec<Vec<u32>>>,
    // the classes at the start; the joins left standing, and how many there were at each standing mark
    start: Vec<u32>,
    joins: Vec<Pair>,
    cuts: Vec<usize>,
    // none from where two concatenations have their arguments pairwise in one class
    rust: Option<EqualityEngine>,
}

impl Run {
    fn new(s: Marked) -> Self {
        let start = (0..=s.store.count()).map(|t| if t == 0 { 0 } else { s.store.class_root(t) }).collect();
        let mut run = Run { s, snapshots: vec![], start, joins: vec![], cuts: vec![], rust: None };
        if !congruent(&run.s.store, &run.classes()) {
            run.rust = Some(oracle::World::load(&run.s.store).eq);
        }
        run
    }

    // the least division with that of the start and the joins left standing
    fn classes(&self) -> Vec<u32> {
        let mut class = self.start.clone();
        class.extend(class.len() as u32..=self.s.store.count());
        for &(a, b) in &self.joins {
            join(&mut class, a, b);
        }
        class
    }

    fn adopt(&mut self, s: Marked) {
        let before = self.s.store.count();
        self.s = s;
        if let Some(eq) = &mut self.rust {
            for t in before + 1..=self.s.store.count() {
                eq.lend(t, t, LentLabel::Definitional);
            }
        }
    }

    // what a call that was not refused did, held to the lists kept here
    fn follow(&mut self, before: &Marked, act: &Act, answer: &[u32], tally: &mut Tally) -> Result<(), String> {
        let store = &self.s.store;
        match *act {
            Act::Join { a, b, kind, number } => {
                let apart = self.classes()[a as usize] != self.classes()[b as usize];
                if answer[0] != apart as u32 {
                    return Err(format!("terms apart: {apart}, answered {}", answer[0]));
                }
                let mut edges = edges(&before.store);
                if apart {
                    *edges.entry((a.min(b), a.max(b), kind, number, 0)).or_default() += 1;
                    self.joins.push((a, b));
                } else {
                    tally.in_one_class += 1;
                }
                if edges != self::edges(store) {
                    return Err("other edges than before and the one asked for".into());
                }
            }
            Act::SetMark => {
                if answer[0] as usize != self.snapshots.len() + 1 {
                    return Err(format!("mark {}, and {} stood", answer[0], self.snapshots.len()));
                }
                self.snapshots.push(records(store));
                self.cuts.push(self.joins.len());
            }
            Act::GoBack { mark } => {
                let at = mark as usize - 1;
                let snapshot = &self.snapshots[at];
                let now = records(store);
                if now.len() < snapshot.len() || now[..snapshot.len()] != snapshot[..] {
                    return Err("words of a term counted at the mark are not those of then".into());
                }
                tally.restored += snapshot.len() as u64;
                for t in snapshot.len() as u32 + 1..=store.count() {
                    let w = store.words(t);
                    if w[..3] != before.store.words(t)[..3] || w[3..] != [t, t, 0, 0, 0] {
                        return Err(format!("term {t}, appended since the mark, is not alone"));
                    }
                    tally.later += 1;
                }
                // 'Going back leaves heads and ninth words as they are'
                if Index::standing(store, store.count()) != Index::standing(&before.store, store.count()) {
                    return Err("heads or ninth words changed by going back".into());
                }
                self.joins.truncate(self.cuts[at]);
                self.snapshots.truncate(at);
                self.cuts.truncate(at);
            }
        }
        if self.s.standing() as usize != self.snapshots.len() {
            return Err(format!("{} marks counted, and {} stand", self.s.standing(), self.snapshots.len()));
        }
        self.beside(act);
        Ok(())
    }

    fn beside(&mut self, act: &Act) {
        let Some(eq) = &mut self.rust else { return };
        match *act {
            Act::Join { a, b, number, .. } => {
                let merged = eq.merge(ENodeId::new(a), ENodeId::new(b), EqJust::Asserted(Lit::new(number as i32)));
                assert!(merged.is_ok(), "no disequality was asserted");
            }
            Act::SetMark => eq.push(),
            Act::GoBack { mark } => {
                eq.drain_merges(&mut vec![]);
                eq.pop(mark as usize - 1);
            }
        }
    }

    // after each call: the division, and the Rust's
    fn divided(&mut self, tally: &mut Tally) -> Result<(), String> {
        let s = &self.s.store;
        let class = self.classes();
        let strings: Vec<u32> = (1..=s.count()).filter(|&t| s.is_string(t)).collect();
        let all: Vec<u32> = (1..=s.count()).collect();
        if firsts(&all, |t| s.class_root(t)) != firsts(&all, |t| class[t as usize]) {
            return Err("another division than the joins left standing generate".into());
        }
        let Some(eq) = &self.rust else { return Ok(()) };
        if congruent(s, &class) {
            self.rust = None;
            return Ok(());
        }
        tally.beside += 1;
        if firsts(&strings, |t| s.class_root(t)) != firsts(&strings, |t| eq.find(ENodeId::new(t)).index() as u32) {
            return Err("another division than the Rust's".into());
        }
        Ok(())
    }
}

// the words of each counted term, that of the index left out
fn records(s: &Lent) -> Vec<Vec<u32>> {
    (1..=s.count()).map(|t| s.words(t).to_vec()).collect()
}

// for each term the first of its class
fn firsts(terms: &[u32], class: impl Fn(u32) -> u32) -> Vec<u32> {
    let mut first = HashMap::new();
    terms.iter().map(|&t| *first.entry(class(t)).or_insert(t)).collect()
}

// 'two concatenations come to have their arguments pairwise in one class'
fn congruent(s: &Lent, class: &[u32]) -> bool {
    let mut met = HashMap::new();
    let concatenations = (1..=s.count()).filter(|&t| s.kind(t) == CONCATENATION);
    concatenations.map(|t| s.parts(t).iter().map(|&p| class[p as usize]).collect::<Vec<_>>()).any(|parts| met.insert(parts, ()).is_some())
}

// the forest's edges whichever way round, each with its label and stamp, and how often it stands there
fn edges(s: &Lent) -> BTreeMap<(u32, u32, u32, u32, u32), u32> {
    let mut edges = BTreeMap::new();
    for t in (1..=s.count()).filter(|&t| s.is_edge(t)) {
        let r = s.term(t);
        let u = r.forest_parent;
        *edges.entry((t.min(u), t.max(u), r.label_kind, r.label_value, r.stamp)).or_default() += 1;
    }
    edges
}

/// How a list is drawn.
#[derive(Clone, Copy, PartialEq, Debug)]
struct Manner {
    calls: usize,
    // of 20 calls that many set a mark, and that many go back
    marks: usize,
    backs: usize,
    // where so many stand no more are set
    most: u32,
    // joins and concatenations that would end the comparison with the Rust are passed over
    steered: bool,
}

fn start(random: &mut Random) -> (Lent, Manner) {
    let steered = random.one_in(2);
    let small =
        |random: &mut Random| generate::Profile { terms: random.between(3, 9), merges: random.between(2, 12), letters: 2, longest: 2 };
    let manner = Manner { calls: random.between(10, 50), marks: 3, backs: 2, most: 65, steered };
    match random.below(20) {
        // no term at all
        0..=11 => {
            let d = Draft { spare: [random.between(2, 14), 40, 60, 60, 4], ..Draft::default() };
            (lay_out(&d), manner)
        }
        // separate terms, laid out in any way
        12..=14 => {
            let p = small(random);
            let mut d = generate::draft(random, p);
            d.edges.clear();
            (lay_out(&d), manner)
        }
        // classes of any shape
        15..=17 => {
            let p = small(random);
            (lay_out(&generate::draft(random, p)), manner)
        }
        // many terms and many joins under few marks
        18 if random.one_in(16) => {
            let p = generate::Profile { terms: random.between(300, 500), merges: 0, letters: 3, longest: 4 };
            let mut d = generate::draft(random, p);
            d.edges.clear();
            d.spare = [12, 40, 60, 60, 4];
            (lay_out(&d), Manner { calls: random.between(400, 900), marks: 1, backs: 0, most: 4, steered: false })
        }
        // more terms, marks up to the most, long lists
        k => {
            let p = generate::Profile { terms: random.between(20, 80), merges: 4, letters: 3, longest: 4 };
            let mut d = generate::draft(random, p);
            if k == 18 {
                d.edges.clear();
            }
            (lay_out(&d), Manner { calls: random.between(100, 260), marks: 9, backs: random.below(2), most: 65, steered })
        }
    }
}

fn one_term(random: &mut Random, s: &Lent, strings: &[u32]) -> u32 {
    if strings.is_empty() || random.one_in(40) {
        let any = 1 + random.below(s.count() as usize + 1) as u32;
        return *random.pick(&[0, s.count() + 1, u32::MAX, any]);
    }
    *random.pick(strings)
}

fn joining(random: &mut Random, s: &Lent) -> Act {
    let strings: Vec<u32> = (1..=s.count()).filter(|&t| s.is_string(t)).collect();
    let (a, b) = (one_term(random, s, &strings), one_term(random, s, &strings));
    let kind = if random.one_in(40) { *random.pick(&[0, 3, 4, 5, u32::MAX]) } else { random.between(1, 2) as u32 };
    let number = match random.below(60) {
        0 => *random.pick(&[1 << 31, u32::MAX]),
        1 => (1 << 31) - 1,
        _ => random.below(10) as u32,
    };
    Act::Join { a, b, kind, number }
}

fn going_back(random: &mut Random, s: &Marked) -> Act {
    let mark = match random.below(8) {
        0 => *random.pick(&[0, s.standing() + 1, 64, 65, u32::MAX]),
        1 => s.standing(),
        _ => random.between(1, s.standing().max(1) as usize) as u32,
    };
    Act::GoBack { mark }
}

// would the two concatenations of a call that is drawn come to have their arguments pairwise in one class?
fn ends_comparison(run: &Run, act: &Act) -> bool {
    let mut class = run.classes();
    if let &Act::Join { a, b, .. } = act {
        if run.s.store.is_string(a) && run.s.store.is_string(b) {
            join(&mut class, a, b);
        }
    }
    congruent(&run.s.store, &class)
}

/// The words lent for marks, all free.
pub fn blank_marks(random: &mut Random) -> Vec<u32> {
    let n = WORDS + if random.one_in(3) { random.below(8) } else { 0 };
    let small = random.one_in(2);
    (0..n).map(|_| if small { random.below(12) as u32 } else { random.word() }).collect()
}

// one of the slices too short, or an answer's words; the answer's room
fn shortened(random: &mut Random, s: &Marked) -> (Marked, usize) {
    let mut short = s.clone();
    let mut room = 8;
    match random.below(4) {
        0 => short.store.state.truncate(*random.pick(&[0, 5, 6, 7])),
        1 => short.marks.truncate(*random.pick(&[0, 64, WORDS - 1])),
        2 => room = *random.pick(&[0, 7]),
        _ => short.store.terms.truncate(*random.pick(&[0, BUCKETS, term_place(s.store.count() + 1, 0) - 1])),
    }
    (short, room)
}

fn described(
    what: &str,
    before: &Marked,
    call: &dyn std::fmt::Debug,
    expected: &dyn std::fmt::Display,
    given: &dyn std::fmt::Display,
) -> String {
    format!("{what}\n{call:?}\n{before}\nexpected {expected}\ngiven {given}")
}

struct Shown<'a>(&'a Told);

impl std::fmt::Display for Shown<'_> {
    fn fmt(&self, f: &mut std::fmt::Formatter) -> std::fmt::Result {
        write!(f, "code {} answer {:?}\n{}", self.0.code, self.0.answer, self.0.exit)
    }
}

// where the two first differ
fn told_difference(expected: &Told, got: &Told) -> Option<String> {
    if expected.code != got.code {
        return Some(format!("result {} expected, {} given", expected.code, got.code));
    }
    if expected == got {
        return None;
    }
    let (a, b) = (&expected.exit, &got.exit);
    let slices = [
        ("answer", &expected.answer, &got.answer),
        ("state", &a.store.state, &b.store.state),
        ("marks", &a.marks, &b.marks),
        ("terms", &a.store.terms, &b.store.terms),
        ("cells", &a.store.cells, &b.store.cells),
        ("characters", &a.store.chars, &b.store.chars),
        ("reasons", &a.store.reasons, &b.store.reasons),
        ("keys", &a.store.keys, &b.store.keys),
    ];
    let (name, x, y) = slices.into_iter().find(|(_, x, y)| x != y).expect("a slice that differs");
    let at = (0..x.len()).find(|&i| x[i] != y[i]).expect("a word that differs");
    Some(format!("word {at} of {name}: {} expected, {} given", x[at], y[at]))
}

/// A call held to the words that `marks.rs` leaves, and the index to that of the records: what differs, or what was told.
pub fn held(by: &Answering, s: &Marked, act: &Act, room: usize) -> Option<Result<Told, String>> {
    let got = (by.act)(s, act, room)?;
    let expected = marks::run(s, act, room);
    Some(match told_difference(&expected, &got).or_else(|| index::amiss(&s.store, got.code, &got.exit.store)) {
        Some(what) => Err(described(&what, s, act, &Shown(&expected), &Shown(&got))),
        None => Ok(got),
    })
}

/// One list, call by call.
pub fn list(random: &mut Random, by: &Answering, tally: &mut Tally) -> Result<(), String> {
    let (store, manner) = start(random);
    let mut run = Run::new(Marked::unmarked(store, blank_marks(random)));
    if random.one_in(8) {
        run.s.store.state.push(random.word());
    }
    tally.lists += 1;
    let was_beside = run.rust.is_some();
    for _ in 0..manner.calls {
        one_call(random, by, &mut run, manner, tally)?;
        run.divided(tally)?;
        tally.most_marks = tally.most_marks.max(run.s.standing());
        tally.most_joins = tally.most_joins.max(run.s.joins());
        // 'go_back to mark 0 answers 10 exactly where store and marks pass'
        match held(by, &run.s, &Act::GoBack { mark: 0 }, 8) {
            None => tally.absent += 1,
            Some(told) => {
                let code = told?.code;
                tally.audits += 1;
                tally.codes[code as usize] += 1;
                if code != 10 {
                    return Err(format!("going back to 0 gives {code}\n{}", run.s));
                }
            }
        }
    }
    if run.s.standing() > 0 {
        let mark = random.between(1, run.s.standing() as usize) as u32;
        acting(by, &mut run, Act::GoBack { mark }, 8, tally)?;
        run.divided(tally)?;
    }
    tally.whole += run.rust.is_some() as u64;
    tally.left += (was_beside && run.rust.is_none()) as u64;
    Ok(())
}

fn one_call(random: &mut Random, by: &Answering, run: &mut Run, manner: Manner, tally: &mut Tally) -> Result<(), String> {
    let roll = random.below(20);
    let (marks, backs) = (manner.marks, manner.backs);
    // a list that begins without terms makes some first
    if run.s.store.count() < 3 || roll < 4 {
        return making(random, by, run, manner, tally);
    }
    if roll == 4 {
        return explaining(random, by, run, tally);
    }
    let act = if roll < 5 + marks && run.s.standing() < manner.most {
        Act::SetMark
    } else if roll < 5 + marks + backs {
        going_back(random, &run.s)
    } else {
        joining(random, &run.s.store)
    };
    if manner.steered && run.rust.is_some() && ends_comparison(run, &act) {
        return Ok(());
    }
    if random.one_in(60) {
        let (short, room) = shortened(random, &run.s);
        let told = held(by, &short, &act, room);
        if let Some(told) = told {
            tally.acts[act.number()] += 1;
            tally.codes[told?.code as usize] += 1;
        }
        return Ok(());
    }
    let room = 8 + if random.one_in(10) { random.below(4) } else { 0 };
    acting(by, run, act, room, tally)
}

fn acting(by: &Answering, run: &mut Run, act: Act, room: usize, tally: &mut Tally) -> Result<(), String> {
    let Some(told) = held(by, &run.s, &act, room) else {
        tally.absent += 1;
        return Ok(());
    };
    let told = told?;
    tally.acts[act.number()] += 1;
    tally.codes[told.code as usize] += 1;
    let before = run.s.clone();
    run.adopt(told.exit);
    if told.code != 0 {
        return Ok(());
    }
    run.follow(&before, &act, &told.answer, tally).map_err(|what| format!("{what}\n{act:?}\n{before}\nand after it\n{}", run.s))
}

fn making(random: &mut Random, by: &Answering, run: &mut Run, manner: Manner, tally: &mut Tally) -> Result<(), String> {
    let kind = *random.pick(&[1, 2, 2, 2, 3, 3, 4, 5]);
    let r = generate::request(random, &run.s.store, kind);
    let s = &run.s.store;
    let expected = oracle::run(s, &r, Mode::Departing).outcome;
    if manner.steered && run.rust.is_some() && expected.code == 0 {
        let mut class = run.classes();
        class.extend(class.len() as u32..=expected.exit.count());
        if congruent(&expected.exit, &class) {
            return Ok(());
        }
    }
    let Some(got) = (by.call)(s, &r) else {
        tally.absent += 1;
        return Ok(());
    };
    tally.made += 1;
    tally.codes[expected.code as usize] += 1;
    if let Some(what) = difference(s, &r, &expected, &got) {
        return Err(described(&what, &run.s, &r, &expected, &got));
    }
    let marks = run.s.marks.clone();
    run.adopt(Marked { store: got.exit, marks });
    Ok(())
}

// the reasons of an explanation, as the Rust gives them on the same forest, and held to their meaning by trying words
fn explaining(random: &mut Random, by: &Answering, run: &Run, tally: &mut Tally) -> Result<(), String> {
    let s = &run.s.store;
    let strings: Vec<u32> = (1..=s.count()).filter(|&t| s.is_string(t)).collect();
    let among = |t: u32| strings.iter().copied().filter(|&u| u != t && s.class_root(u) == s.class_root(t)).collect::<Vec<_>>();
    let joined: Vec<u32> = strings.iter().copied().filter(|&t| !among(t).is_empty()).collect();
    if joined.is_empty() {
        return Ok(());
    }
    let a = *random.pick(&joined);
    let b = *random.pick(&among(a));
    let r = Request::new(Call::Explain { a, b });
    let Some(got) = (by.call)(s, &r) else {
        tally.absent += 1;
        return Ok(());
    };
    let expected = oracle::run(s, &r, Mode::Departing).outcome;
    tally.explained += 1;
    tally.codes[expected.code as usize] += 1;
    if let Some(what) = difference(s, &r, &expected, &got) {
        return Err(described(&what, &run.s, &r, &expected, &got));
    }
    if let Some(a) = answered(s, &r.call, &got).filter(|_| s.count() <= 16) {
        match try_out(&a) {
            Tried::Stands(0) | Tried::Untried => tally.untried += 1,
            Tried::Stands(_) => tally.stood += 1,
            Tried::Refuted(words) => return Err(format!("refuted by {words:?}\n{r:?}\n{}\ngiven {got}", run.s)),
        }
    }
    Ok(())
}

// the counts at which lists are full are reached
const _: () = assert!(STANDING == 64 && STATE == 8 && WORDS == 1597);
