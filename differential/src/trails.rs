//! Damaged trails. On stores of three to five terms with up to three marks and four joins, every word of the trail, each count, each class word
//! and each ninth word and head of a counted term's bucket is set to other values, one after another; what going back to mark 0 answers is held
//! to the audit in `marks.rs`, and where store and marks still pass, so are going back to each mark, joining and setting a mark.

use crate::{
    draft::{lay_out, Draft, Edge, Label},
    index::bucket,
    lent::{term_place, Lent, CLASS_WORDS, NEXT},
    lists::{blank_marks, held, Answering},
    marks::{self, Act, Marked, STATE, WORDS},
    random::Random,
};

/// What was met.
#[derive(Clone, Default)]
pub struct Tally {
    pub trails: u64,
    /// trails that are all of their kind, not drawn
    pub listed: u64,
    pub damaged: u64,
    /// by result of going back to 0
    pub codes: [u64; 16],
    /// calls on damaged trails that pass
    pub followed: u64,
    pub absent: u64,
    pub differences: u64,
}

impl Tally {
    pub fn add(&mut self, o: &Tally) {
        self.codes.iter_mut().zip(o.codes).for_each(|(x, y)| *x += y);
        self.trails += o.trails;
        self.listed += o.listed;
        self.damaged += o.damaged;
        self.followed += o.followed;
        self.absent += o.absent;
        self.differences += o.differences;
    }

    pub fn print(&self) {
        let c = &self.codes;
        println!(
            "{} trails, {} of them listed without gaps; {} damaged ones audited by go_back to 0, {} calls on those that pass, {} that the port lacks",
            self.trails, self.listed, self.damaged, self.followed, self.absent
        );
        let [one, two, three, four, ten, twelve] = [1, 2, 3, 4, 10, 12].map(|k| c[k]);
        println!("answers 1: {one}, 2: {two}, 3: {three}, 4: {four}, 10: {ten}, 12: {twelve}; {} differences", self.differences);
    }
}

#[derive(Clone, Copy, PartialEq, Eq, Debug)]
enum Event {
    Mark,
    Join(u32, u32),
}

/// A small store, by its place in `start`, and what was done on it.
#[derive(Clone, PartialEq, Eq, Debug)]
pub struct Base {
    start: usize,
    events: Vec<Event>,
}

// the place of the five variables in `start`
const FIVE: usize = 4;
const MARKS: usize = 3;
const JOINS: usize = 4;

// three variables; a congruence and a variable; terms of every kind; four variables; five; five terms with a congruence to come
fn start(k: usize) -> Lent {
    let mut d = Draft { spare: [1; 5], ..Draft::default() };
    match k {
        1 | 5 => {
            let (x, u) = (d.variable("x"), d.variable("u"));
            let (xx, uu) = (d.concat(&[x, x]), d.concat(&[u, u]));
            d.variable("v");
            if k == 1 {
                d.merge(x, u, Label::Asserted(1));
                d.edges.push(Edge { a: xx, b: uu, label: Label::Congruence, stamp: 1 });
            }
        }
        2 => {
            let (x, a) = (d.variable("x"), d.constant("a"));
            d.concat(&[x, a]);
            d.add(crate::draft::Spec::Length(x));
            d.add(crate::draft::Spec::Equation(x, a));
        }
        _ => {
            for name in ["x", "y", "z", "u", "v"].iter().take([3, 0, 0, 4, 5][k]) {
                d.variable(name);
            }
        }
    }
    lay_out(&d)
}

fn act(e: Event, number: usize) -> Act {
    match e {
        Event::Mark => Act::SetMark,
        Event::Join(a, b) => Act::Join { a, b, kind: 1 + number as u32 % 2, number: number as u32 },
    }
}

fn done(s: &Marked, e: Event, number: usize) -> Marked {
    let told = marks::run(s, &act(e, number), 8);
    assert_eq!(told.code, 0, "{e:?} on {s}");
    told.exit
}

// every list of marks and of joins of terms apart
fn extend(s: &Marked, base: &mut Base, out: &mut Vec<Base>) {
    out.push(base.clone());
    let count = |of: fn(&Event) -> bool| base.events.iter().filter(|e| of(e)).count();
    let (marked, joined) = (count(|e| *e == Event::Mark), count(|e| *e != Event::Mark));
    let mut next = vec![];
    if marked < MARKS {
        next.push(Event::Mark);
    }
    if joined < JOINS {
        next.extend(joins(&s.store).into_iter().filter(|e| base.start != FIVE || in_order(&base.events, *e)));
    }
    for e in next {
        base.events.push(e);
        extend(&done(s, e, base.events.len()), base, out);
        base.events.pop();
    }
}

// terms named for the first time come by their numbers: of trails that differ by names alone, one
fn in_order(before: &[Event], e: Event) -> bool {
    let highest = |e: &Event| if let Event::Join(a, b) = *e { a.max(b) } else { 0 };
    let named = before.iter().map(highest).max().unwrap_or(0);
    matches!(e, Event::Join(a, b) if a <= named + 1 && b <= named.max(a) + 1)
}

fn joins(s: &Lent) -> Vec<Event> {
    let all = 1..=s.count();
    let pairs = all.clone().flat_map(|a| all.clone().map(move |b| (a, b)));
    let apart = |&(a, b): &(u32, u32)| s.is_string(a) && s.is_string(b) && s.class_root(a) != s.class_root(b);
    pairs.filter(apart).map(|(a, b)| Event::Join(a, b)).collect()
}

/// Every trail on three variables, on the stores with a congruence and with terms of every kind, on four variables, and on five up to their
/// names, in this order.
pub fn bases() -> Vec<Base> {
    let mut out = vec![];
    for k in 0..=FIVE {
        let mut base = Base { start: k, events: vec![] };
        extend(&Marked::unmarked(start(k), vec![0; WORDS]), &mut base, &mut out);
    }
    out
}

fn drawn(random: &mut Random) -> Base {
    let k = *random.pick(&[1, 4, 4, 5]);
    let mut s = Marked::unmarked(start(k), vec![0; WORDS]);
    let mut base = Base { start: k, events: vec![] };
    for _ in 0..random.between(2, MARKS + JOINS) {
        let pairs = joins(&s.store);
        let e = if s.standing() < MARKS as u32 && random.one_in(2) || pairs.is_empty() || s.joins() == JOINS as u32 {
            Event::Mark
        } else {
            *random.pick(&pairs)
        };
        base.events.push(e);
        s = done(&s, e, base.events.len());
    }
    base
}

#[derive(Clone, Copy, Debug)]
enum Place {
    Mark(usize),
    State(usize),
    Term(usize),
    MarksLength,
    StateLength,
}

fn change(s: &mut Marked, place: Place, value: u32) {
    match place {
        Place::Mark(i) => s.marks[i] = value,
        Place::State(i) => s.store.state[i] = value,
        Place::Term(i) => s.store.terms[i] = value,
        Place::MarksLength => s.marks.truncate(value as usize),
        Place::StateLength => s.store.state.resize(value as usize, 0),
    }
}

// the words that the audit reads: of marks, of records, and one of each that is free
fn trail(s: &Marked) -> Vec<Place> {
    let (standing, joins) = (s.standing() as usize, s.joins() as usize);
    (0..=standing).chain(64..64 + 3 * joins + 1).map(Place::Mark).collect()
}

fn values(s: &Marked) -> Vec<u32> {
    (0..=s.store.count() + 1).chain([512, 1 << 31, u32::MAX]).collect()
}

// the changes made at once
type Damage = Vec<(Place, u32)>;

fn damages(s: &Marked, twice: bool) -> Vec<Damage> {
    let mut list: Vec<Damage> = vec![vec![]];
    let (words, values) = (trail(s), values(s));
    for &place in &words {
        list.extend(values.iter().map(|&v| vec![(place, v)]));
    }
    let terms = 1..=s.store.count();
    let of_classes = terms.clone().flat_map(|t| CLASS_WORDS.map(move |word| term_place(t, word)));
    // each ninth word, that of record 0 too, the heads of the buckets that have a term, and the first head that has none
    let heads: Vec<usize> = terms.clone().map(|t| bucket(&s.store, t)).collect();
    let empty = (0..).find(|b| !heads.contains(b));
    let of_index = (0..=s.store.count()).map(|t| term_place(t, NEXT)).chain(heads.iter().copied()).chain(empty);
    for place in of_classes.chain(of_index) {
        list.extend(values.iter().map(|&v| vec![(Place::Term(place), v)]));
    }
    let (marks, joins) = (s.standing(), s.joins());
    for m in (0..=marks + 2).chain([63, 64, 65, u32::MAX]) {
        for j in (0..=joins + 2).chain([510, 511, 512, u32::MAX]) {
            list.push(vec![(Place::State(6), m), (Place::State(7), j)]);
        }
    }
    list.extend([0, WORDS - 1, WORDS].map(|n| vec![(Place::MarksLength, n as u32)]));
    list.extend([5, 6, 7, 9].map(|n| vec![(Place::StateLength, n)]));
    // a count and a word of the trail, so that a smaller trail is damaged too
    for &place in &words {
        for &v in &values {
            list.push(vec![(place, v), (Place::State(6), marks + 1)]);
            list.push(vec![(place, v), (Place::State(7), joins + 1)]);
        }
    }
    if twice {
        for (i, &p) in words.iter().enumerate() {
            for &q in &words[i + 1..] {
                list.extend(values.iter().flat_map(|&v| values.iter().map(move |&w| vec![(p, v), (q, w)])));
            }
        }
    }
    list
}

/// The trail of a round: the listed ones first, then drawn ones.
pub fn round(i: u64, bases: &[Base], random: &mut Random, by: &Answering, tally: &mut Tally) -> Result<(), String> {
    let listed = bases.get(i as usize);
    let base = listed.cloned().unwrap_or_else(|| drawn(random));
    let mut s = Marked::unmarked(start(base.start), blank_marks(random));
    assert_eq!(s.store.state.len(), STATE);
    for (number, &e) in base.events.iter().enumerate() {
        s = done(&s, e, number);
    }
    tally.trails += 1;
    tally.listed += listed.is_some() as u64;
    let twice = base.start == 0 || listed.is_none() && random.one_in(20);
    for damage in damages(&s, twice) {
        let mut bad = s.clone();
        for &(place, value) in &damage {
            change(&mut bad, place, value);
        }
        let failed = |what: String| format!("{base:?} {damage:?}\n{what}");
        let Some(told) = held(by, &bad, &Act::GoBack { mark: 0 }, 8) else {
            tally.absent += 1;
            continue;
        };
        let code = told.map_err(failed)?.code;
        tally.damaged += 1;
        tally.codes[code as usize] += 1;
        if code != 10 {
            continue;
        }
        // the first is the trail as it was made
        assert!(!damage.is_empty() || marks::audit_marked(&bad) == 0, "{base:?}");
        let pair = Act::Join { a: 1, b: bad.store.count(), kind: 1, number: 7 };
        for a in (1..=bad.standing()).map(|mark| Act::GoBack { mark }).chain([pair, Act::SetMark]) {
            if let Some(told) = held(by, &bad, &a, 8) {
                told.map_err(failed)?;
                tally.followed += 1;
            }
        }
    }
    Ok(())
}
