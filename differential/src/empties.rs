//! Document 02's Note 3: every empty part of a label in one call, beside the repetition that it stands for. The Rust's `resolve_equation`
//! takes the part of the ordinary call and its engine that of joining (`oracle.rs`); then the subject's own ordinary call and its own joins,
//! under a mark, which must list the same and, gone back, leave the words that the one call leaves. Small stores are listed without gaps,
//! with all their lists; others are drawn.

use crate::{
    audit::audit,
    call::*,
    compare::difference,
    damage,
    draft::*,
    generate, index,
    lent::*,
    lists::{blank_marks, Answering},
    marks::{Act, Marked},
    oracle::{self, Mode},
    random::Random,
    shrink,
};

/// What was met.
#[derive(Clone, Default)]
pub struct Tally {
    pub stores: u64,
    /// stores that are all of their kind, not drawn, and calls on them
    pub listed: u64,
    pub listed_calls: u64,
    pub calls: u64,
    /// by result
    pub codes: [u64; 16],
    /// answered calls on lists of the form, those that list none, and entries
    pub labels: u64,
    pub none: u64,
    pub entries: u64,
    pub longest: u64,
    /// of them with "" made, with a concatenation flattened, and with a variable in the class of another "" than the one that making gives
    pub made: u64,
    pub flattened: u64,
    pub second: u64,
    /// places that are not listed: of the class of "", of that of an entry before
    pub empty: u64,
    pub again: u64,
    /// answered calls on other lists: both empty; one variable, or something with a constant, against an empty one; neither empty
    pub others: [u64; 4],
    /// of the last, those whose stripped lists an ordinary call finds of the form
    pub stripped: u64,
    /// the subject's own repetitions: how many, of them refused, calls and joins
    pub repeated: u64,
    pub refused: u64,
    pub ordinary: u64,
    pub joins: u64,
    pub absent: u64,
    pub differences: u64,
}

impl Tally {
    pub fn add(&mut self, o: &Tally) {
        self.codes.iter_mut().zip(o.codes).for_each(|(x, y)| *x += y);
        self.others.iter_mut().zip(o.others).for_each(|(x, y)| *x += y);
        self.longest = self.longest.max(o.longest);
        let sums = [
            (&mut self.stores, o.stores),
            (&mut self.listed, o.listed),
            (&mut self.listed_calls, o.listed_calls),
            (&mut self.calls, o.calls),
            (&mut self.labels, o.labels),
            (&mut self.none, o.none),
            (&mut self.entries, o.entries),
            (&mut self.made, o.made),
            (&mut self.flattened, o.flattened),
            (&mut self.second, o.second),
            (&mut self.empty, o.empty),
            (&mut self.again, o.again),
            (&mut self.stripped, o.stripped),
            (&mut self.repeated, o.repeated),
            (&mut self.refused, o.refused),
            (&mut self.ordinary, o.ordinary),
            (&mut self.joins, o.joins),
            (&mut self.absent, o.absent),
            (&mut self.differences, o.differences),
        ];
        sums.into_iter().for_each(|(x, y)| *x += y);
    }

    pub fn print(&self) {
        println!("{} stores, {} of them listed without gaps with {} calls", self.stores, self.listed, self.listed_calls);
        println!(
            "lists of the form: {}, {} entries, the longest list {}, none listed {}; \"\" made {}, concatenations flattened {}, a variable with another \"\" {}",
            self.labels, self.entries, self.longest, self.none, self.made, self.flattened, self.second
        );
        println!("places passed over: {} of the class of \"\", {} of that of an entry", self.empty, self.again);
        let [nothing, one, constant, both] = self.others;
        println!(
            "other lists: {nothing} both empty, {one} one variable, {constant} a constant, {both} neither empty, {} of them of the form once stripped",
            self.stripped
        );
        println!(
            "repetitions by the subject's own calls: {}, {} of them refused; {} ordinary calls, {} joins",
            self.repeated, self.refused, self.ordinary, self.joins
        );
        let c = &self.codes;
        println!(
            "{} calls compared, {} that the port lacks; answered {}, refused 1 to 5: {} {} {} {} {}, 6: {}, 8: {}, 12: {}; {} differences",
            self.calls, self.absent, c[0], c[1], c[2], c[3], c[4], c[5], c[6], c[8], c[12], self.differences
        );
    }

    fn met(&mut self, s: &Lent, lhs: &[u32], rhs: &[u32], o: &Outcome) {
        self.calls += 1;
        self.codes[o.code as usize] += 1;
        if o.code != 0 {
            return;
        }
        let [l, r] = [lhs, rhs].map(|list| atoms(s, list));
        let variables = l.iter().chain(&r).filter(|&&t| s.kind(t) == VARIABLE).count();
        if o.answer[1] == 0 {
            let kind = match (l.len().min(r.len()), l.len().max(r.len())) {
                (0, 0) => 0,
                (0, n) => 1 + (variables < n) as usize,
                _ => 3,
            };
            self.others[kind] += 1;
            if kind == 3 {
                let ordinary = oracle::resolve_equation(s, lhs, rhs, 1, Mode::Departing).outcome;
                self.stripped += (ordinary.code == 0 && ordinary.answer[0] == PROPAGATE && ordinary.answer[3] == 1) as u64;
            }
            return;
        }
        let root = |t: u32| o.exit.class_root(t);
        let empty = root(o.answer[1]);
        let other = |t: u32| o.exit.kind(t) == CONSTANT && o.exit.text(t).is_empty() && root(t) != empty;
        let n = o.answer[0] as u64;
        self.labels += 1;
        self.none += (n == 0) as u64;
        self.entries += n;
        self.longest = self.longest.max(n);
        self.made += (o.exit.count() > s.count()) as u64;
        self.flattened += lhs.iter().chain(rhs).any(|&t| s.kind(t) == CONCATENATION) as u64;
        self.second += (1..=s.count()).any(|t| other(t) && o.list[..n as usize].iter().any(|&v| root(v) == root(t))) as u64;
        let passed = l.iter().chain(&r).filter(|&&v| root(v) == empty).count() as u64;
        self.empty += passed;
        self.again += variables as u64 - passed - n;
    }
}

// the atoms of an answered call's list
fn atoms(s: &Lent, list: &[u32]) -> Vec<u32> {
    let each = list.iter().map(|&t| if s.kind(t) == CONCATENATION { atoms(s, &s.parts(t)) } else { vec![t] });
    each.collect::<Vec<_>>().concat()
}

// -- what a call is held to --

// the repetition's outcome beside that of the call: what differs, if anything. None where the call is not there.
fn beside(by: &Answering, s: &Lent, r: &Request) -> Option<Result<Outcome, String>> {
    let expected = oracle::run(s, r, Mode::Departing).outcome;
    let got = (by.call)(s, r)?;
    Some(match difference(s, r, &expected, &got).or_else(|| written(s, &got)) {
        Some(what) => Err(format!("{what}\n{r:?}\n{s}\nexpected {expected}\ngiven {got}")),
        None => Ok(got),
    })
}

// words that the call has no business with: those of the answer that are not named, all of cells, characters, reasons and keys, and of terms
// and state but for one record more and the word of the index that names it
fn written(s: &Lent, got: &Outcome) -> Option<String> {
    let named = if got.code == 0 { 3 } else { 0 };
    if got.answer.iter().skip(named).any(|&w| w != BLANK) {
        return Some(format!("answer words not named were written: {:?}", got.answer));
    }
    let mut one_more = s.clone();
    if got.code == 0 && got.exit.count() > s.count() {
        let place = got.exit.term(s.count() + 1).first;
        one_more.add_term(CONSTANT, place, 0);
    } else if got.code == 8 {
        // words above the count are free
        one_more.terms = got.exit.terms.clone();
    }
    (got.exit != one_more).then(|| "a word was written that is not of a new \"\"".into())
}

fn act(by: &Answering, m: &mut Marked, act: Act) -> Result<u32, String> {
    let told = (by.act)(m, &act, 8).ok_or("a call that the port lacks")?;
    if let Some(what) = index::amiss(&m.store, told.code, &told.exit.store) {
        return Err(format!("{act:?}: {what}\n{m}"));
    }
    if told.code != 0 {
        return Err(format!("{act:?} is refused under {}\n{m}", told.code));
    }
    *m = told.exit;
    Ok(told.answer[0])
}

// variable and word of each Propagate, or the refusal met; how many ordinary calls; the store gone back to the mark
struct Repeated {
    propagated: Result<Vec<Pair>, u32>,
    calls: u64,
    store: Lent,
}

fn by_own_calls(random: &mut Random, by: &Answering, s: &Lent, lhs: &[u32], rhs: &[u32]) -> Result<Repeated, String> {
    let r = Request::new(Call::ResolveEquation { lhs: lhs.to_vec(), rhs: rhs.to_vec(), guard: random.between(1, 9) as i32 });
    let mut m = Marked::unmarked(s.clone(), blank_marks(random));
    act(by, &mut m, Act::SetMark)?;
    let (mut pairs, mut calls) = (vec![], 0);
    loop {
        calls += 1;
        let o = (by.call)(&m.store, &r).ok_or("a call that the port lacks")?;
        if let Some(what) = index::amiss(&m.store, o.code, &o.exit) {
            return Err(format!("{r:?}: {what}\n{m}"));
        }
        if o.code != 0 {
            return Ok(Repeated { propagated: Err(o.code), calls, store: m.store });
        }
        if o.answer[0] != PROPAGATE {
            m.store = o.exit;
            act(by, &mut m, Act::GoBack { mark: 1 })?;
            m.store.state.truncate(6);
            return Ok(Repeated { propagated: Ok(pairs), calls, store: m.store });
        }
        let (v, e) = (o.answer[1], o.answer[2]);
        if o.answer[3] != 1 || o.exit.reason_list() != s.reason_list() {
            return Err(format!("a Propagate without the link flag, or with reasons: {:?}\n{}", &o.answer[..4], o.exit));
        }
        m.store = o.exit;
        pairs.push((v, e));
        if act(by, &mut m, Act::Join { a: v, b: e, kind: random.between(1, 2) as u32, number: random.below(10) as u32 })? != 1 {
            return Err(format!("{v} and {e} propagated and in one class already\n{m}"));
        }
    }
}

// the outcome of a call that passes 1 to 5, beside that of the subject's own repetition
fn repeats(random: &mut Random, by: &Answering, s: &Lent, r: &Request, got: &Outcome, tally: &mut Tally) -> Result<(), String> {
    let Call::EmptyParts { lhs, rhs } = &r.call else { return Ok(()) };
    let own = by_own_calls(random, by, s, lhs, rhs)?;
    let one = match got.code {
        0 => Ok(got.list[..got.answer[0] as usize].iter().map(|&v| (v, got.answer[1])).collect()),
        code => Err(code),
    };
    if own.propagated != one {
        return Err(format!("{r:?}: own calls give {:?}, the one call {one:?}\n{s}", own.propagated));
    }
    if got.code == 0 && own.store.counted() != got.exit.counted() {
        return Err(format!("{r:?}: gone back, own calls leave another store\n{}\nthan the one call\n{}", own.store, got.exit));
    }
    tally.repeated += 1;
    tally.refused += (got.code != 0) as u64;
    tally.ordinary += own.calls;
    tally.joins += one.map_or(0, |l| l.len() as u64);
    Ok(())
}

/// One call with all that it is held to.
pub fn one(random: &mut Random, by: &Answering, s: &Lent, r: &Request, tally: &mut Tally) -> Result<(), String> {
    let Call::EmptyParts { lhs, rhs } = &r.call else { return Ok(()) };
    let Some(got) = beside(by, s, r) else {
        tally.absent += 1;
        return Ok(());
    };
    let got = got?;
    tally.met(s, lhs, rhs, &got);
    // of other lists an ordinary call may say anything
    if (6..=9).contains(&got.code) || got.code == 0 && got.answer[1] > 0 {
        repeats(random, by, s, r, &got, tally)?;
    }
    Ok(())
}

// -- small stores, listed without gaps --

// what a term is: a variable, a constant of this text, a concatenation of these terms
enum Is {
    Variable,
    Constant(&'static str),
    Concat(&'static [u32]),
}

use Is::{Concat, Constant, Variable};

// "" not there; after the variables; before and after them; twice among them and a concatenation; once, with a concatenation and a constant
const SMALL: [&[Is]; 6] = [
    &[Variable, Variable, Variable],
    &[Variable, Variable, Constant("a"), Concat(&[1, 2])],
    &[Variable, Variable, Variable, Constant("")],
    &[Constant(""), Variable, Variable, Constant("")],
    &[Variable, Constant(""), Variable, Constant(""), Concat(&[1, 3])],
    &[Variable, Variable, Constant(""), Concat(&[2, 1]), Constant("a")],
];

/// Every division into classes of the terms of each small store, with no room for a term, and where "" is not there with room for one.
pub fn small() -> Vec<Lent> {
    let mut stores = vec![];
    for terms in SMALL {
        let mut d = Draft { spare: [0, 0, 0, 1, 1], reasons: vec![(1, 3)], ..Draft::default() };
        for (i, is) in terms.iter().enumerate() {
            match is {
                Variable => d.variable(["x", "y", "z", "u", "v"][i]),
                Constant(text) => d.constant(text),
                Concat(parts) => d.concat(parts),
            };
        }
        let there = terms.iter().any(|is| matches!(is, Constant("")));
        for class in divisions(terms.len()) {
            let mut e = d.clone();
            for t in 1..=e.count() {
                let first = (1..t).find(|&u| class[u as usize - 1] == class[t as usize - 1]);
                if let Some(u) = first {
                    e.merge(t, u, Label::Asserted(t));
                }
            }
            for room in 0..=(!there) as usize {
                e.spare[0] = room;
                stores.push(lay_out(&e));
            }
        }
    }
    stores
}

// each as a class for every place, a class being numbered when it is first met
pub(crate) fn divisions(n: usize) -> Vec<Vec<usize>> {
    let mut all = vec![vec![]];
    for _ in 0..n {
        let more = |d: &Vec<usize>| {
            let next = d.iter().max().map_or(0, |m| m + 1);
            (0..=next).map(|c| [&d[..], &[c]].concat()).collect::<Vec<_>>()
        };
        all = all.iter().flat_map(more).collect();
    }
    all
}

// every list of up to n of these terms
pub(crate) fn words(terms: u32, n: usize) -> Vec<Vec<u32>> {
    let mut all = vec![vec![]];
    let mut last = 0;
    for _ in 0..n {
        let longer: Vec<Vec<u32>> = all[last..].iter().flat_map(|w| (1..=terms).map(move |t| [&w[..], &[t]].concat())).collect();
        last = all.len();
        all.extend(longer);
    }
    all
}

/// Every two lists of a small store: an empty one and one of up to four terms, or two of up to three together.
fn pairs(terms: u32) -> Vec<(Vec<u32>, Vec<u32>)> {
    let long = words(terms, 4);
    let short = words(terms, 2);
    let mut all: Vec<_> = long.iter().flat_map(|w| [(vec![], w.clone()), (w.clone(), vec![])]).collect();
    all.remove(0);
    let both = short.iter().flat_map(|l| short.iter().map(move |r| (l.clone(), r.clone())));
    all.extend(both.filter(|(l, r)| !l.is_empty() && !r.is_empty() && l.len() + r.len() <= 3));
    all
}

// -- drawn stores --

// variables, often with "" in some places, concatenations of them, and often no room
fn label(random: &mut Random) -> Draft {
    let mut d = Draft { layout: if random.one_in(8) { 0 } else { random.long() }, ..Draft::default() };
    let empties = random.below(4);
    for i in 0..random.between(2, 14) {
        let strings = d.strings();
        match random.below(12) {
            0 | 1 if random.below(4) < empties => d.constant(""),
            2 => d.constant("a"),
            3 | 4 if !strings.is_empty() => {
                let parts: Vec<u32> = (0..random.between(2, 3)).map(|_| *random.pick(&strings)).collect();
                d.concat(&parts)
            }
            5 => d.variable(&format!("!strk{i}")),
            _ => d.variable(&format!("x{i}")),
        };
    }
    let tries = random.below(d.specs.len() + 1);
    generate::merges(random, &mut d, tries);
    generate::loose_ends(random, &mut d);
    if random.one_in(2) {
        d.spare[0] = random.below(2);
    }
    d
}

// as many variables as a store can hold, in few or many classes
fn crowd(random: &mut Random) -> Draft {
    let mut d = Draft { layout: random.long(), ..Draft::default() };
    let n = random.between(500, TERMS);
    let empty = random.below(3) * random.below(n);
    for i in 1..=n {
        if i == empty {
            d.constant("");
        } else {
            d.variable(&format!("{i}"));
        }
    }
    let tries = *random.pick(&[0, 3, 60, 400]);
    generate::merges(random, &mut d, tries);
    d.spare[0] = random.below(2);
    d
}

fn drawn(random: &mut Random) -> Draft {
    match random.below(400) {
        0 => crowd(random),
        1..=9 => generate::at_limits(random),
        10..=149 => {
            let p = generate::profile(random);
            generate::draft(random, p)
        }
        _ => label(random),
    }
}

fn asked(random: &mut Random, s: &Lent) -> Request {
    match random.below(if s.count() > 90 { 4 } else { 400 }) {
        0 => generate::long_request(random, s, 14),
        // about 1,024 variables
        1 => {
            let variables: Vec<u32> = (1..=s.count()).filter(|&t| s.kind(t) == VARIABLE).collect();
            let n = if variables.is_empty() { 0 } else { LIST + 1 - random.below(4) };
            let side: Vec<u32> = (0..n).map(|_| *random.pick(&variables)).collect();
            let (lhs, rhs) = if random.one_in(2) { (side, vec![]) } else { (vec![], side) };
            Request::new(Call::EmptyParts { lhs, rhs })
        }
        _ => generate::request(random, s, 14),
    }
}

// calls on each drawn store
const CALLS: usize = 10;

/// The store of a round with its calls: the small ones first, then drawn ones.
pub fn round(i: u64, small: &[Lent], random: &mut Random, by: &Answering, tally: &mut Tally) -> Result<(), String> {
    tally.stores += 1;
    if let Some(s) = small.get(i as usize) {
        tally.listed += 1;
        for (lhs, rhs) in pairs(s.count()) {
            one(random, by, s, &Request::new(Call::EmptyParts { lhs, rhs }), tally)?;
            tally.listed_calls += 1;
        }
        return Ok(());
    }
    let d = drawn(random);
    let s = lay_out(&d);
    assert_eq!(audit(&s), 0, "round {i}: a store that should pass");
    for _ in 0..CALLS {
        let r = asked(random, &s);
        one(random, by, &s, &r, tally).map_err(|what| smallest(by, &d, &r).unwrap_or(what))?;
    }
    if random.one_in(4) {
        return damaged(random, by, &s, tally);
    }
    Ok(())
}

// the same difference on the smallest input that shows one
fn smallest(by: &Answering, d: &Draft, r: &Request) -> Option<String> {
    let failing = |d: &Draft, c: &Call| {
        let mut tally = Tally::default();
        one(&mut Random::new(1), by, &lay_out(d), &Request::new(c.clone()), &mut tally).err()
    };
    failing(d, &r.call)?;
    let (d, call) = shrink::shrink(d.clone(), r.call.clone(), |d, c| failing(d, c).is_some());
    failing(&d, &call)
}

// a rule broken, or a few words exchanged: refusals 1 to 4 and 12, and nothing written
fn damaged(random: &mut Random, by: &Answering, s: &Lent, tally: &mut Tally) -> Result<(), String> {
    let rules = damage::rules();
    let mut bad: Vec<Lent> = (0..4).filter_map(|_| damage::broken(s, random.pick(&rules), random)).collect();
    bad.push(damage::scrambled(s, random));
    for b in &bad {
        let r = generate::request(random, s, 14);
        let due = oracle::refused_at_entry(b, &r);
        if due == 0 {
            // still a good store
            continue;
        }
        let Some(got) = (by.call)(b, &r) else {
            tally.absent += 1;
            continue;
        };
        if let Some(what) = difference(b, &r, &Outcome::idle(b, &r, due), &got) {
            return Err(format!("{what}\n{r:?}\n{b:?}"));
        }
        tally.calls += 1;
        tally.codes[due as usize] += 1;
    }
    Ok(())
}
