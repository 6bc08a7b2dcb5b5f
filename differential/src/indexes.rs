//! Damaged indexes. On small stores each head and each ninth word is set to other numbers, one after another, and those of the buckets that have
//! terms to all combinations of numbers. What a call answers is held to the sentences of document 02's Note 9 on chains, as `audit.rs` has them: 12
//! before a wrong argument, and nothing written. Ninth words that are not counted are free.

use crate::{
    call::*,
    compare::difference,
    draft::*,
    generate,
    index::bucket,
    lent::*,
    lists::{blank_marks, held, Answering},
    marks::{Act, Marked},
    oracle::{self, Mode},
    random::Random,
};

/// What was met.
#[derive(Clone, Default)]
pub struct Tally {
    pub stores: u64,
    /// stores that are all of their kind, not drawn
    pub listed: u64,
    /// stores with every combination of numbers
    pub combined: u64,
    pub damaged: u64,
    pub calls: u64,
    pub acts: u64,
    /// by result
    pub codes: [u64; 16],
    pub absent: u64,
    pub differences: u64,
}

impl Tally {
    pub fn add(&mut self, o: &Tally) {
        self.codes.iter_mut().zip(o.codes).for_each(|(x, y)| *x += y);
        self.stores += o.stores;
        self.listed += o.listed;
        self.combined += o.combined;
        self.damaged += o.damaged;
        self.calls += o.calls;
        self.acts += o.acts;
        self.absent += o.absent;
        self.differences += o.differences;
    }

    pub fn print(&self) {
        println!(
            "{} stores, {} of them listed without gaps, {} with every combination; {} changes of heads and ninth words",
            self.stores, self.listed, self.combined, self.damaged
        );
        let c = &self.codes;
        println!(
            "{} calls compared, and {} of joining, marks and going back; {} that the port lacks; answered {}, refused 1: {}, 5: {}, 6 to 9: {}, 10: {}, 11: {}, 12: {}; {} differences",
            self.calls,
            self.acts,
            self.absent,
            c[0],
            c[1],
            c[5],
            c[6..10].iter().sum::<u64>(),
            c[10],
            c[11],
            c[12],
            self.differences
        );
    }
}

// -- small stores --

// the most terms of a store that is listed
const MOST: usize = 3;

// What may stand next: "", and "@", which share bucket 1; "y" and the variables x and 8, which share bucket 58; lengths, concatenations and
// equations of what is there, some of which share a bucket.
fn next(d: &Draft) -> Vec<Spec> {
    let mut all: Vec<Spec> = ["", "@", "y"].map(|w| Spec::Constant(text(w))).to_vec();
    let variables = ["x", "8"].map(|w| Spec::Variable(text(w)));
    all.extend(variables.into_iter().filter(|v| !d.specs.contains(v)));
    let lengths: Vec<u32> = (1..=d.count()).filter(|&t| matches!(d.spec(t), Spec::Length(_))).collect();
    for a in d.strings() {
        all.push(Spec::Length(a));
        for b in d.strings() {
            all.extend([Spec::Concat(vec![a, b]), Spec::Equation(a, b)]);
        }
    }
    all.extend(lengths.iter().map(|&a| Spec::Equation(a, a)));
    all
}

/// Every list of up to three of these, the shorter first, with room for a term more.
pub fn small() -> Vec<Lent> {
    let mut all = vec![Draft { spare: [1, 2, 2, 1, 1], ..Draft::default() }];
    let mut from = 0;
    for _ in 0..MOST {
        let to = all.len();
        for i in from..to {
            for spec in next(&all[i]) {
                let mut d = all[i].clone();
                d.add(spec);
                all.push(d);
            }
        }
        from = to;
    }
    all.iter().map(lay_out).collect()
}

// -- what a store is held to --

// the audit, going back to mark 0, and two further calls, which go round all kinds
fn asked(random: &mut Random, by: &Answering, s: &Lent, turn: &mut usize, tally: &mut Tally) -> Result<(), String> {
    tally.damaged += 1;
    call(by, s, &Request::new(Call::Audit), tally)?;
    for _ in 0..2 {
        *turn += 1;
        // 0 is the audit
        let r = generate::request(random, s, 1 + *turn % (NAMES.len() - 1));
        call(by, s, &r, tally)?;
    }
    let m = Marked::unmarked(s.clone(), blank_marks(random));
    let pair = Act::Join { a: 1, b: s.count(), kind: 1, number: 7 };
    for a in [Act::GoBack { mark: 0 }, if *turn % 2 == 0 { pair } else { Act::SetMark }] {
        match held(by, &m, &a, 8) {
            None => tally.absent += 1,
            Some(told) => {
                tally.acts += 1;
                tally.codes[told?.code as usize] += 1;
            }
        }
    }
    Ok(())
}

fn call(by: &Answering, s: &Lent, r: &Request, tally: &mut Tally) -> Result<(), String> {
    let expected = oracle::run(s, r, Mode::Departing).outcome;
    let Some(got) = (by.call)(s, r) else {
        tally.absent += 1;
        return Ok(());
    };
    tally.calls += 1;
    tally.codes[expected.code as usize] += 1;
    match difference(s, r, &expected, &got) {
        Some(what) => Err(format!("{what}\n{r:?}\n{s}\nexpected {expected}\ngiven {got}")),
        None => Ok(()),
    }
}

fn large() -> [u32; 4] {
    [64, TERMS as u32, 1 << 31, u32::MAX]
}

// every head, and the ninth words of record 0, of each counted term and of the record above them
fn words(s: &Lent) -> Vec<usize> {
    (0..BUCKETS).chain((0..=s.count() + 1).map(|t| term_place(t, NEXT))).filter(|&at| at < s.terms.len()).collect()
}

// each word set to each number up to one above the terms, and to some large ones
fn singly(random: &mut Random, by: &Answering, s: &Lent, tally: &mut Tally) -> Result<(), String> {
    let mut turn = random.below(NAMES.len());
    for at in words(s) {
        for value in (0..=s.count() + 1).chain(large()) {
            let mut bad = s.clone();
            bad.terms[at] = value;
            asked(random, by, &bad, &mut turn, tally)?;
        }
    }
    Ok(())
}

// the heads of the buckets that have a term, the first of another, and the counted ninth words: every number up to one above the terms in each
fn combined(by: &Answering, s: &Lent, tally: &mut Tally) -> Result<(), String> {
    tally.combined += 1;
    let n = s.count();
    let mut places: Vec<usize> = (1..=n).map(|t| bucket(s, t)).collect();
    places.sort();
    places.dedup();
    places.extend((0..BUCKETS).find(|b| !places.contains(b)));
    places.extend((1..=n).map(|t| term_place(t, NEXT)));
    let values = n as usize + 2;
    let mut bad = s.clone();
    for k in 0..values.pow(places.len() as u32) {
        let mut rest = k;
        for &at in &places {
            bad.terms[at] = (rest % values) as u32;
            rest /= values;
        }
        tally.damaged += 1;
        call(by, &bad, &Request::new(Call::Audit), tally)?;
    }
    Ok(())
}

// a few words at a time of a larger store
fn drawn(random: &mut Random, by: &Answering, tally: &mut Tally) -> Result<(), String> {
    let p = generate::Profile { terms: random.between(3, 40), merges: random.between(0, 12), letters: 2, longest: 2 };
    let s = lay_out(&generate::draft(random, p));
    let (places, mut turn) = (words(&s), random.below(NAMES.len()));
    for _ in 0..100 {
        let mut bad = s.clone();
        for _ in 0..random.between(1, 3) {
            let near = random.below(s.count() as usize + 2) as u32;
            let value = if random.one_in(6) { *random.pick(&large()) } else { near };
            // a ninth word as often as a head
            let at = if random.one_in(2) { *random.pick(&places[..BUCKETS]) } else { *random.pick(&places[BUCKETS..]) };
            bad.terms[at] = value;
        }
        asked(random, by, &bad, &mut turn, tally)?;
    }
    Ok(())
}

/// The store of a round: the small ones first, then drawn ones.
pub fn round(i: u64, small: &[Lent], random: &mut Random, by: &Answering, tally: &mut Tally) -> Result<(), String> {
    tally.stores += 1;
    let Some(s) = small.get(i as usize) else { return drawn(random, by, tally) };
    tally.listed += 1;
    singly(random, by, s, tally)?;
    if s.count() < MOST as u32 || random.one_in(16) {
        combined(by, s, tally)?;
    }
    Ok(())
}
