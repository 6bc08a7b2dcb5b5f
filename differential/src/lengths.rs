//! Document 02's Note 6: the forced length, beside the same numbers taken from the lists that the Rust's own tests flatten and strip
//! (`oracle.rs`). Where a remainder above 0 or a shortage is shown, the Rust's `resolve_equation`, and the subject's own, must answer Conflict on
//! the same two lists, or Saturated where they flattened, or find the reasons full. Small stores are listed without gaps, with all their lists;
//! others are drawn.

use crate::{
    audit::audit,
    call::*,
    compare::difference,
    draft::*,
    empties::{divisions, words},
    generate, index,
    lent::*,
    oracle::{self, Mode},
    random::Random,
    shrink,
};

/// What was met.
#[derive(Clone, Default)]
pub struct Tally {
    pub stores: u64,
    /// stores that are all of their kind, not drawn, and calls on them
    pub listed: u64,
    pub listed_calls: u64,
    pub calls: u64,
    /// by result
    pub codes: [u64; 16],
    /// answered calls: nothing left over, a remainder, a shortage
    pub spans: [u64; 3],
    /// of the last two: Conflict, Saturated, reasons full
    pub refuted: [u64; 3],
    pub absent: u64,
    pub differences: u64,
}

impl Tally {
    pub fn add(&mut self, o: &Tally) {
        let sum = |a: &mut [u64], b: &[u64]| a.iter_mut().zip(b).for_each(|(x, y)| *x += y);
        sum(&mut self.codes, &o.codes);
        sum(&mut self.spans, &o.spans);
        sum(&mut self.refuted, &o.refuted);
        self.stores += o.stores;
        self.listed += o.listed;
        self.listed_calls += o.listed_calls;
        self.calls += o.calls;
        self.absent += o.absent;
        self.differences += o.differences;
    }

    pub fn print(&self) {
        println!("{} stores, {} of them listed without gaps with {} calls", self.stores, self.listed, self.listed_calls);
        let [even, remainder, shortage] = self.spans;
        let [conflict, saturated, full] = self.refuted;
        println!(
            "nothing left over {even}, a remainder {remainder}, a shortage {shortage}; of the last two: Conflict {conflict}, Saturated {saturated}, reasons full {full}"
        );
        let c = &self.codes;
        println!(
            "{} calls compared, {} that the port lacks; answered {}, refused 1 to 5: {} {} {} {} {}, 6: {}, 11: {}; {} differences",
            self.calls, self.absent, c[0], c[1], c[2], c[3], c[4], c[5], c[6], c[11], self.differences
        );
    }
}

type Calling<'a> = &'a dyn Fn(&Lent, &Request) -> Option<Outcome>;

/// One call with all that it is held to.
pub fn one(call: Calling, s: &Lent, r: &Request, tally: &mut Tally) -> Result<(), String> {
    let Call::ForcedLength { lhs, rhs } = &r.call else { return Ok(()) };
    let expected = oracle::run(s, r, Mode::Departing).outcome;
    let Some(got) = call(s, r) else {
        tally.absent += 1;
        return Ok(());
    };
    if let Some(what) = difference(s, r, &expected, &got).or_else(|| written(s, &got)) {
        return Err(format!("{what}\n{r:?}\n{s}\nexpected {expected}\ngiven {got}"));
    }
    tally.calls += 1;
    tally.codes[got.code as usize] += 1;
    if got.code != 0 {
        return Ok(());
    }
    let kind = if got.answer[0] == 1 { 2 } else { (got.answer[5] > 0) as usize };
    tally.spans[kind] += 1;
    if kind == 0 {
        return Ok(());
    }
    let resolve = Request::new(Call::ResolveEquation { lhs: lhs.clone(), rhs: rhs.clone(), guard: 3 });
    let flattened = lhs.iter().chain(rhs).any(|&t| s.kind(t) == CONCATENATION);
    let own = call(s, &resolve).ok_or("a call that the port lacks")?;
    if let Some(what) = index::amiss(s, own.code, &own.exit) {
        return Err(format!("{what}\n{resolve:?}\n{s}\ngiven {own}"));
    }
    for o in [oracle::run(s, &resolve, Mode::Departing).outcome, own] {
        let due = o.code == 7 || o.code == 0 && o.answer[0] == if flattened { SATURATED } else { CONFLICT };
        if !due {
            return Err(format!("a remainder or a shortage, yet\n{resolve:?}\n{s}\ngives {o}"));
        }
        tally.refuted[if o.code == 7 { 2 } else { flattened as usize }] += 1;
    }
    Ok(())
}

// six words of the answer are written, and nothing else
fn written(s: &Lent, got: &Outcome) -> Option<String> {
    let named = if got.code == 0 { 6 } else { 0 };
    if got.answer.iter().skip(named).any(|&w| w != BLANK) {
        return Some(format!("answer words not named were written: {:?}", got.answer));
    }
    (got.exit != *s || got.list.iter().any(|&w| w != BLANK)).then(|| "a word was written that is not of the answer".into())
}

// -- small stores, listed without gaps --

// two variables; constants of one, two and no characters, "a" twice; in the last a concatenation
const SMALL: [&[&str]; 3] = [&["a", "ab"], &["", "aba"], &["a", "a"]];

/// Every division into classes of the terms of each small store, with room for a reason and without.
pub fn small() -> Vec<Lent> {
    let mut stores = vec![];
    for (i, texts) in SMALL.iter().enumerate() {
        let mut d = Draft { spare: [0; 5], ..Draft::default() };
        let (x, _) = (d.variable("x"), d.variable("y"));
        let last = texts.iter().map(|w| d.constant(w)).last().unwrap();
        if i == 2 {
            d.concat(&[x, last]);
        }
        for class in divisions(d.specs.len()) {
            let mut e = d.clone();
            for t in 1..=e.count() {
                if let Some(u) = (1..t).find(|&u| class[u as usize - 1] == class[t as usize - 1]) {
                    e.merge(t, u, Label::Asserted(t));
                }
            }
            for room in 0..=1 {
                e.spare[3] = room;
                stores.push(lay_out(&e));
            }
        }
    }
    stores
}

/// Every two lists of a small store that have up to four terms together.
fn pairs(terms: u32) -> Vec<(Vec<u32>, Vec<u32>)> {
    let all = words(terms, 4);
    let both = all.iter().flat_map(|l| all.iter().map(move |r| (l, r)));
    both.filter(|(l, r)| l.len() + r.len() <= 4).map(|(l, r)| (l.clone(), r.clone())).collect()
}

// calls on each drawn store
const CALLS: usize = 10;

/// The store of a round with its calls: the small ones first, then drawn ones.
pub fn round(i: u64, small: &[Lent], random: &mut Random, call: Calling, tally: &mut Tally) -> Result<(), String> {
    tally.stores += 1;
    if let Some(s) = small.get(i as usize) {
        tally.listed += 1;
        for (lhs, rhs) in pairs(s.count()) {
            one(call, s, &Request::new(Call::ForcedLength { lhs, rhs }), tally)?;
            tally.listed_calls += 1;
        }
        return Ok(());
    }
    let d = if random.one_in(40) {
        generate::at_limits(random)
    } else {
        let p = generate::profile(random);
        generate::draft(random, p)
    };
    let s = lay_out(&d);
    assert_eq!(audit(&s), 0, "round {i}: a store that should pass");
    for _ in 0..CALLS {
        let r = if random.one_in(200) { generate::long_request(random, &s, 15) } else { generate::request(random, &s, 15) };
        one(call, &s, &r, tally).map_err(|what| smallest(call, &d, &r).unwrap_or(what))?;
    }
    Ok(())
}

// the same difference on the smallest input that shows one
fn smallest(call: Calling, d: &Draft, r: &Request) -> Option<String> {
    let failing = |d: &Draft, c: &Call| one(call, &lay_out(d), &Request::new(c.clone()), &mut Tally::default()).err();
    failing(d, &r.call)?;
    let (d, asked) = shrink::shrink(d.clone(), r.call.clone(), |d, c| failing(d, c).is_some());
    failing(&d, &asked)
}
