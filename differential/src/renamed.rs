//! Characters beyond those that both alphabets have. The Rust has no surrogates; but nothing in document 01 asks more of two characters than
//! whether they are one, except of those of `!strk` and of the digits. So an injective renaming that keeps these changes no answer but the
//! characters themselves. The Rust's answer on a store of characters that both have is carried over by a renaming into the standard's range,
//! and the subject has to give it on the renamed store; `model.rs`, which knows no `char`, is asked there too.

use crate::{
    audit::is_char,
    call::*,
    compare::difference,
    index,
    lent::Lent,
    lists::Answering,
    marks::{Act, Marked},
    model,
    oracle::{self, Mode},
    random::Random,
};
use std::collections::{HashMap, HashSet};

/// What was met.
#[derive(Clone, Default)]
pub struct Tally {
    pub calls: [u64; NAMES.len()],
    /// by result
    pub codes: [u64; 16],
    pub acts: u64,
    /// characters renamed to a surrogate, to one above 0xFFFF, to another
    pub images: [u64; 3],
    /// calls refused because a character stands outside both alphabets
    pub outside: u64,
    pub absent: u64,
    pub differences: u64,
}

impl Tally {
    pub fn add(&mut self, o: &Tally) {
        self.calls.iter_mut().zip(o.calls).for_each(|(x, y)| *x += y);
        self.codes.iter_mut().zip(o.codes).for_each(|(x, y)| *x += y);
        self.acts += o.acts;
        self.images.iter_mut().zip(o.images).for_each(|(x, y)| *x += y);
        self.outside += o.outside;
        self.absent += o.absent;
        self.differences += o.differences;
    }

    pub fn print(&self) {
        for (name, n) in NAMES.iter().zip(self.calls).filter(|x| x.1 > 0) {
            println!("{name}: {n}");
        }
        let (i, c) = (&self.images, &self.codes);
        println!(
            "{} calls on renamed stores compared, and {} of joining, marks and going back; {} that the port lacks; characters renamed to surrogates {}, to others above FFFF {}, below {}; results 0 to 15: {c:?}, {} for a character outside both alphabets; {} differences",
            self.calls.iter().sum::<u64>(),
            self.acts,
            self.absent,
            i[0], i[1], i[2],
            self.outside,
            self.differences
        );
    }
}

/// New characters for old ones, no two alike; what it does not name it keeps.
#[derive(Clone, Default, Debug)]
pub struct Renaming(HashMap<u32, u32>);

/// The characters that the documents name: the names that Split makes begin and end with them.
const KEPT: &str = "!strk0123456789";

fn image(random: &mut Random) -> u32 {
    let between = |random: &mut Random, low: usize, high: usize| random.between(low, high) as u32;
    match random.below(8) {
        0 => *random.pick(&[0xD800, 0xDBFF, 0xDC00, 0xDFFF]),
        1 | 2 => between(random, 0xD800, 0xDFFF),
        3 => *random.pick(&[0x2FFFF, 0x2FFFE, 0x20000, 0x1FFFF, 0xFFFF, 0xE000, 0xD7FF, 0]),
        4 | 5 => between(random, 0x20000, 0x2FFFF),
        // as a pair of surrogates stands for one elsewhere, or cut to sixteen bits
        6 => between(random, 0x10000, 0x1FFFF),
        _ => between(random, 0, 0x2FFFF),
    }
}

impl Renaming {
    /// One for the counted characters of a store and those of a call. A character outside the rule stays, so that it is refused as before.
    pub fn drawn(random: &mut Random, s: &Lent, r: &Request) -> Self {
        let mut taken: HashSet<u32> = KEPT.chars().map(u32::from).collect();
        let mut map = HashMap::new();
        let named = |c: &u32| is_char(*c) && !KEPT.chars().any(|k| u32::from(k) == *c);
        for &c in s.counted()[3].iter().chain(spelled(&r.call)).filter(|c| named(c)) {
            map.entry(c).or_insert_with(|| loop {
                let to = image(random);
                if taken.insert(to) {
                    return to;
                }
            });
        }
        Renaming(map)
    }

    pub fn text(&self, text: &[u32]) -> Vec<u32> {
        text.iter().map(|c| self.0.get(c).copied().unwrap_or(*c)).collect()
    }

    /// The store with other characters, and with the index of the terms that they make.
    pub fn store(&self, s: &Lent) -> Lent {
        let mut renamed = Lent { chars: self.text(&s.chars), ..s.clone() };
        index::put(&mut renamed);
        renamed
    }

    pub fn request(&self, r: &Request) -> Request {
        let mut r = r.clone();
        if let Call::MakeConstant { text } | Call::MakeVariable { name: text } = &mut r.call {
            *text = self.text(text);
        }
        r
    }

    fn outcome(&self, o: &Outcome) -> Outcome {
        Outcome { exit: self.store(&o.exit), ..o.clone() }
    }

    fn count(&self, tally: &mut Tally) {
        for &to in self.0.values() {
            tally.images[if (0xD800..0xE000).contains(&to) {
                0
            } else if to > 0xFFFF {
                1
            } else {
                2
            }] += 1;
        }
    }
}

fn spelled(call: &Call) -> &[u32] {
    match call {
        Call::MakeConstant { text } | Call::MakeVariable { name: text } => text,
        _ => &[],
    }
}

/// One call on a store of characters that both alphabets have: the Rust's answer renamed, the model's on the renamed store, and the subject's.
pub fn one(random: &mut Random, by: &Answering, s: &Lent, r: &Request, tally: &mut Tally) -> Result<(), String> {
    let renaming = Renaming::drawn(random, s, r);
    let (t, q) = (renaming.store(s), renaming.request(r));
    let expected = renaming.outcome(&oracle::run(s, r, Mode::Departing).outcome);
    let Some(got) = (by.call)(&t, &q) else {
        tally.absent += 1;
        return Ok(());
    };
    tally.calls[r.call.number()] += 1;
    tally.codes[expected.code as usize] += 1;
    tally.outside += spelled(&r.call).iter().any(|&c| !is_char(c)) as u64;
    renaming.count(tally);
    let told = |by: &str, what: String| format!("{by}: {what}\n{r:?}\n{s}\nrenamed {renaming:?}\n{q:?}\ngiven {got}");
    if let Some(what) = difference(&t, &q, &expected, &got) {
        return Err(told("the Rust's answer renamed", what));
    }
    match difference(&t, &q, &model::run(&t, &q), &got) {
        Some(what) => Err(told("the model on the renamed store", what)),
        None => Ok(()),
    }
}

/// Joins under marks and going back, on the store and on the renamed one: the same words but for the characters.
pub fn acts(random: &mut Random, by: &Answering, s: &Lent, tally: &mut Tally) -> Result<(), String> {
    let renaming = Renaming::drawn(random, s, &Request::new(Call::Audit));
    let mut plain = Marked::unmarked(s.clone(), vec![0; crate::marks::WORDS]);
    let mut other = Marked { store: renaming.store(&plain.store), ..plain.clone() };
    let term = |random: &mut Random| random.between(0, s.count() as usize + 1) as u32;
    let join = |random: &mut Random| Act::Join { a: term(random), b: term(random), kind: 1, number: 7 };
    for act in [Act::SetMark, join(random), join(random), Act::SetMark, join(random), Act::GoBack { mark: 1 }] {
        let (Some(a), Some(b)) = ((by.act)(&plain, &act, 8), (by.act)(&other, &act, 8)) else {
            tally.absent += 1;
            return Ok(());
        };
        tally.acts += 1;
        for (entry, told) in [(&plain, &a), (&other, &b)] {
            if let Some(what) = index::amiss(&entry.store, told.code, &told.exit.store) {
                return Err(format!("{act:?}: {what}\n{entry}"));
            }
        }
        let renamed = Marked { store: renaming.store(&a.exit.store), ..a.exit.clone() };
        if (a.code, &a.answer, &renamed) != (b.code, &b.answer, &b.exit) {
            return Err(format!("{act:?}: results {} and {} renamed, or other words\n{plain}\nrenamed {renaming:?}", a.code, b.code));
        }
        (plain, other) = (a.exit, b.exit);
    }
    Ok(())
}
