//! One repeated field: every list of up to four short constants against every list of up to four entries that are short constants and one
//! variable, which is alone in its class. Every word that could matter is tried for the variable: Conflict is due exactly where none makes
//! the sides equal, and refusals 6 to 9 only where one does.

use crate::{call::*, draft::*, index, lent::Lent};

/// What was met.
#[derive(Clone, Default)]
pub struct Tally {
    pub calls: u64,
    pub conflicts: u64,
    /// by case of the answer
    pub cases: [u64; 6],
    /// by result
    pub codes: [u64; 10],
    pub absent: u64,
    pub differences: u64,
}

impl Tally {
    pub fn add(&mut self, o: &Tally) {
        self.cases.iter_mut().zip(o.cases).for_each(|(x, y)| *x += y);
        self.codes.iter_mut().zip(o.codes).for_each(|(x, y)| *x += y);
        self.calls += o.calls;
        self.conflicts += o.conflicts;
        self.absent += o.absent;
        self.differences += o.differences;
    }

    pub fn print(&self) {
        let (c, k) = (&self.cases, &self.codes);
        println!(
            "{} calls, {} that the port lacks; no word in {}: all conflicts; a word in {}: done {} saturated {} propagate {} split {}, refused {} ({} {} {} {}, 6 to 9); {} differences",
            self.calls,
            self.absent,
            self.conflicts,
            self.calls - self.conflicts,
            c[0],
            c[1],
            c[3],
            c[4],
            k[6..].iter().sum::<u64>(),
            k[6],
            k[7],
            k[8],
            k[9],
            self.differences
        );
    }
}

const ENTRIES: usize = 4;

// with "", and without it, so that it has to be made; "a" is there twice in the first
const TEXTS: [&[&str]; 2] = [&["", "a", "b", "ab", "a"], &["a", "b", "ba"]];

/// A store, by what is special about it, with its constants and the variable.
pub struct Shelf {
    pub about: &'static str,
    pub store: Lent,
    pub constants: Vec<u32>,
    pub field: u32,
}

// every pair of string terms
fn pairs(d: &Draft) -> Vec<(u32, u32)> {
    let t = d.strings();
    t.iter().enumerate().flat_map(|(i, &a)| t[i + 1..].iter().map(move |&b| (a, b))).collect()
}

fn shelf(texts: &[&str], about: &'static str) -> Shelf {
    let mut d = Draft::default();
    let field = d.variable(if about == "reserved name" { "!strk0" } else { "x" });
    let constants: Vec<u32> = texts.iter().map(|w| d.constant(w)).collect();
    match about {
        "full" => d.spare = [0; 5],
        "keys" => d.keys = pairs(&d),
        "names" => d.names = u32::MAX,
        // all constants in one class, under a reason or none, and no room for a reason
        "merged" | "merged by definition" => {
            let label = if about == "merged" { Label::Asserted(3) } else { Label::Definitional };
            constants.windows(2).for_each(|p| d.merge(p[0], p[1], label));
            d.spare[3] = 0;
        }
        _ => {}
    }
    Shelf { about, store: lay_out(&d), constants, field }
}

/// The stores: with room, without any, every pair a key, no name left, constants merged, and a variable whose name is reserved.
pub fn shelves() -> Vec<Shelf> {
    let about = ["room", "full", "keys", "names", "merged", "merged by definition", "reserved name"];
    TEXTS.iter().flat_map(|texts| about.map(|a| shelf(texts, a))).collect()
}

/// All lists of these terms, the shorter first.
pub fn lists(terms: &[u32], longest: usize) -> Vec<Vec<u32>> {
    let mut all: Vec<Vec<u32>> = vec![vec![]];
    let mut from = 0;
    for _ in 0..longest {
        let to = all.len();
        for i in from..to {
            for &t in terms {
                let mut l = all[i].clone();
                l.push(t);
                all.push(l);
            }
        }
        from = to;
    }
    all
}

fn joined(s: &Lent, list: &[u32], field: u32, word: &[u32]) -> Vec<u32> {
    list.iter().flat_map(|&t| if t == field { word } else { s.text(t) }.iter().copied()).collect()
}

/// A word with which the label is the side: every word over the letters of the constants and one more, up to the length of the side. A
/// longer one makes the label longer than the side.
pub fn some_word(s: &Lent, side: &[u32], label: &[u32], field: u32, words: &[Vec<u32>]) -> Option<Vec<u32>> {
    let goal = joined(s, side, field, &[]);
    words.iter().take_while(|w| w.len() <= goal.len()).find(|w| joined(s, label, field, w) == goal).cloned()
}

/// The words that are tried, the shorter first.
pub fn words() -> Vec<Vec<u32>> {
    lists(&text("abc"), 2 * ENTRIES)
}

/// The labels of a store: lists in which the field stands.
pub fn labels(shelf: &Shelf) -> Vec<Vec<u32>> {
    let entries: Vec<u32> = shelf.constants.iter().copied().chain([shelf.field]).collect();
    lists(&entries, ENTRIES).into_iter().filter(|l| l.contains(&shelf.field)).collect()
}

/// One label against every side, in both orders.
pub fn round(
    shelf: &Shelf,
    label: &[u32],
    words: &[Vec<u32>],
    call: &dyn Fn(&Lent, &Request) -> Option<Outcome>,
    tally: &mut Tally,
) -> Result<(), String> {
    for side in lists(&shelf.constants, ENTRIES) {
        let word = some_word(&shelf.store, &side, label, shelf.field, words);
        for (lhs, rhs) in [(side.as_slice(), label), (label, side.as_slice())] {
            let r = Request::new(Call::ResolveEquation { lhs: lhs.to_vec(), rhs: rhs.to_vec(), guard: 9 });
            let Some(got) = call(&shelf.store, &r) else {
                tally.absent += 1;
                continue;
            };
            tally.calls += 1;
            tally.codes[got.code as usize] += 1;
            let conflict = got.code == 0 && got.answer[0] == CONFLICT;
            tally.conflicts += word.is_none() as u64;
            if got.code == 0 {
                tally.cases[got.answer[0] as usize] += 1;
            }
            if let Some(what) = index::amiss(&shelf.store, got.code, &got.exit) {
                return Err(format!("{}: {what}\n{r:?}\n{}\ngiven {got}", shelf.about, shelf.store));
            }
            if conflict != word.is_none() || (1..=5).contains(&got.code) {
                return Err(format!("{}: {word:?}\n{r:?}\n{}\ngiven {got}", shelf.about, shelf.store));
            }
        }
    }
    Ok(())
}
