//! A lent store: the state's six words and five slices, laid out as document 01's 'The records' and document 02's Note 9 say.

use crate::index;
use std::fmt;

pub const TERMS: usize = 512;
pub const CELLS: usize = 2048;
pub const CHARS: usize = 16384;
pub const REASONS: usize = 4096;
pub const KEYS: usize = 4096;
pub const LIST: usize = 1024;

/// How many words a term and a cell have; a term's last is the next term of its bucket.
pub const TERM_WIDTH: usize = 9;
pub const CELL_WIDTH: usize = 3;

/// The heads of the index, which stand before record 0 of terms.
pub const BUCKETS: usize = 64;

/// The numbers of the words of a term that a class changes, and of the one that is the next term of its bucket.
pub const CLASS_WORDS: std::ops::Range<usize> = 3..8;
pub const NEXT: usize = 8;

/// Where a word of term t stands, the word by its number in the record. n terms take the words below that of term n + 1.
pub fn term_place(t: u32, word: usize) -> usize {
    BUCKETS + TERM_WIDTH * t as usize + word
}

pub const CONSTANT: u32 = 1;
pub const VARIABLE: u32 = 2;
pub const CONCATENATION: u32 = 3;
pub const LENGTH: u32 = 4;
pub const EQUATION: u32 = 5;

/// A reason or a split key.
pub type Pair = (u32, u32);

#[derive(Clone, PartialEq, Eq, Debug, Default)]
pub struct Lent {
    /// counts of terms, cells, characters, reasons and keys, and the name counter
    pub state: Vec<u32>,
    pub terms: Vec<u32>,
    pub cells: Vec<u32>,
    pub chars: Vec<u32>,
    pub reasons: Vec<u32>,
    pub keys: Vec<u32>,
}

#[derive(Clone, Copy, PartialEq, Eq, Debug, Default)]
pub struct Term {
    pub kind: u32,
    pub first: u32,
    pub second: u32,
    pub class_parent: u32,
    pub forest_parent: u32,
    pub label_kind: u32,
    pub label_value: u32,
    pub stamp: u32,
}

impl Lent {
    pub fn count(&self) -> u32 {
        self.state[0]
    }

    pub fn is_term(&self, t: u32) -> bool {
        1 <= t && t <= self.count()
    }

    pub fn term(&self, t: u32) -> Term {
        let w = self.words(t);
        Term {
            kind: w[0],
            first: w[1],
            second: w[2],
            class_parent: w[3],
            forest_parent: w[4],
            label_kind: w[5],
            label_value: w[6],
            stamp: w[7],
        }
    }

    /// The eight words of a term that document 01 has.
    pub fn words(&self, t: u32) -> &[u32] {
        &self.terms[term_place(t, 0)..term_place(t, NEXT)]
    }

    /// Class parent, forest parent, label kind, label value and stamp of a term.
    pub fn class_words(&mut self, t: u32) -> &mut [u32] {
        &mut self.terms[term_place(t, CLASS_WORDS.start)..term_place(t, CLASS_WORDS.end)]
    }

    pub fn set_class_parent(&mut self, t: u32, parent: u32) {
        self.class_words(t)[0] = parent;
    }

    pub fn kind(&self, t: u32) -> u32 {
        if self.is_term(t) {
            self.term(t).kind
        } else {
            0
        }
    }

    pub fn is_string(&self, t: u32) -> bool {
        matches!(self.kind(t), CONSTANT | VARIABLE | CONCATENATION)
    }

    /// value, second value, next
    pub fn cell(&self, c: u32) -> (u32, u32, u32) {
        let w = &self.cells[CELL_WIDTH * c as usize..CELL_WIDTH * c as usize + CELL_WIDTH];
        (w[0], w[1], w[2])
    }

    /// The values of a chain, of a store whose cells keep their rule.
    pub fn chain(&self, first: u32) -> Vec<Pair> {
        let mut values = Vec::new();
        let mut c = first;
        while c != 0 && c <= self.state[1] {
            let (value, other, next) = self.cell(c);
            values.push((value, other));
            c = next;
        }
        values
    }

    pub fn parts(&self, t: u32) -> Vec<u32> {
        self.chain(self.term(t).first).into_iter().map(|p| p.0).collect()
    }

    /// A constant's characters or a variable's name.
    pub fn text(&self, t: u32) -> &[u32] {
        let r = self.term(t);
        &self.chars[r.first as usize..r.first as usize + r.second as usize]
    }

    pub fn class_root(&self, mut t: u32) -> u32 {
        while self.term(t).class_parent != t {
            t = self.term(t).class_parent;
        }
        t
    }

    pub fn is_edge(&self, t: u32) -> bool {
        self.term(t).forest_parent != t
    }

    /// t, its forest parent and so on up to the tree's root
    pub fn ancestors(&self, t: u32) -> Vec<u32> {
        let mut list = vec![t];
        while self.is_edge(*list.last().unwrap()) {
            list.push(self.term(*list.last().unwrap()).forest_parent);
        }
        list
    }

    /// The children of the edges from a, then from b, to their nearest shared ancestor.
    pub fn path(&self, a: u32, b: u32) -> Option<Vec<u32>> {
        let from_a = self.ancestors(a);
        let from_b = self.ancestors(b);
        let at = from_a.iter().position(|x| from_b.contains(x))?;
        let shared = from_a[at];
        let mut path = from_a[..at].to_vec();
        path.extend(from_b.iter().take_while(|&&x| x != shared));
        Some(path)
    }

    fn pairs(words: &[u32], count: u32) -> Vec<Pair> {
        words[..2 * count as usize].chunks(2).map(|p| (p[0], p[1])).collect()
    }

    pub fn reason_list(&self) -> Vec<Pair> {
        Lent::pairs(&self.reasons, self.state[3])
    }

    pub fn key_list(&self) -> Vec<Pair> {
        Lent::pairs(&self.keys, self.state[4])
    }

    /// How many records each slice and its limit hold, in the state's order.
    pub fn room(&self) -> [usize; 5] {
        [
            TERMS.min((self.terms.len().saturating_sub(BUCKETS) / TERM_WIDTH).saturating_sub(1)),
            CELLS.min((self.cells.len() / CELL_WIDTH).saturating_sub(1)),
            CHARS.min(self.chars.len()),
            REASONS.min(self.reasons.len() / 2),
            KEYS.min(self.keys.len() / 2),
        ]
    }

    /// What is counted, words above the counts and record 0 left out; the last are the heads.
    pub fn counted(&self) -> [&[u32]; 7] {
        let n: Vec<usize> = self.state.iter().map(|&x| x as usize).collect();
        [
            &self.state,
            &self.terms[term_place(1, 0)..term_place(self.state[0] + 1, 0)],
            &self.cells[CELL_WIDTH..CELL_WIDTH * (n[1] + 1)],
            &self.chars[..n[2]],
            &self.reasons[..2 * n[3]],
            &self.keys[..2 * n[4]],
            &self.terms[..BUCKETS],
        ]
    }

    fn put(slice: &mut Vec<u32>, at: usize, words: &[u32]) {
        if slice.len() < at + words.len() {
            slice.resize(at + words.len(), 0);
        }
        slice[at..at + words.len()].copy_from_slice(words);
    }

    // -- appending, with no look at the room --

    /// A term of its own class, at the end of its bucket's chain.
    pub fn add_term(&mut self, kind: u32, first: u32, second: u32) -> u32 {
        self.state[0] += 1;
        let t = self.state[0];
        Lent::put(&mut self.terms, term_place(t, 0), &[kind, first, second, t, t, 0, 0, 0, 0]);
        index::link(self, t);
        t
    }

    pub fn add_text(&mut self, text: &[u32]) -> u32 {
        let place = self.state[2];
        Lent::put(&mut self.chars, place as usize, text);
        self.state[2] += text.len() as u32;
        place
    }

    pub fn add_chain(&mut self, values: &[Pair]) -> u32 {
        let first = self.state[1] + 1;
        for (i, &(value, other)) in values.iter().enumerate() {
            self.state[1] += 1;
            let c = self.state[1];
            let next = if i + 1 < values.len() { c + 1 } else { 0 };
            Lent::put(&mut self.cells, CELL_WIDTH * c as usize, &[value, other, next]);
        }
        first
    }

    pub fn add_reason(&mut self, r: Pair) {
        Lent::put(&mut self.reasons, 2 * self.state[3] as usize, &[r.0, r.1]);
        self.state[3] += 1;
    }

    pub fn add_key(&mut self, k: Pair) {
        Lent::put(&mut self.keys, 2 * self.state[4] as usize, &[k.0, k.1]);
        self.state[4] += 1;
    }
}

pub fn spelled(text: &[u32]) -> String {
    text.iter().map(|&c| char::from_u32(c).map_or_else(|| format!("<{c:x}>"), String::from)).collect()
}

/// One record a line, as far as they can be read.
impl fmt::Display for Lent {
    fn fmt(&self, f: &mut fmt::Formatter) -> fmt::Result {
        writeln!(f, "state {:?} room {:?}", self.state, self.room())?;
        if crate::audit::audit(self) == 1 {
            return Ok(());
        }
        for t in 1..=self.count() {
            let r = self.term(t);
            let place = r.first as usize;
            let end = place + r.second as usize;
            let what = match r.kind {
                CONSTANT | VARIABLE if end <= self.chars.len() => format!("{:?}", spelled(&self.chars[place..end])),
                CONCATENATION => format!("{:?}", self.parts(t)),
                _ => format!("{} {}", r.first, r.second),
            };
            let kind = ["", "constant", "variable", "concatenation", "length", "equation"].get(r.kind as usize).unwrap_or(&"?");
            write!(f, "{t}: {kind} {what}  class {} forest {}", r.class_parent, r.forest_parent)?;
            if r.label_kind == 3 {
                write!(f, " label 3 {:?}", self.chain(r.label_value))?;
            } else if r.label_kind != 0 {
                write!(f, " label {} {}", r.label_kind, r.label_value)?;
            }
            writeln!(f, " stamp {} next {}", r.stamp, self.terms[term_place(t, NEXT)])?;
        }
        let heads = (0..BUCKETS).filter(|&b| self.terms[b] != 0).map(|b| format!("{b}: {}", self.terms[b]));
        writeln!(f, "heads {}", heads.collect::<Vec<_>>().join(", "))?;
        write!(f, "reasons {:?} keys {:?}", self.reason_list(), self.key_list())
    }
}
