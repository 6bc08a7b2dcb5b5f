//! Document 02's Note 9: the bucket of a term, and the index that the records determine. What a call leaves is held to it.

use crate::{audit, lent::*};

/// 'the remainder by 64 of its kind plus all its characters or all its parts' numbers', each occurrence counted; a length has one part, an
/// equation two. Of a record that keeps its rule.
pub fn bucket(s: &Lent, t: u32) -> usize {
    let r = s.term(t);
    let sum = |numbers: &[u32]| numbers.iter().map(|&x| x as u64).sum::<u64>();
    let numbers = match r.kind {
        CONSTANT | VARIABLE => sum(s.text(t)),
        CONCATENATION => sum(&s.parts(t)),
        LENGTH => r.first as u64,
        _ => r.first as u64 + r.second as u64,
    };
    ((r.kind as u64 + numbers) % BUCKETS as u64) as usize
}

/// Heads, and ninth words from term 1 on.
#[derive(Clone, PartialEq, Eq, Debug)]
pub struct Index {
    pub heads: Vec<u32>,
    pub nexts: Vec<u32>,
}

impl Index {
    /// The lowest term of each bucket, and for each counted term the next higher one of its bucket, or 0.
    pub fn determined(s: &Lent) -> Self {
        let mut index = Index { heads: vec![0; BUCKETS], nexts: vec![0; s.count() as usize] };
        for t in (1..=s.count()).rev() {
            let head = &mut index.heads[bucket(s, t)];
            index.nexts[t as usize - 1] = std::mem::replace(head, t);
        }
        index
    }

    /// As the words have it, of n terms.
    pub fn standing(s: &Lent, n: u32) -> Self {
        Index { heads: s.terms[..BUCKETS].to_vec(), nexts: (1..=n).map(|t| s.terms[term_place(t, NEXT)]).collect() }
    }

    pub fn write(&self, s: &mut Lent) {
        s.terms[..BUCKETS].copy_from_slice(&self.heads);
        for (i, &next) in self.nexts.iter().enumerate() {
            s.terms[term_place(i as u32 + 1, NEXT)] = next;
        }
    }

    // where another first differs
    fn difference(&self, given: &Index) -> Option<String> {
        let differs = |a: &[u32], b: &[u32]| (0..a.len()).find(|&i| a[i] != b[i]);
        if let Some(b) = differs(&self.heads, &given.heads) {
            return Some(format!("head {b}: {} expected, {} given", self.heads[b], given.heads[b]));
        }
        let at = differs(&self.nexts, &given.nexts)?;
        Some(format!("the ninth word of term {}: {} expected, {} given", at + 1, self.nexts[at], given.nexts[at]))
    }
}

/// Writes the index of the counted records. Records that break their rule have none: then nothing is written.
pub fn put(s: &mut Lent) {
    if audit::readable(s) {
        Index::determined(s).write(s);
    }
}

/// Term t, the last one, at the end of its bucket's chain.
pub fn link(s: &mut Lent, t: u32) {
    let mut at = bucket(s, t);
    while s.terms[at] != 0 {
        at = term_place(s.terms[at], NEXT);
    }
    s.terms[at] = t;
}

/// Heads and counted ninth words that name a term above the count become 0: the index of the terms below, where terms were taken away.
pub fn cut(s: &mut Lent) {
    let n = s.count();
    for at in (0..BUCKETS).chain((1..=n).map(|t| term_place(t, NEXT))) {
        if s.terms[at] > n {
            s.terms[at] = 0;
        }
    }
}

/// What is wrong with the index after a call, if anything: after an answer it is that of the records counted at exit, after refusals 6 to 9 that
/// of the records counted at entry, and after another no word of terms has changed.
pub fn amiss(entry: &Lent, code: u32, exit: &Lent) -> Option<String> {
    let (expected, count) = match code {
        0 if !audit::readable(exit) => return Some("records that break their rule were left".into()),
        0 => (Index::determined(exit), exit.count()),
        6..=9 => (Index::determined(entry), entry.count()),
        _ => return (exit.terms != entry.terms).then(|| "a refused call wrote a word of terms".into()),
    };
    expected.difference(&Index::standing(exit, count)).map(|what| format!("the index after result {code}: {what}"))
}
