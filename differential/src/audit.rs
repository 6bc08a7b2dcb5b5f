//! The audit, written from document 01 and document 02's Notes 7 and 9 alone: 0, or the first of refusals 1 to 4 and 12 that is due.

use crate::{index::bucket, lent::*};
use std::collections::HashSet;

/// 'characters 0 to 196,607, including 0xD800 to 0xDFFF, and none above'
pub fn is_char(c: u32) -> bool {
    c < 0x30000
}

/// 'a number below 2^31'
pub fn is_number(n: u32) -> bool {
    n < 1 << 31
}

pub fn audit(s: &Lent) -> u32 {
    if !sizes(s) {
        1
    } else if !records(s) {
        2
    } else if !classes(s) {
        3
    } else if !congruences(s) {
        4
    } else if !chained(s) {
        12
    } else {
        0
    }
}

/// What 1 and 2 ask: each record can be read.
pub fn readable(s: &Lent) -> bool {
    sizes(s) && records(s)
}

/// What 3 and 4 ask of the table alone.
pub fn table_passes(s: &Lent) -> bool {
    classes(s) && congruences(s)
}

// 1: 'a count above its limit, or a slice too short for it'; record 0 of terms and of cells has its room too, and so have the heads
fn sizes(s: &Lent) -> bool {
    if s.state.len() < 6 {
        return false;
    }
    let fits = |i: usize, limit: usize, words: &dyn Fn(usize) -> usize, slice: &[u32]| {
        let n = s.state[i] as usize;
        n <= limit && words(n) <= slice.len()
    };
    fits(0, TERMS, &|n| BUCKETS + TERM_WIDTH * (n + 1), &s.terms)
        && fits(1, CELLS, &|n| CELL_WIDTH * (n + 1), &s.cells)
        && fits(2, CHARS, &|n| n, &s.chars)
        && fits(3, REASONS, &|n| 2 * n, &s.reasons)
        && fits(4, KEYS, &|n| 2 * n, &s.keys)
}

// 2: 'first three words of terms; cell, character, reason and key records'
fn records(s: &Lent) -> bool {
    let cells = (1..=s.state[1]).all(|c| {
        let next = s.cell(c).2;
        next == 0 || (c < next && next <= s.state[1])
    });
    cells
        && s.chars[..s.state[2] as usize].iter().all(|&c| is_char(c))
        && s.reason_list().iter().all(|&(kind, n)| (kind == 1 || kind == 2) && is_number(n))
        && (1..=s.count()).all(|t| term(s, t))
        && names_differ(s)
        && s.key_list().iter().all(|&(a, b)| a < b && s.is_string(a) && s.is_string(b))
}

fn term(s: &Lent, t: u32) -> bool {
    let r = s.term(t);
    let text = r.first as u64 + r.second as u64 <= s.state[2] as u64;
    match r.kind {
        CONSTANT => text,
        VARIABLE => text && r.second >= 1,
        CONCATENATION => {
            let parts = s.chain(r.first);
            r.first <= s.state[1]
                && parts.len() >= 2
                && parts.iter().all(|&(part, other)| part < t && s.is_string(part) && other == 0)
                && r.second == 0
        }
        LENGTH => r.first < t && s.is_string(r.first) && r.second == 0,
        EQUATION => {
            let strings = s.is_string(r.first) && s.is_string(r.second);
            let lengths = s.kind(r.first) == LENGTH && s.kind(r.second) == LENGTH;
            r.first < t && r.second < t && (strings || lengths)
        }
        _ => false,
    }
}

fn names_differ(s: &Lent) -> bool {
    let mut names = HashSet::new();
    (1..=s.count()).filter(|&t| s.kind(t) == VARIABLE).all(|t| names.insert(s.text(t)))
}

// where following the parents ends, if it ends
fn end(s: &Lent, t: u32, parent: fn(&Term) -> u32) -> Option<u32> {
    let mut t = t;
    for _ in 0..=s.count() {
        if !s.is_term(t) {
            return None;
        }
        let next = parent(&s.term(t));
        if next == t {
            return Some(t);
        }
        t = next;
    }
    None
}

// 3: 'parents or division wrong; a forest root's label or stamp not 0; a label kind, or the value of kind 1, 2 or 4, wrong'
fn classes(s: &Lent) -> bool {
    let all = || 1..=s.count();
    let mut roots = vec![0];
    let mut tops = vec![0];
    for t in all() {
        match (end(s, t, |r| r.class_parent), end(s, t, |r| r.forest_parent)) {
            (Some(root), Some(top)) => {
                roots.push(root);
                tops.push(top);
            }
            _ => return false,
        }
    }
    // a term's class root stands in its tree, and its tree's root in its class: so two terms share the one where they share the other
    let alike = all().all(|t| {
        let (root, top) = (roots[t as usize] as usize, tops[t as usize] as usize);
        tops[root] as usize == top && roots[top] as usize == root
    });
    let alone = all().all(|t| s.is_string(t) || all().all(|u| t == u || roots[t as usize] != roots[u as usize]));
    alike && alone && all().all(|t| label(s, t))
}

fn label(s: &Lent, t: u32) -> bool {
    let r = s.term(t);
    if !s.is_edge(t) {
        return r.label_kind == 0 && r.label_value == 0 && r.stamp == 0;
    }
    match r.label_kind {
        1 | 2 => is_number(r.label_value),
        3 => true,
        4 => r.label_value == 0,
        _ => false,
    }
}

// 4: 'ends, chain, pairs, direction or stamps wrong'
fn congruences(s: &Lent) -> bool {
    (1..=s.count()).filter(|&t| s.is_edge(t) && s.term(t).label_kind == 3).all(|t| congruence(s, t))
}

fn congruence(s: &Lent, t: u32) -> bool {
    let r = s.term(t);
    let u = r.forest_parent;
    if s.kind(t) != CONCATENATION || s.kind(u) != CONCATENATION || r.label_value > s.state[1] {
        return false;
    }
    let pairs = s.chain(r.label_value);
    let zip = |a: u32, b: u32| -> Option<Vec<Pair>> {
        let (a, b) = (s.parts(a), s.parts(b));
        (a.len() == b.len()).then(|| a.into_iter().zip(b).collect())
    };
    let ways = zip(t, u).is_some_and(|p| p == pairs) || zip(u, t).is_some_and(|p| p == pairs);
    ways && pairs.iter().all(|&(a, b)| s.path(a, b).is_some_and(|path| path.iter().all(|&e| s.term(e).stamp < r.stamp)))
}

// 12: each chain, from its bucket's head on by ninth words, is of terms and ascends, 'zero ends a chain'; 'every term is in its bucket's chain and
// in no other'
fn chained(s: &Lent) -> bool {
    let mut met = vec![false; s.count() as usize];
    let whole = (0..BUCKETS).all(|b| {
        let (mut last, mut t) = (0, s.terms[b]);
        while t != 0 {
            if !s.is_term(t) || t <= last || bucket(s, t) != b {
                return false;
            }
            met[t as usize - 1] = true;
            (last, t) = (t, s.terms[term_place(t, NEXT)]);
        }
        true
    });
    whole && met.into_iter().all(|m| m)
}
