//! Stores that fail the audit: each rule broken singly, and random words.

use crate::{audit::audit, index, lent::*, random::Random};

/// A way to break a rule: its name, the refusal it is due, and how; `false` where the store has nothing to break so.
pub struct Rule {
    pub name: &'static str,
    pub refusal: u32,
    pub damage: fn(&mut Lent, &mut Random) -> bool,
}

fn terms(s: &Lent, of: impl Fn(&Term) -> bool) -> Vec<u32> {
    (1..=s.count()).filter(|&t| of(&s.term(t))).collect()
}

// a word of some term that passes
fn set(s: &mut Lent, random: &mut Random, of: impl Fn(&Term) -> bool, word: usize, value: impl Fn(u32, &Lent) -> u32) -> bool {
    let list = terms(s, of);
    if list.is_empty() {
        return false;
    }
    let t = *random.pick(&list);
    let v = value(t, s);
    s.terms[term_place(t, word)] = v;
    true
}

// a word of some cell of a chain of that kind: 3 of a concatenation, 6 of a congruence
fn set_cell(s: &mut Lent, random: &mut Random, congruence: bool, word: usize, value: impl Fn(u32, &Lent) -> u32) -> bool {
    let of = |r: &Term| if congruence { r.label_kind == 3 } else { r.kind == CONCATENATION };
    let list = terms(s, of);
    if list.is_empty() {
        return false;
    }
    let r = s.term(*random.pick(&list));
    let mut c = if congruence { r.label_value } else { r.first };
    for _ in 0..random.below(3) {
        if s.cell(c).2 != 0 {
            c = s.cell(c).2;
        }
    }
    let v = value(c, s);
    s.cells[CELL_WIDTH * c as usize + word] = v;
    true
}

fn is(kind: u32) -> impl Fn(&Term) -> bool {
    move |r| r.kind == kind
}

fn any(_: &Term) -> bool {
    true
}

fn root(s: &mut Lent, random: &mut Random, word: usize) -> bool {
    let list: Vec<u32> = (1..=s.count()).filter(|&t| !s.is_edge(t)).collect();
    if list.is_empty() {
        return false;
    }
    s.terms[term_place(*random.pick(&list), word)] = 1;
    true
}

fn edge(s: &mut Lent, random: &mut Random, label: u32, word: usize, value: u32) -> bool {
    let list: Vec<u32> = (1..=s.count()).filter(|&t| s.is_edge(t) && (label == 0 || s.term(t).label_kind == label)).collect();
    if list.is_empty() {
        return false;
    }
    s.terms[term_place(*random.pick(&list), word)] = value;
    true
}

// the head of a bucket that has a term
fn head(s: &mut Lent, random: &mut Random, value: impl Fn(u32, &Lent) -> u32) -> bool {
    let list: Vec<usize> = (0..BUCKETS).filter(|&b| s.terms[b] != 0).collect();
    if list.is_empty() {
        return false;
    }
    let b = *random.pick(&list);
    s.terms[b] = value(s.terms[b], s);
    true
}

// the ninth word of a term, where another follows in its chain or of any
fn next(s: &mut Lent, random: &mut Random, followed: bool, value: impl Fn(u32, &Lent) -> u32) -> bool {
    let list: Vec<u32> = (1..=s.count()).filter(|&t| !followed || s.terms[term_place(t, NEXT)] != 0).collect();
    if list.is_empty() {
        return false;
    }
    let t = *random.pick(&list);
    s.terms[term_place(t, NEXT)] = value(t, s);
    true
}

fn strings(s: &Lent) -> Vec<u32> {
    (1..=s.count()).filter(|&t| s.is_string(t)).collect()
}

fn pair(s: &mut Lent, random: &mut Random, keys: bool, value: Pair) -> bool {
    let (i, slice) = if keys { (4, &mut s.keys) } else { (3, &mut s.reasons) };
    if s.state[i] == 0 {
        return false;
    }
    let at = 2 * random.below(s.state[i] as usize);
    slice[at] = value.0;
    slice[at + 1] = value.1;
    true
}

fn long(s: &mut Lent, i: usize, count: u32) -> bool {
    let n = term_place(count + 1, 0);
    for slice in [&mut s.terms, &mut s.cells, &mut s.chars, &mut s.reasons, &mut s.keys] {
        if slice.len() < n {
            slice.resize(n, 0);
        }
    }
    s.state[i] = count;
    true
}

// two string terms of different classes
fn apart(s: &Lent, random: &mut Random) -> Option<(u32, u32)> {
    let list = strings(s);
    for _ in 0..20 {
        if list.len() >= 2 {
            let (a, b) = (*random.pick(&list), *random.pick(&list));
            if s.class_root(a) != s.class_root(b) {
                return Some((a, b));
            }
        }
    }
    None
}

macro_rules! rules {
    ($($refusal:literal $name:literal $damage:expr;)*) => {
        vec![$(Rule { name: $name, refusal: $refusal, damage: $damage }),*]
    };
}

pub fn rules() -> Vec<Rule> {
    rules! {
        1 "513 terms" |s, _| long(s, 0, 513);
        1 "2,049 cells" |s, _| long(s, 1, 2049);
        1 "16,385 characters" |s, _| long(s, 2, 16385);
        1 "4,097 reasons" |s, _| long(s, 3, 4097);
        1 "4,097 keys" |s, _| long(s, 4, 4097);
        1 "a count of 2^32 - 1" |s, r| { let i = r.below(5); s.state[i] = u32::MAX; true };
        1 "terms too short by a word" |s, _| { s.terms.truncate(term_place(s.state[0] + 1, 0) - 1); true };
        1 "cells too short by a word" |s, _| { s.cells.truncate(CELL_WIDTH * (s.state[1] as usize + 1) - 1); true };
        1 "characters too short by a word" |s, _| { let n = s.state[2] as usize; n > 0 && { s.chars.truncate(n - 1); true } };
        1 "reasons too short by a word" |s, _| { let n = 2 * s.state[3] as usize; n > 0 && { s.reasons.truncate(n - 1); true } };
        1 "keys too short by a word" |s, _| { let n = 2 * s.state[4] as usize; n > 0 && { s.keys.truncate(n - 1); true } };
        1 "an empty slice of terms" |s, _| { s.terms.clear(); true };
        1 "a state of five words" |s, _| { s.state.truncate(5); true };
        2 "kind 0" |s, r| set(s, r, any, 0, |_, _| 0);
        2 "kind 6" |s, r| set(s, r, any, 0, |_, _| 6);
        2 "a text that ends above the characters" |s, r| set(s, r, |t| t.kind < 3, 2, |t, s| s.state[2] - s.term(t).first + 1);
        2 "a place above the characters" |s, r| set(s, r, |t| t.kind < 3, 1, |t, s| s.state[2] - s.term(t).second + 1);
        2 "place and length that wrap" |s, r| set(s, r, |t| t.kind < 3 && t.second > 0, 1, |t, s| u32::MAX - s.term(t).second + 1);
        2 "an empty name" |s, r| set(s, r, is(VARIABLE), 2, |_, _| 0);
        2 "a name twice" |s, r| {
            let v = terms(s, is(VARIABLE));
            v.len() >= 2 && {
                let (a, b) = (v[r.below(v.len() - 1)], v[v.len() - 1]);
                s.terms.copy_within(term_place(a, 1)..term_place(a, 3), term_place(b, 1));
                true
            }
        };
        2 "a concatenation of no chain" |s, r| set(s, r, is(CONCATENATION), 1, |_, _| 0);
        2 "a chain above the cells" |s, r| set(s, r, is(CONCATENATION), 1, |_, s| s.state[1] + 1);
        2 "a chain of one" |s, r| set(s, r, is(CONCATENATION), 1, |t, s| { let mut c = s.term(t).first; while s.cell(c).2 != 0 { c = s.cell(c).2; } c });
        2 "a concatenation's second word" |s, r| set(s, r, is(CONCATENATION), 2, |_, _| 1);
        2 "a part that is no term" |s, r| set_cell(s, r, false, 0, |_, s| s.count() + 1);
        2 "a part 0" |s, r| set_cell(s, r, false, 0, |_, _| 0);
        2 "a part that is the last term" |s, r| { let n = s.count(); s.kind(n) == CONCATENATION && set_cell(s, r, false, 0, |_, s| s.count()) };
        2 "a part that is a length or an equation" |s, r| match terms(s, |t| t.kind > 3).first().copied() {
            Some(t) => set_cell(s, r, false, 0, move |_, _| t),
            None => false,
        };
        2 "a part's second value" |s, r| set_cell(s, r, false, 1, |_, _| 1);
        2 "next is the cell itself" |s, r| set_cell(s, r, false, 2, |c, _| c);
        2 "next is above the cells" |s, r| set_cell(s, r, false, 2, |_, s| s.state[1] + 1);
        2 "next is below" |s, r| { let n = s.state[1]; n >= 2 && { s.cells[CELL_WIDTH * n as usize + 2] = 1 + r.below(n as usize - 1) as u32; true } };
        2 "a length of no string term" |s, r| set(s, r, is(LENGTH), 1, |t, _| t);
        2 "a length of 0" |s, r| set(s, r, is(LENGTH), 1, |_, _| 0);
        2 "a length's second word" |s, r| set(s, r, is(LENGTH), 2, |_, _| 1);
        2 "an equation with itself" |s, r| set(s, r, is(EQUATION), 2, |t, _| t);
        2 "an equation of a term above" |s, r| set(s, r, is(EQUATION), 1, |_, s| s.count() + 1);
        2 "an equation of a string term and a length" |s, r| {
            match (terms(s, is(LENGTH)).first().copied(), terms(s, is(EQUATION)).last().copied()) {
                (Some(l), Some(e)) if l < e && s.is_string(s.term(e).first) => set(s, r, is(EQUATION), 2, move |t, _| if t == e { l } else { 0 }),
                _ => false,
            }
        };
        2 "character 0x30000" |s, r| { let n = s.state[2] as usize; n > 0 && { s.chars[r.below(n)] = 0x30000; true } };
        2 "character 0x10FFFF" |s, r| { let n = s.state[2] as usize; n > 0 && { s.chars[r.below(n)] = 0x10FFFF; true } };
        2 "character 0x110000" |s, r| { let n = s.state[2] as usize; n > 0 && { s.chars[r.below(n)] = 0x110000; true } };
        2 "a reason of kind 0" |s, r| pair(s, r, false, (0, 1));
        2 "a reason of kind 3" |s, r| pair(s, r, false, (3, 1));
        2 "a reason numbered 2^31" |s, r| pair(s, r, false, (1, 1 << 31));
        2 "a key of one term twice" |s, r| { let l = strings(s); let t = *r.pick(&l); pair(s, r, true, (t, t)) };
        2 "a key with the higher first" |s, r| { let l = strings(s); l.len() >= 2 && pair(s, r, true, (l[1], l[0])) };
        2 "a key of no term" |s, r| { let (a, n) = (strings(s)[0], s.count()); pair(s, r, true, (a, n + 1)) };
        2 "a key of term 0" |s, r| { let a = strings(s)[0]; pair(s, r, true, (0, a)) };
        2 "a key of a length or an equation" |s, r| match terms(s, |t| t.kind > 3).last().copied() {
            Some(t) => { let a = strings(s)[0]; a < t && pair(s, r, true, (a, t)) }
            None => false,
        };
        3 "class parent 0" |s, r| set(s, r, any, 3, |_, _| 0);
        3 "class parent above the terms" |s, r| set(s, r, any, 3, |_, s| s.count() + 1);
        3 "forest parent 0" |s, r| set(s, r, any, 4, |_, _| 0);
        3 "forest parent above the terms" |s, r| set(s, r, any, 4, |_, s| s.count() + 1);
        3 "class parents in a ring" |s, r| {
            let l: Vec<u32> = (1..=s.count()).filter(|&t| s.term(t).class_parent != t).collect();
            !l.is_empty() && { let t = *r.pick(&l); let root = s.class_root(t); s.set_class_parent(root, t); true }
        };
        3 "forest parents in a ring" |s, r| {
            let l: Vec<u32> = (1..=s.count()).filter(|&t| s.is_edge(t)).collect();
            !l.is_empty() && { let t = *r.pick(&l); let top = *s.ancestors(t).last().unwrap(); s.class_words(top)[1] = t; true }
        };
        3 "one class of two trees" |s, r| match apart(s, r) {
            Some((a, b)) => { let root = s.class_root(a); s.set_class_parent(root, b); true }
            None => false,
        };
        3 "two classes of one tree" |s, r| match apart(s, r) {
            Some((a, b)) => {
                let top = *s.ancestors(a).last().unwrap();
                s.class_words(top)[1..3].copy_from_slice(&[b, 1]);
                true
            }
            None => false,
        };
        3 "a length or an equation not alone" |s, r| match terms(s, |t| t.kind > 3).last().copied() {
            Some(t) => {
                let l = strings(s);
                let a = *r.pick(&l);
                s.class_words(t)[..3].copy_from_slice(&[a, a, 1]);
                true
            }
            None => false,
        };
        3 "a root's label kind" |s, r| root(s, r, 5);
        3 "a root's label value" |s, r| root(s, r, 6);
        3 "a root's stamp" |s, r| root(s, r, 7);
        3 "an edge's label 0" |s, r| edge(s, r, 0, 5, 0);
        3 "an edge's label 5" |s, r| edge(s, r, 0, 5, 5);
        3 "an asserted number 2^31" |s, r| edge(s, r, 1, 6, 1 << 31);
        3 "an interface number 2^31" |s, r| edge(s, r, 2, 6, 1 << 31);
        3 "a definitional edge's value" |s, r| edge(s, r, 4, 6, 1);
        4 "a congruence of other terms" |s, r| {
            let l: Vec<u32> = (1..=s.count()).filter(|&t| s.is_edge(t) && (s.kind(t) != 3 || s.kind(s.term(t).forest_parent) != 3)).collect();
            !l.is_empty() && s.state[1] > 0 && {
                let cell = 1 + r.below(s.state[1] as usize) as u32;
                s.class_words(*r.pick(&l))[2..].copy_from_slice(&[3, cell, u32::MAX]);
                true
            }
        };
        4 "a congruence of no chain" |s, r| edge(s, r, 3, 6, 0);
        4 "a congruence's chain above the cells" |s, r| { let n = s.state[1]; edge(s, r, 3, 6, n + 1) };
        4 "a congruence of stamp 0" |s, r| edge(s, r, 3, 7, 0);
        4 "a pair of other terms" |s, r| match apart(s, r) { Some((a, _)) => set_cell(s, r, true, 0, move |_, _| a), None => false };
        4 "a pair of no terms" |s, r| set_cell(s, r, true, 1, |_, s| s.count() + 1);
        4 "a pair of second value 0" |s, r| set_cell(s, r, true, 1, |_, _| 0);
        4 "a pair too few" |s, r| set(s, r, |t| t.label_kind == 3, 6, |t, s| s.cell(s.term(t).label_value).2);
        4 "a pair turned round" |s, r| {
            let l = terms(s, |t| t.label_kind == 3);
            !l.is_empty() && {
                let c = s.term(*r.pick(&l)).label_value as usize;
                s.cells.swap(CELL_WIDTH * c, CELL_WIDTH * c + 1);
                true
            }
        };
        12 "a head 0 whose bucket has a term" |s, r| head(s, r, |_, _| 0);
        12 "a head that is not the lowest" |s, r| head(s, r, |t, s| s.terms[term_place(t, NEXT)]);
        12 "a head above the terms" |s, r| head(s, r, |_, s| s.count() + 1);
        12 "a head of 2^32 - 1" |s, r| head(s, r, |_, _| u32::MAX);
        12 "a head of another bucket" |s, r| s.count() > 0 && { let t = 1 + r.below(s.count() as usize) as u32; head(s, r, move |_, _| t) };
        12 "a head whose bucket has no term" |s, r| {
            let l: Vec<usize> = (0..BUCKETS).filter(|&b| s.terms[b] == 0).collect();
            s.count() > 0 && !l.is_empty() && { s.terms[*r.pick(&l)] = 1 + r.below(s.count() as usize) as u32; true }
        };
        12 "two heads exchanged" |s, r| { let (a, b) = (r.below(BUCKETS), r.below(BUCKETS)); s.terms.swap(a, b); true };
        12 "a chain cut short" |s, r| next(s, r, true, |_, _| 0);
        12 "a chain that leaves a term out" |s, r| next(s, r, true, |t, s| { let u = s.terms[term_place(t, NEXT)]; s.terms[term_place(u, NEXT)] });
        12 "a term that comes after itself" |s, r| next(s, r, false, |t, _| t);
        12 "a chain that goes back to its head" |s, r| next(s, r, false, |t, s| s.terms[index::bucket(s, t)]);
        12 "a chain that goes on above the terms" |s, r| next(s, r, false, |_, s| s.count() + 1);
        12 "a chain that goes on to 2^32 - 1" |s, r| next(s, r, false, |_, _| u32::MAX);
        12 "a chain that goes on in another" |s, r| s.count() > 0 && { let u = 1 + r.below(s.count() as usize) as u32; next(s, r, false, move |_, _| u) };
        12 "two terms of a chain exchanged" |s, r| {
            let l: Vec<u32> = (1..=s.count()).filter(|&t| s.terms[term_place(t, NEXT)] != 0 && s.terms[index::bucket(s, t)] == t).collect();
            !l.is_empty() && {
                let t = *r.pick(&l);
                let u = s.terms[term_place(t, NEXT)];
                let b = index::bucket(s, t);
                s.terms[b] = u;
                s.terms[term_place(t, NEXT)] = s.terms[term_place(u, NEXT)];
                s.terms[term_place(u, NEXT)] = t;
                true
            }
        };
        12 "another character" |s, r| {
            let l = terms(s, |t| t.kind < 3 && t.second > 0);
            !l.is_empty() && { let at = s.term(*r.pick(&l)).first as usize; s.chars[at] = (s.chars[at] + 1) % 0x30000; true }
        };
        12 "a term taken away" |s, _| s.state[0] > 0 && { s.state[0] -= 1; true };
        12 "no term counted, and heads" |s, _| s.state[0] > 0 && { s.state[..].fill(0); true };
    }
}

/// One rule broken, where the damage broke that one alone: some damages break another rule too, or, as where two parts are alike, none.
pub fn broken(s: &Lent, rule: &Rule, random: &mut Random) -> Option<Lent> {
    let mut d = s.clone();
    ((rule.damage)(&mut d, random) && audit(&d) == rule.refusal).then_some(d)
}

/// A few counted words, heads or counts exchanged for others. In every second store whose records can still be read the index is theirs.
pub fn scrambled(s: &Lent, random: &mut Random) -> Lent {
    let mut d = s.clone();
    let n: Vec<usize> = s.state.iter().map(|&x| x as usize).collect();
    for _ in 0..random.between(1, 4) {
        let value = match random.below(5) {
            0 => random.word(),
            1 => random.below(n[0] + 2) as u32,
            2 => random.below(7) as u32,
            3 => u32::MAX - random.below(3) as u32,
            _ => *random.pick(&[0, 1, 0x8000_0000, 0xD800, 0xDFFF, 0x2FFFF, 0x30000, 0x110000]),
        };
        match random.below(13) {
            0 => {
                let i = random.below(6);
                d.state[i] = value;
            }
            1 => {
                let keep = random.below(d.terms.len() + 1);
                d.terms.truncate(keep);
            }
            2 if n[2] > 0 => put(&mut d.chars, random.below(n[2]), value),
            3 if n[3] > 0 => put(&mut d.reasons, random.below(2 * n[3]), value),
            4 if n[4] > 0 => put(&mut d.keys, random.below(2 * n[4]), value),
            5..=7 if n[1] > 0 => put(&mut d.cells, CELL_WIDTH + random.below(CELL_WIDTH * n[1]), value),
            8 => put(&mut d.terms, random.below(BUCKETS), value),
            _ if n[0] > 0 => put(&mut d.terms, term_place(1, 0) + random.below(TERM_WIDTH * n[0]), value),
            _ => {}
        }
    }
    if random.one_in(2) {
        index::put(&mut d);
    }
    d
}

fn put(slice: &mut [u32], at: usize, value: u32) {
    if let Some(word) = slice.get_mut(at) {
        *word = value;
    }
}

/// Nothing but random words.
pub fn noise(random: &mut Random) -> Lent {
    let small = random.one_in(2);
    let mut words =
        |n: usize| -> Vec<u32> { (0..n).map(|_| if small { random.below(6) as u32 } else { random.word() >> random.below(32) }).collect() };
    Lent { state: words(6), terms: words(term_place(7, 0)), cells: words(30), chars: words(20), reasons: words(8), keys: words(8) }
}
