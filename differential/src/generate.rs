//! Random stores and requests, from a seed.

use crate::{
    audit::is_char,
    call::{Call, Request},
    draft::*,
    lent::*,
    random::Random,
};
use std::collections::HashSet;

/// How large a draft is and what it leans to.
#[derive(Clone, Copy, Debug)]
pub struct Profile {
    pub terms: usize,
    /// merges tried, as a share of the terms in 16ths
    pub merges: usize,
    /// letters of constants
    pub letters: usize,
    /// longest constant
    pub longest: usize,
}

/// Characters that both alphabets have, the standard's and Rust's: any `char` below 0x30000.
const ALPHABETS: [&[char]; 6] = [
    &['a', 'b', 'c'],
    &['a', 'b', 'c'],
    &['é', '漢', 'a'],
    &['\u{1F600}', '\u{2FFFF}', 'a'],
    &['\u{D7FF}', '\u{E000}', '\u{0}'],
    &['!', 's', '0'],
];

pub fn profile(random: &mut Random) -> Profile {
    let terms = *random.pick(&[3, 5, 8, 8, 12, 12, 16, 24, 40]);
    Profile { terms, merges: random.below(14), letters: random.between(1, 3), longest: *random.pick(&[1, 2, 3, 5]) }
}

fn word(random: &mut Random, letters: &[char], longest: usize) -> Vec<u32> {
    let n = random.below(longest + 1);
    (0..n).map(|_| u32::from(*random.pick(letters))).collect()
}

fn name(random: &mut Random, i: usize, letters: &[char]) -> Vec<u32> {
    match random.below(12) {
        0 | 1 => text(&format!("!strk{}", random.below(4))),
        2 => {
            let odd = *random.pick(&["!strk", "!strkx", "!str", "!strk00", "strk0", "!strk4294967295", "!strk4294967294", "!Strk1"]);
            text(odd)
        }
        3 => word(random, letters, 4),
        4 => text(&format!("名{i}\u{1F600}")),
        _ => text(&format!("x{i}")),
    }
}

/// A random draft whose store passes the audit.
pub fn draft(random: &mut Random, p: Profile) -> Draft {
    let mut d = Draft { layout: if random.one_in(8) { 0 } else { random.long() }, ..Draft::default() };
    let letters = &random.pick(&ALPHABETS)[..p.letters];
    let mut names = HashSet::new();
    let kinds = random.below(3);
    for i in 0..p.terms {
        let strings = d.strings();
        let roll = random.below(100);
        let bounds = [[25, 60, 82, 88], [40, 60, 90, 94], [10, 60, 75, 85]][kinds];
        if strings.is_empty() || roll < bounds[1] {
            if roll < bounds[0] {
                d.add(Spec::Constant(word(random, letters, p.longest)));
                continue;
            }
            let mut w = name(random, i, letters);
            if w.is_empty() || !names.insert(w.clone()) {
                w = text(&format!("v{i}"));
                names.insert(w.clone());
            }
            d.add(Spec::Variable(w));
        } else if roll < bounds[2] {
            let parts = concatenation(random, &d, &strings);
            d.add(Spec::Concat(parts));
        } else if roll < bounds[3] {
            d.add(Spec::Length(*random.pick(&strings)));
        } else {
            equation(random, &mut d, &strings);
        }
    }
    if !d.specs.iter().any(|s| matches!(s, Spec::Equation(..))) {
        let strings = d.strings();
        equation(random, &mut d, &strings);
    }
    merges(random, &mut d, p.terms * p.merges / 16);
    loose_ends(random, &mut d);
    d
}

// often another with some parts exchanged, so that congruences come about
fn concatenation(random: &mut Random, d: &Draft, strings: &[u32]) -> Vec<u32> {
    let earlier: Vec<u32> = strings.iter().copied().filter(|&t| d.parts(t).is_some()).collect();
    if !earlier.is_empty() && random.one_in(2) {
        let mut parts = d.parts(*random.pick(&earlier)).unwrap().to_vec();
        for p in &mut parts {
            if random.one_in(2) {
                *p = *random.pick(strings);
            }
        }
        return parts;
    }
    let n = *random.pick(&[2, 2, 2, 3, 4]);
    (0..n).map(|_| *random.pick(strings)).collect()
}

fn equation(random: &mut Random, d: &mut Draft, strings: &[u32]) {
    let lengths: Vec<u32> = (1..=d.count()).filter(|&t| matches!(d.spec(t), Spec::Length(_))).collect();
    let from = if !lengths.is_empty() && random.one_in(4) { &lengths[..] } else { strings };
    let (a, b) = (*random.pick(from), *random.pick(from));
    d.add(Spec::Equation(a, b));
}

pub(crate) fn merges(random: &mut Random, d: &mut Draft, tries: usize) {
    let strings = d.strings();
    if strings.is_empty() {
        return;
    }
    let mut class = d.classes();
    let small = random.one_in(2);
    let variables: Vec<u32> = strings.iter().copied().filter(|&t| matches!(d.spec(t), Spec::Variable(_))).collect();
    for _ in 0..tries {
        let from = if variables.len() >= 2 && random.one_in(2) { &variables } else { &strings };
        let (a, b) = (*random.pick(from), *random.pick(from));
        if class[a as usize] != class[b as usize] {
            let number = if random.one_in(20) { (1 << 31) - 1 - random.below(2) as u32 } else { random.below(10) as u32 };
            let label = match random.below(5) {
                0 | 1 => Label::Asserted(number),
                2 | 3 => Label::Interface(number),
                _ => Label::Definitional,
            };
            let stamp = if small { random.below(3) as u32 } else { random.word() >> random.below(32) };
            d.edges.push(Edge { a, b, label, stamp });
            join(&mut class, a, b);
        }
        if random.one_in(2) {
            congruences(random, d, &mut class);
        }
    }
    congruences(random, d, &mut class);
}

/// Joins concatenations whose arguments are pairwise in one class.
fn congruences(random: &mut Random, d: &mut Draft, class: &mut [u32]) {
    let concats: Vec<u32> = d.strings().into_iter().filter(|&t| d.parts(t).is_some()).collect();
    for &a in &concats {
        for &b in &concats {
            if class[a as usize] == class[b as usize] || random.one_in(4) {
                continue;
            }
            let (x, y) = (d.parts(a).unwrap(), d.parts(b).unwrap());
            if x.len() != y.len() || x.iter().zip(y).any(|(&p, &q)| class[p as usize] != class[q as usize]) {
                continue;
            }
            let highest = x.iter().zip(y).map(|(&p, &q)| highest_stamp(d, p, q)).max().unwrap_or(None);
            let Some(stamp) = highest.map_or(Some(0), |h| h.checked_add(1)) else { continue };
            // a congruence over equal arguments alone may have stamp 0
            let stamp = stamp.saturating_add(random.below(2) as u32);
            d.edges.push(Edge { a, b, label: Label::Congruence, stamp });
            join(class, a, b);
        }
    }
}

// the highest stamp on the path between two terms of one class
fn highest_stamp(d: &Draft, a: u32, b: u32) -> Option<u32> {
    fn walk(d: &Draft, at: u32, to: u32, from: u32, over: Option<u32>) -> Option<Option<u32>> {
        if at == to {
            return Some(over);
        }
        d.edges.iter().find_map(|e| {
            let next = if e.a == at {
                e.b
            } else if e.b == at {
                e.a
            } else {
                return None;
            };
            if next == from {
                None
            } else {
                walk(d, next, to, at, over.max(Some(e.stamp)))
            }
        })
    }
    walk(d, a, b, 0, None).expect("one class")
}

pub(crate) fn loose_ends(random: &mut Random, d: &mut Draft) {
    let strings = d.strings();
    for _ in 0..*random.pick(&[0, 0, 1, 3]) {
        d.reasons.push((random.between(1, 2) as u32, random.below(10) as u32));
    }
    if strings.len() >= 2 {
        for _ in 0..*random.pick(&[0, 0, 1, 4]) {
            let (a, b) = (*random.pick(&strings), *random.pick(&strings));
            if a != b {
                d.keys.push((a.min(b), a.max(b)));
            }
        }
    }
    d.names = match random.below(12) {
        0 => u32::MAX - random.below(3) as u32,
        1 => random.word(),
        _ => random.below(4) as u32,
    };
    if random.one_in(3) {
        for spare in &mut d.spare {
            if random.one_in(2) {
                let most = *random.pick(&[1, 2, 4, 8]);
                *spare = random.below(most + 1);
            }
        }
    }
    // the limits hold where the slices are longer
    if random.one_in(40) {
        d.spare = [600, 2100, 16500, 4200, 4200];
    }
}

/// A tower of congruences: at each level two concatenations over the two of the level below, twice each. Without the pairs seen
/// explaining its top takes 2^height walks.
pub fn tower(random: &mut Random, height: usize, base: Label) -> Draft {
    let mut d = Draft { layout: random.long(), ..Draft::default() };
    let mut a = d.variable("a");
    let mut b = d.variable("b");
    d.edges.push(Edge { a, b, label: base, stamp: 0 });
    for level in 0..height {
        let twice = if height < 150 { random.between(2, 3) } else { 2 };
        let (x, y) = (d.concat(&vec![a; twice]), d.concat(&vec![b; twice]));
        d.edges.push(Edge { a: x, b: y, label: Label::Congruence, stamp: level as u32 + 1 });
        (a, b) = (x, y);
    }
    d.add(Spec::Equation(a, b));
    d
}

/// Variables x0, x1, .. each merged with a concatenation of a constant and the next: n expansions in a row.
pub fn chained(random: &mut Random, n: usize, label: Label) -> Draft {
    let mut d = Draft { layout: random.long(), spare: [90, 60, 6000, 400, 4], ..Draft::default() };
    let a = d.constant("a");
    let mut last = d.variable("x0");
    for i in 0..n {
        let c = d.concat(&[a, last]);
        let x = d.variable(&format!("x{}", i + 1));
        d.edges.push(Edge { a: x, b: c, label, stamp: random.below(3) as u32 });
        last = x;
    }
    let other = d.variable("other");
    d.add(Spec::Equation(last, other));
    d
}

/// Concatenations that double at each level, so that the flattened list has 2^height atoms, and one with `more` atoms behind it.
pub fn doubled(random: &mut Random, height: usize, more: usize) -> Draft {
    let mut d = Draft { layout: random.long(), ..Draft::default() };
    let x = d.variable("x");
    let mut t = if random.one_in(2) { x } else { d.constant("a") };
    for _ in 0..height {
        t = d.concat(&[t, t]);
    }
    let mut parts = vec![t];
    parts.extend(vec![x; more.max(1)]);
    let whole = d.concat(&parts);
    let y = d.variable("y");
    if random.one_in(2) {
        d.merge(y, whole, Label::Asserted(3));
    }
    d.add(Spec::Equation(y, whole));
    d.add(Spec::Equation(whole, t));
    d
}

/// As many terms as there can be, in few classes.
pub fn crowded(random: &mut Random, terms: usize) -> Draft {
    let p = Profile { terms, merges: random.between(4, 15), letters: 2, longest: 3 };
    let mut d = draft(random, p);
    d.spare = [0, 0, 0, 0, 0].map(|_: usize| *random.pick(&[0, 1, 2, 5, 50]));
    d
}

/// A store at one of its limits, or with a shape that costs time.
pub fn at_limits(random: &mut Random) -> Draft {
    let label = *random.pick(&[Label::Asserted(5), Label::Interface(7), Label::Definitional]);
    match random.below(6) {
        0 => {
            let height = random.between(1, 250);
            tower(random, height, label)
        }
        1 => {
            let n = random.between(60, 68);
            chained(random, n, label)
        }
        2 => {
            let height = random.between(6, 11);
            let more = random.below(4);
            doubled(random, height, more)
        }
        3 => {
            let terms = random.between(100, 512);
            crowded(random, terms)
        }
        4 => wide(random),
        _ => full(random),
    }
}

// one concatenation whose deep form has about 256 or about 1,024 atoms
fn wide(random: &mut Random) -> Draft {
    let mut d = Draft { layout: random.long(), spare: [40, 40, 5000, 600, 4], ..Draft::default() };
    let vars: Vec<u32> = (0..random.between(1, 4)).map(|i| d.variable(&format!("x{i}"))).collect();
    let c = d.constant("ab");
    let e = d.constant("");
    let n = *random.pick(&[254usize, 255, 256, 257, 258, 1022, 1023, 1024, 1025, 1026]);
    let parts: Vec<u32> = (0..n).map(|_| if random.one_in(200) { *random.pick(&[c, e]) } else { *random.pick(&vars) }).collect();
    let whole = d.concat(&parts);
    let y = d.variable("y");
    d.merge(y, whole, Label::Asserted(1));
    if random.one_in(2) {
        d.merge(vars[0], if random.one_in(2) { c } else { e }, Label::Interface(2));
    }
    let z = d.concat(&[y, vars[0]]);
    d.add(Spec::Equation(y, z));
    d.add(Spec::Equation(whole, y));
    d.add(Spec::Equation(z, whole));
    d
}

// slices that end where the counts do, or at the limit
fn full(random: &mut Random) -> Draft {
    let p = profile(random);
    let mut d = draft(random, p);
    for i in 0..5 {
        d.spare[i] = random.below(3);
    }
    match random.below(3) {
        0 => {
            let n = REASONS - random.below(3);
            d.reasons = (0..n).map(|_| (random.between(1, 2) as u32, random.below(10) as u32)).collect();
            d.spare[3] = 5;
        }
        1 => {
            let strings = d.strings();
            let (a, b) = (strings[0], *strings.last().unwrap());
            if a != b {
                d.keys = vec![(a.min(b), a.max(b)); KEYS - random.below(2)];
                d.spare[4] = 5;
            }
        }
        _ => {
            let used: usize = d.specs.iter().map(|s| if let Spec::Constant(w) | Spec::Variable(w) = s { w.len() } else { 0 }).sum();
            if used + 20 < CHARS {
                let n = CHARS - used - random.below(20);
                d.layout = 0;
                d.add(Spec::Constant(vec!['q' as u32; n]));
                d.spare[2] = 30;
            }
        }
    }
    d
}

fn reason(label: Label) -> Option<Pair> {
    match label {
        Label::Asserted(n) => Some((1, n)),
        Label::Interface(n) => Some((2, n)),
        _ => None,
    }
}

/// Some reasons of merges come in, which explanations then find in the list; some twice.
pub fn hand_in(random: &mut Random, d: &mut Draft) {
    let merges: Vec<Pair> = d.edges.iter().filter_map(|e| reason(e.label)).collect();
    if !merges.is_empty() && d.reasons.len() < 64 {
        for _ in 0..*random.pick(&[0, 0, 1, 2, 4, 8]) {
            d.reasons.push(*random.pick(&merges));
        }
    }
}

/// In one store of three, terms that a Split looks for, so that it makes fewer: "", equations of variables with it, constants of one character,
/// lengths of variables and equations between these.
pub fn lay_ahead(random: &mut Random, d: &mut Draft) {
    if !random.one_in(3) {
        return;
    }
    let variables: Vec<u32> = d.strings().into_iter().filter(|&t| matches!(d.spec(t), Spec::Variable(_))).take(8).collect();
    let firsts: HashSet<u32> = d.specs.iter().filter_map(|s| if let Spec::Constant(w) = s { w.first().copied() } else { None }).collect();
    let mut firsts: Vec<u32> = firsts.into_iter().collect();
    firsts.sort_unstable();
    let empty = d.constant("");
    for c in firsts {
        d.add(Spec::Constant(vec![c]));
    }
    let mut lengths = vec![];
    for &v in &variables {
        if random.one_in(2) {
            d.add(Spec::Equation(v, empty));
        }
        if !random.one_in(4) {
            lengths.push(d.add(Spec::Length(v)));
        }
    }
    for &a in &lengths {
        for &b in &lengths {
            if a != b && random.one_in(2) {
                d.add(Spec::Equation(a, b));
            }
        }
    }
}

/// The inputs that cost most time: a name, a store that passes the audit, and a call.
pub fn worst() -> Vec<(&'static str, Lent, Call)> {
    let resolve = |lhs: Vec<u32>, rhs: Vec<u32>| Call::ResolveEquation { lhs, rhs, guard: 1 };
    let mut list = vec![];

    // constants over the same characters; 1 has all but the last, which is 'b'
    let shared = |lengths: &[(u32, u32)], last: char| {
        let mut d = Draft { layout: 0, ..Draft::default() };
        d.add(Spec::Constant([vec!['a' as u32; CHARS - 3], vec![last as u32]].concat()));
        let (x, y) = (d.variable("x"), d.variable("y"));
        let mut s = lay_out(&d);
        let constants: Vec<u32> = lengths.iter().map(|&(place, n)| s.add_term(CONSTANT, place, n)).collect();
        (s, x, y, constants)
    };
    let whole = CHARS as u32 - 2;
    let (s, x, y, c) = shared(&[(0, whole - 1), (whole - 1, 1)], 'b');
    let absent = [vec![x], vec![c[0]; 1021], vec![c[1], y]].concat();
    list.push(("step 3: a character absent from 1,024 constants", s, resolve(vec![c[0]; 1024], absent)));
    let (s, x, _, c) = shared(&[(0, whole - 1)], 'a');
    let fitting = [vec![x], vec![c[0]; 1022], vec![x]].concat();
    list.push(("step 5: every span fits", s, resolve(vec![c[0]; 1024], fitting)));
    let (s, _, _, c) = shared(&[(0, whole - 2), (0, whole), (0, whole - 1)], 'a');
    let uneven = [vec![c[0]; 512], vec![c[1]; 512]].concat();
    list.push(("two constant sides, equal", s, resolve(vec![c[2]; 1024], uneven)));

    // names that differ late
    let mut d = Draft { layout: 0, ..Draft::default() };
    d.add(Spec::Constant([vec!['a' as u32; 8000], vec!['b' as u32], vec!['a' as u32; 8000]].concat()));
    let mut s = lay_out(&d);
    s.chars.resize(CHARS, 0);
    for place in 0..511 {
        s.add_term(VARIABLE, place, 8001);
    }
    list.push(("the audit: 511 names of 8,001 shared characters", s, Call::Audit));
    list.push(("the audit: 510 names of 15,300 shared characters and one hash", one_hash(510, 15_300), Call::Audit));
    let mut s = lay_out(&Draft { layout: 0, ..Draft::default() });
    s.add_text(&vec!['a' as u32; CHARS]);
    for _ in 0..TERMS {
        s.add_term(CONSTANT, 0, CHARS as u32);
    }
    list.push(("the audit: 512 constants of the same 16,384 characters, all in one bucket", s, Call::Audit));
    list.push(("the audit: 256 congruences of 682 pairs with paths of 254 edges", long_pairs(127, 682, 0), Call::Audit));

    let mut random = Random::new(1);
    let d = tower(&mut random, 250, Label::Asserted(5));
    let (a, b) = (d.count() - 2, d.count() - 1);
    list.push(("explain: a tower of 250 congruences", lay_out(&d), Call::Explain { a, b }));

    // a known list over a class chain of 250, gone through for each of 121 forms
    let mut d = Draft { layout: 0, spare: [4, 4, 40, 4096, 4], ..Draft::default() };
    let z = d.variable("z");
    let ys: Vec<u32> = (0..120).map(|i| d.variable(&format!("y{i}"))).collect();
    for &y in &ys {
        let c = d.concat(&[z, z]);
        d.merge(y, c, Label::Asserted(1));
    }
    let ws: Vec<u32> = (0..250).map(|i| d.variable(&format!("w{i}"))).collect();
    for pair in [&[z][..], &ws].concat().windows(2) {
        d.merge(pair[1], pair[0], Label::Definitional);
    }
    let t = d.concat(&ys);
    let mut s = lay_out(&d);
    // a class tree as deep as the forest
    for pair in [&[z][..], &ws].concat().windows(2) {
        s.set_class_parent(pair[1], pair[0]);
    }
    let concats: Vec<u32> = (1..t).filter(|&c| s.kind(c) == CONCATENATION).collect();
    let known = [concats, vec![ws[249]; 1024 - 120]].concat();
    list.push(("deep form: a known list of 1,024 for each of 121 forms", s, Call::DeepNormalForm { known, t }));

    let (s, step) = repeating(|i| 1 + i, REASONS - 368);
    list.push(("step: 248 reasons, each met 122,880 times on either side", s, step));
    let (s, step) = repeating(|_| 1, REASONS - 1);
    list.push(("the same with one reason for all merges, and room for one", s, step));

    let (s, form) = through_congruence(240, 600);
    list.push(("normal form: 1,024 atoms, each \"\" by a congruence of 600 pairs with paths of about 200 edges", s, form));

    let d = doubled(&mut random, 10, 1);
    list.push(("normal form: 2^10 atoms and one", lay_out(&d), Call::NormalForm { known: vec![], t: d.count() - 3 }));
    let d = doubled(&mut random, 200, 1);
    list.push(("normal form: 2^200 atoms", lay_out(&d), Call::NormalForm { known: vec![], t: d.count() - 3 }));
    list
}

// A chain of 248 variables merged with ""; 120 concatenations of 1,024 times its last one, each merged with a variable; an equation between
// two concatenations of these. The merges are 368, asserted by the numbers given; so many other reasons come in.
fn repeating(number: impl Fn(u32) -> u32, incoming: usize) -> (Lent, Call) {
    let mut d = Draft { layout: 0, spare: [4, 4, 40, REASONS - incoming, 4], ..Draft::default() };
    let mut merges = 0;
    let mut merge = |d: &mut Draft, a: u32, b: u32| {
        d.merge(a, b, Label::Asserted(number(merges)));
        merges += 1;
    };
    let empty = d.constant("");
    let xs: Vec<u32> = (0..248).map(|i| d.variable(&format!("x{i}"))).collect();
    let chain = [&[empty][..], &xs].concat();
    chain.windows(2).for_each(|pair| merge(&mut d, pair[1], pair[0]));
    let half = (0..9).fold(xs[247], |t, _| d.concat(&[t, t]));
    let concats: Vec<u32> = (0..120).map(|_| d.concat(&[half, half])).collect();
    let ys: Vec<u32> = (0..120).map(|i| d.variable(&format!("y{i}"))).collect();
    ys.iter().zip(&concats).for_each(|(&y, &c)| merge(&mut d, y, c));
    let (t, u) = (d.concat(&ys), d.concat(&ys));
    let equation = d.add(Spec::Equation(t, u));
    d.reasons = (0..incoming as u32).map(|n| (2, n)).collect();
    let mut s = lay_out(&d);
    // a class tree as deep as the forest
    for pair in chain.windows(2) {
        s.set_class_parent(pair[1], pair[0]);
    }
    let known = [vec![empty], concats].concat();
    (s, Call::Step { known, equation, guard: 1 })
}

// A concatenation of 1,024 times x; x is "" by a congruence, each of its pairs another one of the two ends of a chain of variables.
fn through_congruence(variables: usize, pairs: usize) -> (Lent, Call) {
    let mut d = Draft { layout: 0, spare: [4, 4, 40, variables, 4], ..Draft::default() };
    let vs: Vec<u32> = (0..variables).map(|i| d.variable(&format!("v{i}"))).collect();
    for (i, pair) in vs.windows(2).enumerate() {
        d.merge(pair[0], pair[1], Label::Asserted(i as u32));
    }
    let end = variables / 8;
    let (lefts, rights): (Vec<u32>, Vec<u32>) = (0..pairs).map(|i| (vs[i % end], vs[variables - 1 - i / end])).unzip();
    let (a, b) = (d.concat(&lefts), d.concat(&rights));
    d.edges.push(Edge { a, b, label: Label::Congruence, stamp: 1 });
    let (x, empty) = (d.variable("x"), d.constant(""));
    d.merge(x, a, Label::Definitional);
    d.merge(b, empty, Label::Definitional);
    let t = (0..10).fold(x, |t, _| d.concat(&[t, t]));
    (lay_out(&d), Call::NormalForm { known: vec![empty], t })
}

fn list(random: &mut Random, strings: &[u32], longest: usize) -> Vec<u32> {
    let n = random.below(longest + 1);
    (0..n).map(|_| *random.pick(strings)).collect()
}

fn mixed(random: &mut Random, from: &[&[u32]], n: usize) -> Vec<u32> {
    (0..n)
        .map(|_| {
            let group = random.below(from.len());
            *random.pick(from[group])
        })
        .collect()
}

// two lists, often alike up to members of one class
fn two_lists(random: &mut Random, s: &Lent, strings: &[u32]) -> (Vec<u32>, Vec<u32>) {
    let longest = *random.pick(&[1, 2, 3, 4, 6]);
    let lhs = list(random, strings, longest);
    let mut rhs = match random.below(3) {
        0 => list(random, strings, longest),
        _ => lhs.clone(),
    };
    for t in &mut rhs {
        if random.one_in(3) {
            let members: Vec<u32> = strings.iter().copied().filter(|&u| s.class_root(u) == s.class_root(*t)).collect();
            *t = *random.pick(&members);
        } else if random.one_in(4) {
            *t = *random.pick(strings);
        }
    }
    if random.one_in(3) && !rhs.is_empty() {
        let at = random.below(rhs.len());
        rhs.remove(at);
    }
    if random.one_in(4) {
        let at = random.below(rhs.len() + 1);
        rhs.insert(at, *random.pick(strings));
    }
    if random.one_in(2) {
        (lhs, rhs)
    } else {
        (rhs, lhs)
    }
}

/// Atoms of the shapes that steps 2 to 5 look for.
fn shaped_lists(random: &mut Random, s: &Lent, strings: &[u32]) -> (Vec<u32>, Vec<u32>) {
    let of_kind = |k: u32| strings.iter().copied().filter(|&t| s.kind(t) == k).collect::<Vec<_>>();
    let (variables, constants) = (of_kind(VARIABLE), of_kind(CONSTANT));
    if variables.is_empty() || constants.is_empty() {
        return two_lists(random, s, strings);
    }
    let class_size = |v: u32| variables.iter().filter(|&&u| s.class_root(u) == s.class_root(v)).count();
    let v = match random.below(3) {
        0 => *random.pick(&variables),
        _ => variables.iter().copied().max_by_key(|&v| class_size(v)).unwrap(),
    };
    let near: Vec<u32> = strings.iter().copied().filter(|&u| s.class_root(u) == s.class_root(v)).collect();
    let n = random.between(1, 5);
    let (lhs, rhs) = match random.below(5) {
        // a lone variable, and a constant of its class in the middle
        4 => {
            let fixed: Vec<u32> = constants.iter().copied().filter(|&c| s.class_root(c) == s.class_root(v)).collect();
            let fixed = if fixed.is_empty() { &constants } else { &fixed };
            let (before, after) = (mixed(random, &[&constants, &variables], 1), mixed(random, &[&constants, &variables], 1));
            (vec![v], [before, vec![*random.pick(fixed)], after].concat())
        }
        // a lone variable and a list with its class
        0 => (vec![v], mixed(random, &[&near, &constants, &variables], n)),
        // constants against one class and constants
        1 => {
            let side = mixed(random, &[&near, &constants], n);
            (list(random, &constants, 3), side)
        }
        // nothing against variables
        2 => (vec![], (0..n).map(|_| *random.pick(&variables)).collect()),
        // constants alone
        _ => (list(random, &constants, 3), list(random, &constants, 3)),
    };
    if random.one_in(2) {
        (lhs, rhs)
    } else {
        (rhs, lhs)
    }
}

/// Lists for document 02's Note 3: nothing against variables and concatenations of variables, and lists that just miss that form.
fn label_lists(random: &mut Random, s: &Lent, strings: &[u32]) -> (Vec<u32>, Vec<u32>) {
    let mut of_variables = vec![false];
    for t in 1..=s.count() {
        of_variables.push(match s.kind(t) {
            VARIABLE => true,
            CONCATENATION => s.parts(t).iter().all(|&p| of_variables[p as usize]),
            _ => false,
        });
    }
    let parts: Vec<u32> = strings.iter().copied().filter(|&t| of_variables[t as usize]).collect();
    if parts.is_empty() {
        return two_lists(random, s, strings);
    }
    let mut lhs = vec![];
    let mut rhs: Vec<u32> = (0..*random.pick(&[0, 1, 2, 2, 3, 4, 6, 9])).map(|_| *random.pick(&parts)).collect();
    match random.below(8) {
        0 => rhs.insert(random.below(rhs.len() + 1), *random.pick(strings)),
        1 => lhs.push(*random.pick(strings)),
        _ => {}
    }
    if random.one_in(2) {
        (lhs, rhs)
    } else {
        (rhs, lhs)
    }
}

/// Lists for document 02's Note 6: constants against constants and one class, with the same terms, or others of their classes, put before and
/// after both.
fn field_lists(random: &mut Random, s: &Lent, strings: &[u32]) -> (Vec<u32>, Vec<u32>) {
    let of_kind = |k: u32| strings.iter().copied().filter(|&t| s.kind(t) == k).collect::<Vec<_>>();
    let (variables, constants) = (of_kind(VARIABLE), of_kind(CONSTANT));
    if variables.is_empty() || constants.is_empty() {
        return two_lists(random, s, strings);
    }
    let members = |t: u32| strings.iter().copied().filter(|&u| s.class_root(u) == s.class_root(t)).collect::<Vec<_>>();
    let near: Vec<u32> = members(*random.pick(&variables)).into_iter().filter(|&t| s.kind(t) == VARIABLE).collect();
    let n = random.between(1, 5);
    let (mut word, mut side) = (list(random, &constants, 4), mixed(random, &[&near, &near, &constants], n));
    for _ in 0..random.below(4) {
        let t = *random.pick(strings);
        let u = *random.pick(&members(t));
        let (i, j) = if random.one_in(2) { (0, 0) } else { (word.len(), side.len()) };
        word.insert(i, t);
        side.insert(j, u);
    }
    if random.one_in(2) {
        (word, side)
    } else {
        (side, word)
    }
}

fn guard(random: &mut Random) -> i32 {
    match random.below(30) {
        0 => 0,
        1 => i32::MIN,
        2 => i32::MIN + 1,
        3 => i32::MAX,
        4..=8 => -(random.between(1, 9) as i32),
        _ => random.between(1, 9) as i32,
    }
}

fn known(random: &mut Random, strings: &[u32]) -> Vec<u32> {
    match random.below(4) {
        0 => vec![],
        1 => list(random, strings, 4),
        2 => {
            let mut all = strings.to_vec();
            random.shuffle(&mut all);
            all
        }
        _ => strings.to_vec(),
    }
}

/// A call of the kind numbered so (call::NAMES), over a store that passes the audit.
pub fn call(random: &mut Random, s: &Lent, kind: usize) -> Call {
    let strings: Vec<u32> = (1..=s.count()).filter(|&t| s.is_string(t)).collect();
    if strings.is_empty() {
        return Call::MakeConstant { text: text("ab") };
    }
    let one = |random: &mut Random| *random.pick(&strings);
    match kind {
        0 => Call::Audit,
        1 => Call::MakeConstant { text: word(random, &['a', 'b', '漢', '\u{2FFFF}'], 3) },
        2 => Call::MakeVariable { name: name(random, 90, &['a', 'b']) },
        3 => Call::MakeConcatenation { parts: list(random, &strings, 4) },
        4 => Call::MakeLength { t: one(random) },
        5 => {
            let lengths: Vec<u32> = (1..=s.count()).filter(|&t| s.kind(t) == LENGTH).collect();
            let from = if !lengths.is_empty() && random.one_in(3) { &lengths } else { &strings };
            Call::MakeEquation { t: *random.pick(from), u: *random.pick(from) }
        }
        6 => Call::Find { t: one(random) },
        7 => {
            let a = one(random);
            let members: Vec<u32> = strings.iter().copied().filter(|&u| s.class_root(u) == s.class_root(a)).collect();
            Call::Explain { a, b: *random.pick(&members) }
        }
        8 => Call::NormalForm { known: known(random, &strings), t: one(random) },
        9 => Call::DeepNormalForm { known: known(random, &strings), t: one(random) },
        10 => {
            let (lhs, rhs) = if random.one_in(2) { two_lists(random, s, &strings) } else { shaped_lists(random, s, &strings) };
            Call::ResolveEquation { lhs, rhs, guard: guard(random) }
        }
        11 => {
            let equations: Vec<u32> = (1..=s.count()).filter(|&t| s.kind(t) == EQUATION).collect();
            match equations.is_empty() {
                true => Call::DeepNormalForm { known: known(random, &strings), t: one(random) },
                false => Call::Step { known: known(random, &strings), equation: *random.pick(&equations), guard: guard(random) },
            }
        }
        12 | 13 => {
            let (lhs, mut rhs) = two_lists(random, s, &strings);
            if !random.one_in(4) {
                rhs.resize(lhs.len(), strings[0]);
            }
            if kind == 12 {
                Call::NfEqual { lhs, rhs }
            } else {
                Call::NfEqualExplain { lhs, rhs }
            }
        }
        14 => {
            let (lhs, rhs) = match random.below(6) {
                0 => two_lists(random, s, &strings),
                1 => shaped_lists(random, s, &strings),
                _ => label_lists(random, s, &strings),
            };
            Call::EmptyParts { lhs, rhs }
        }
        15 => {
            let (lhs, rhs) = match random.below(3) {
                0 => two_lists(random, s, &strings),
                1 => shaped_lists(random, s, &strings),
                _ => field_lists(random, s, &strings),
            };
            Call::ForcedLength { lhs, rhs }
        }
        _ => unreachable!(),
    }
}

/// A request, now and then with an argument or a slice that is refused.
pub fn request(random: &mut Random, s: &Lent, kind: usize) -> Request {
    let mut r = Request::new(call(random, s, kind));
    if random.one_in(25) {
        let any = 1 + random.below(s.count() as usize + 1) as u32;
        let odd = *random.pick(&[0, s.count() + 1, u32::MAX, any]);
        for t in r.call.terms_mut() {
            if random.one_in(2) {
                *t = odd;
            }
        }
        for l in r.call.lists_mut() {
            if random.one_in(2) {
                l.push(odd);
            }
        }
    }
    if let Call::MakeConstant { text } | Call::MakeVariable { name: text } = &mut r.call {
        if random.one_in(25) {
            let at = random.below(text.len() + 1);
            text.insert(at, *random.pick(&[0x30000, 0x10FFFF, 0x110000, u32::MAX]));
        }
    }
    if random.one_in(100) {
        r.list_room = *random.pick(&[0, LIST - 1, LIST + 1]);
    }
    if random.one_in(200) {
        r.answer_room = *random.pick(&[0, 7, 9]);
    }
    r
}

/// A request with lists of about 1,024 terms.
pub fn long_request(random: &mut Random, s: &Lent, kind: usize) -> Request {
    let mut r = Request::new(call(random, s, kind));
    let strings: Vec<u32> = (1..=s.count()).filter(|&t| s.is_string(t)).collect();
    if strings.is_empty() {
        return r;
    }
    let n = *random.pick(&[LIST - 1, LIST, LIST, LIST + 1]);
    let from: Vec<u32> = if random.one_in(2) { vec![*random.pick(&strings)] } else { strings };
    for l in r.call.lists_mut() {
        let mut m: Vec<u32> = (0..n).map(|_| *random.pick(&from)).collect();
        std::mem::swap(l, &mut m);
    }
    if let Call::EmptyParts { lhs, rhs } = &mut r.call {
        if random.one_in(2) {
            *if random.one_in(2) { lhs } else { rhs } = vec![];
        }
    }
    r
}

/// Names that differ late and have one hash under the port's audit (`mixed` in the definitions of `records`), which so compares each two.
fn one_hash(names: u32, length: usize) -> Lent {
    let mixed = |h: u64, x: u32| (69069 * h + h / 65536 + x as u64) % 4294967291;
    let both = |c: u32| is_char(c) && char::from_u32(c).is_some();
    let mut text = vec!['a' as u32; length - 2];
    let mut hash = 0;
    for name in 0..names as usize {
        let h = text[2 * name..].iter().fold(1, |h, &x| mixed(h, x));
        let last = |x: u32| {
            let y = (hash + 4294967291 - mixed(mixed(h, x), 0)) % 4294967291;
            both(y as u32).then_some(y as u32)
        };
        let (x, y) = if name == 0 {
            hash = mixed(mixed(h, 'b' as u32), 'b' as u32);
            ('b' as u32, 'b' as u32)
        } else {
            (98..0x30000).filter(|&x| both(x)).find_map(|x| last(x).map(|y| (x, y))).unwrap()
        };
        text.extend([x, y]);
    }
    let mut s = lay_out(&Draft { layout: 0, ..Draft::default() });
    s.add_text(&text);
    for name in 0..names {
        s.add_term(VARIABLE, 2 * name, length as u32);
    }
    s
}

/// As many congruences as fit beside two branches of a tree and so many variables apart, each over the same pairs of the branches' ends.
pub(crate) fn long_pairs(depth: u32, pairs: usize, apart: u32) -> Lent {
    let mut s = lay_out(&Draft { layout: 0, ..Draft::default() });
    let place = s.add_text(&(0..2 * depth + 1 + apart).map(|i| 'a' as u32 + i).collect::<Vec<u32>>());
    let join = |s: &mut Lent, t: u32, root: u32, parent: u32, label: [u32; 3]| {
        s.class_words(t).copy_from_slice(&[root, parent, label[0], label[1], label[2]]);
    };
    let root = s.add_term(VARIABLE, place, 1);
    let mut ends = [root; 2];
    for i in 1..=2 * depth {
        let v = s.add_term(VARIABLE, place + i, 1);
        let end = &mut ends[(i % 2) as usize];
        join(&mut s, v, root, *end, [4, 0, 0]);
        *end = v;
    }
    let [left, right] = ends.map(|v| s.add_chain(&vec![(v, 0); pairs]));
    let paired = s.add_chain(&vec![(ends[0], ends[1]); pairs]);
    let other = s.add_term(CONCATENATION, right, 0);
    while s.count() as usize + (apart as usize) < TERMS {
        let t = s.add_term(CONCATENATION, left, 0);
        join(&mut s, t, other, other, [3, paired, 1]);
    }
    for i in 2 * depth + 1..2 * depth + 1 + apart {
        s.add_term(VARIABLE, place + i, 1);
    }
    s
}

/// A store as a compile has it: of so many labels site, batch and serial with their separator, what each is equal to, the serial's length, and each
/// site merged with its text. No two concatenations are congruent. Seven terms a label.
pub(crate) fn compiled(labels: u32) -> Lent {
    let mut d = Draft { layout: 0, spare: [4, 4, 40, 40, 4], ..Draft::default() };
    for i in 0..labels {
        let text = d.constant(&format!("A{}-B{i}", i / 4));
        let [site, batch, serial] = ["site", "batch", "serial"].map(|field| d.variable(&format!("{field}{i}")));
        let label = d.concat(&[site, batch, serial]);
        d.add(Spec::Equation(label, text));
        d.add(Spec::Length(serial));
        d.merge(site, text, Label::Asserted(i));
    }
    lay_out(&d)
}
