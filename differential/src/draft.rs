//! A store as one would tell it: terms, merges, reasons and keys. `lay_out` writes it into slices, with what document 01 leaves open
//! chosen by a seed: where characters and cells lie and which are shared, the roots, the class trees, and all words that are not
//! counted. The index is that of the records.

use crate::{index, lent::*, random::Random};

#[derive(Clone, PartialEq, Eq, Debug)]
pub enum Spec {
    Constant(Vec<u32>),
    Variable(Vec<u32>),
    Concat(Vec<u32>),
    Length(u32),
    Equation(u32, u32),
}

#[derive(Clone, Copy, PartialEq, Eq, Debug)]
pub enum Label {
    Asserted(u32),
    Interface(u32),
    Congruence,
    Definitional,
}

/// A merge of a and b. The edges of a draft join terms that were apart; a congruence's pairs are joined by edges before it.
#[derive(Clone, Copy, PartialEq, Eq, Debug)]
pub struct Edge {
    pub a: u32,
    pub b: u32,
    pub label: Label,
    pub stamp: u32,
}

#[derive(Clone, PartialEq, Eq, Debug)]
pub struct Draft {
    /// term 1 is at place 0
    pub specs: Vec<Spec>,
    pub edges: Vec<Edge>,
    pub reasons: Vec<Pair>,
    pub keys: Vec<Pair>,
    pub names: u32,
    /// how many records more each slice has room for, in the state's order
    pub spare: [usize; 5],
    pub layout: u64,
}

pub fn text(s: &str) -> Vec<u32> {
    s.chars().map(u32::from).collect()
}

impl Default for Draft {
    fn default() -> Self {
        Draft { specs: vec![], edges: vec![], reasons: vec![], keys: vec![], names: 0, spare: [40, 60, 200, 60, 4], layout: 0 }
    }
}

impl Draft {
    pub fn count(&self) -> u32 {
        self.specs.len() as u32
    }

    pub fn add(&mut self, spec: Spec) -> u32 {
        self.specs.push(spec);
        self.count()
    }

    pub fn constant(&mut self, s: &str) -> u32 {
        self.add(Spec::Constant(text(s)))
    }

    pub fn variable(&mut self, s: &str) -> u32 {
        self.add(Spec::Variable(text(s)))
    }

    pub fn concat(&mut self, parts: &[u32]) -> u32 {
        self.add(Spec::Concat(parts.to_vec()))
    }

    pub fn merge(&mut self, a: u32, b: u32, label: Label) {
        self.edges.push(Edge { a, b, label, stamp: 0 });
    }

    pub fn spec(&self, t: u32) -> &Spec {
        &self.specs[t as usize - 1]
    }

    pub fn is_string(&self, t: u32) -> bool {
        !matches!(self.spec(t), Spec::Length(_) | Spec::Equation(..))
    }

    pub fn strings(&self) -> Vec<u32> {
        (1..=self.count()).filter(|&t| self.is_string(t)).collect()
    }

    pub fn parts(&self, t: u32) -> Option<&[u32]> {
        match self.spec(t) {
            Spec::Concat(parts) => Some(parts),
            _ => None,
        }
    }

    /// The class of each term, by number; place 0 is none.
    pub fn classes(&self) -> Vec<u32> {
        let mut class: Vec<u32> = (0..=self.count()).collect();
        for e in &self.edges {
            join(&mut class, e.a, e.b);
        }
        class
    }

    /// Without term t, which nothing names; numbers above it fall by one.
    pub fn without(&self, t: u32) -> Option<Draft> {
        let named = |x: u32| x == t;
        let used = self.specs.iter().any(|s| match s {
            Spec::Concat(parts) => parts.contains(&t),
            Spec::Length(a) => named(*a),
            Spec::Equation(a, b) => named(*a) || named(*b),
            _ => false,
        }) || self.edges.iter().any(|e| named(e.a) || named(e.b))
            || self.keys.iter().any(|k| named(k.0) || named(k.1));
        if used {
            return None;
        }
        let down = |x: u32| if x > t { x - 1 } else { x };
        let mut d = self.clone();
        d.specs.remove(t as usize - 1);
        for s in &mut d.specs {
            match s {
                Spec::Concat(parts) => parts.iter_mut().for_each(|x| *x = down(*x)),
                Spec::Length(a) => *a = down(*a),
                Spec::Equation(a, b) => (*a, *b) = (down(*a), down(*b)),
                _ => {}
            }
        }
        for e in &mut d.edges {
            (e.a, e.b) = (down(e.a), down(e.b));
        }
        for k in &mut d.keys {
            *k = (down(k.0), down(k.1));
        }
        Some(d)
    }
}

pub fn join(class: &mut [u32], a: u32, b: u32) {
    let (from, to) = (class[a as usize], class[b as usize]);
    for c in class.iter_mut() {
        if *c == from {
            *c = to;
        }
    }
}

// Cells are written from the last back, so that a chain can end in cells of an earlier one: `next` is above the cell's own number.
#[derive(Default)]
struct Cells {
    // (value, second value, next as a place in this list)
    written: Vec<(u32, u32, Option<usize>)>,
}

impl Cells {
    fn chain(&mut self, values: &[Pair], random: &mut Random, sharing: bool) -> usize {
        let mut next = None;
        for &(a, b) in values.iter().rev() {
            let there = if sharing && !random.one_in(4) { self.written.iter().position(|&w| w == (a, b, next)) } else { None };
            if there.is_none() && random.one_in(12) {
                let stray = if self.written.is_empty() || random.one_in(2) { None } else { Some(random.below(self.written.len())) };
                self.written.push((random.word(), random.word(), stray));
            }
            next = Some(there.unwrap_or_else(|| {
                self.written.push((a, b, next));
                self.written.len() - 1
            }));
        }
        next.expect("a chain has a cell")
    }

    fn number(&self, place: usize) -> u32 {
        (self.written.len() - place) as u32
    }
}

/// The store of a draft. Layout 0 shares nothing, hangs a under b at each merge, and each class under its tree's root.
pub fn lay_out(d: &Draft) -> Lent {
    let mut random = Random::new(d.layout);
    let plain = d.layout == 0;
    let n = d.count() as usize;

    // characters
    let mut chars: Vec<u32> = vec![];
    let mut places = vec![(0u32, 0u32); n + 1];
    for (i, spec) in d.specs.iter().enumerate() {
        if let Spec::Constant(w) | Spec::Variable(w) = spec {
            let shared = if plain || random.one_in(3) { None } else { find(&chars, w, &mut random) };
            let place = shared.unwrap_or_else(|| {
                if !plain && random.one_in(10) {
                    chars.push('~' as u32);
                }
                chars.extend_from_slice(w);
                chars.len() - w.len()
            });
            places[i + 1] = (place as u32, w.len() as u32);
        }
    }

    // the forest: each tree from a root of its own
    let mut forest = vec![0usize; n + 1];
    let mut over: Vec<Option<usize>> = vec![None; n + 1];
    let mut roots: Vec<usize> = vec![];
    if plain {
        // a's tree is turned so that a is its root, then hung under b
        let mut up: Vec<Option<(usize, usize)>> = vec![None; n + 1];
        for (e, edge) in d.edges.iter().enumerate() {
            let mut at = edge.a as usize;
            let mut onto = Some((edge.b as usize, e));
            loop {
                let old = std::mem::replace(&mut up[at], onto);
                let Some((parent, label)) = old else { break };
                onto = Some((at, label));
                at = parent;
            }
        }
        for t in 1..=n {
            match up[t] {
                Some((parent, e)) => {
                    forest[t] = parent;
                    over[t] = Some(e);
                }
                None => {
                    forest[t] = t;
                    roots.push(t);
                }
            }
        }
    } else {
        let mut order: Vec<usize> = (1..=n).collect();
        random.shuffle(&mut order);
        let mut near: Vec<Vec<(usize, usize)>> = vec![vec![]; n + 1];
        for (e, edge) in d.edges.iter().enumerate() {
            near[edge.a as usize].push((edge.b as usize, e));
            near[edge.b as usize].push((edge.a as usize, e));
        }
        for root in order {
            if forest[root] != 0 {
                continue;
            }
            forest[root] = root;
            roots.push(root);
            let mut waiting = vec![root];
            while let Some(t) = waiting.pop() {
                for &(u, e) in &near[t] {
                    if forest[u] == 0 {
                        forest[u] = t;
                        over[u] = Some(e);
                        waiting.push(u);
                    }
                }
            }
        }
    }

    // the class trees
    let class = d.classes();
    let mut parents = vec![0usize; n + 1];
    for &root in &roots {
        let mut members: Vec<usize> = (1..=n).filter(|&t| class[t] == class[root]).collect();
        if plain {
            members.iter().for_each(|&t| parents[t] = root);
            continue;
        }
        random.shuffle(&mut members);
        let shape = random.below(3);
        for (i, &t) in members.iter().enumerate() {
            parents[t] = match (i, shape) {
                (0, _) => t,
                (_, 0) => members[0],
                (_, 1) => members[i - 1],
                _ => members[random.below(i)],
            };
        }
    }

    // cells: of concatenations and of congruences
    let mut cells = Cells::default();
    let mut chains = vec![None; n + 1];
    let mut pair_chains = vec![None; n + 1];
    let mut order: Vec<usize> = (1..=n).collect();
    if !plain {
        random.shuffle(&mut order);
    }
    for t in order {
        if let Some(parts) = d.parts(t as u32) {
            let values: Vec<Pair> = parts.iter().map(|&p| (p, 0)).collect();
            chains[t] = Some(cells.chain(&values, &mut random, !plain));
        }
        if let Some(e) = over[t] {
            if d.edges[e].label == Label::Congruence {
                let (a, b) = (d.parts(t as u32).unwrap(), d.parts(forest[t] as u32).unwrap());
                let turned = !plain && random.one_in(2);
                let values: Vec<Pair> = a.iter().zip(b).map(|(&x, &y)| if turned { (y, x) } else { (x, y) }).collect();
                pair_chains[t] = Some(cells.chain(&values, &mut random, !plain));
            }
        }
    }

    // into the slices
    let counts = [n, cells.written.len(), chars.len(), d.reasons.len(), d.keys.len()];
    let widths = [TERM_WIDTH, CELL_WIDTH, 1, 2, 2];
    let before = [BUCKETS + TERM_WIDTH, CELL_WIDTH, 0, 0, 0];
    let mut slice = |i: usize| -> Vec<u32> {
        let odd = if widths[i] > 1 && random.one_in(4) { random.below(widths[i]) } else { 0 };
        (0..before[i] + widths[i] * (counts[i] + d.spare[i]) + odd).map(|_| random.word()).collect()
    };
    let mut s = Lent { state: vec![], terms: slice(0), cells: slice(1), chars: slice(2), reasons: slice(3), keys: slice(4) };
    s.state = counts.iter().map(|&c| c as u32).chain([d.names]).collect();
    for (place, &(a, b, next)) in cells.written.iter().enumerate() {
        let c = cells.number(place) as usize;
        s.cells[CELL_WIDTH * c..CELL_WIDTH * c + CELL_WIDTH].copy_from_slice(&[a, b, next.map_or(0, |p| cells.number(p))]);
    }
    s.chars[..chars.len()].copy_from_slice(&chars);
    for (i, r) in d.reasons.iter().enumerate() {
        s.reasons[2 * i..2 * i + 2].copy_from_slice(&[r.0, r.1]);
    }
    for (i, k) in d.keys.iter().enumerate() {
        s.keys[2 * i..2 * i + 2].copy_from_slice(&[k.0, k.1]);
    }
    for t in 1..=n {
        let (kind, first, second) = match d.spec(t as u32) {
            Spec::Constant(_) => (CONSTANT, places[t].0, places[t].1),
            Spec::Variable(_) => (VARIABLE, places[t].0, places[t].1),
            Spec::Concat(_) => (CONCATENATION, cells.number(chains[t].unwrap()), 0),
            Spec::Length(a) => (LENGTH, *a, 0),
            Spec::Equation(a, b) => (EQUATION, *a, *b),
        };
        let (label, value, stamp) = match over[t].map(|e| d.edges[e]) {
            None => (0, 0, 0),
            Some(Edge { label, stamp, .. }) => match label {
                Label::Asserted(v) => (1, v, stamp),
                Label::Interface(v) => (2, v, stamp),
                Label::Congruence => (3, cells.number(pair_chains[t].unwrap()), stamp),
                Label::Definitional => (4, 0, stamp),
            },
        };
        let words = [kind, first, second, parents[t] as u32, forest[t] as u32, label, value, stamp];
        s.terms[term_place(t as u32, 0)..term_place(t as u32, NEXT)].copy_from_slice(&words);
    }
    index::put(&mut s);
    s
}

// a place where the word stands already
fn find(chars: &[u32], w: &[u32], random: &mut Random) -> Option<usize> {
    if w.is_empty() {
        return Some(random.below(chars.len() + 1));
    }
    chars.windows(w.len()).position(|x| x == w)
}
