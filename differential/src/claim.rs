//! Demand 3 by trying: an answer, given as data, against every assignment of short words under which only the definitional merges and
//! the reasons named hold. What explain and the normal forms hand up is tried likewise.

use crate::{call::*, lent::*};
use std::collections::HashMap;

#[derive(Clone, PartialEq, Eq, Debug)]
pub enum Claim {
    Conflict,
    Propagate {
        variable: u32,
        word: u32,
    },
    Split {
        atoms: Vec<u32>,
    },
    /// of explain and of the normal forms: the two sides have equal words
    Equal,
}

/// An answer: the reasons named are those counted at exit.
#[derive(Clone, Debug)]
pub struct Answered<'a> {
    pub entry: &'a Lent,
    pub exit: &'a Lent,
    pub lhs: Vec<u32>,
    pub rhs: Vec<u32>,
    pub claim: Claim,
}

/// Words for the variables that the answer speaks of.
pub type Assignment = Vec<(u32, Vec<u32>)>;

/// What an outcome claims, if it claims something.
pub fn answered<'a>(entry: &'a Lent, call: &Call, outcome: &'a Outcome) -> Option<Answered<'a>> {
    if outcome.code != 0 {
        return None;
    }
    let (lhs, rhs) = match call {
        Call::ResolveEquation { lhs, rhs, .. } => (lhs.clone(), rhs.clone()),
        Call::Step { equation, .. } => {
            let e = entry.term(*equation);
            (vec![e.first], vec![e.second])
        }
        Call::Explain { a, b } => (vec![*a], vec![*b]),
        Call::NormalForm { t, .. } | Call::DeepNormalForm { t, .. } if outcome.answer[0] == 1 => {
            (vec![*t], outcome.list[..outcome.answer[1] as usize].to_vec())
        }
        _ => return None,
    };
    let claim = match (call, outcome.answer.first()) {
        (Call::Explain { .. } | Call::NormalForm { .. } | Call::DeepNormalForm { .. }, _) => Claim::Equal,
        (_, Some(&CONFLICT)) => Claim::Conflict,
        (_, Some(&PROPAGATE)) => Claim::Propagate { variable: outcome.answer[1], word: outcome.answer[2] },
        (_, Some(&SPLIT)) => Claim::Split { atoms: outcome.list[..outcome.answer[1] as usize].to_vec() },
        _ => return None,
    };
    Some(Answered { entry, exit: &outcome.exit, lhs, rhs, claim })
}

/// What trying came to.
#[derive(Clone, PartialEq, Eq, Debug)]
pub enum Tried {
    /// every assignment tried, and so many of them met what is supposed
    Stands(usize),
    /// too large to try
    Untried,
    Refuted(Assignment),
}

// the atoms of a term or of a list: a variable of the entry store by its place among those tried, a new variable, or a constant's text
#[derive(Clone, PartialEq, Eq, Debug)]
enum Atom {
    Old(usize),
    New(u32),
    Text(Vec<u32>),
}

struct Trial<'a> {
    a: &'a Answered<'a>,
    variables: Vec<u32>,
    given: Vec<Vec<u32>>,
}

const MOST_ATOMS: usize = 200;

impl<'a> Trial<'a> {
    fn atoms(&mut self, list: &[u32], out: &mut Vec<Atom>) -> Option<()> {
        for &t in list {
            match self.a.exit.kind(t) {
                CONSTANT => out.push(Atom::Text(self.a.exit.text(t).to_vec())),
                VARIABLE if t > self.a.entry.count() => out.push(Atom::New(t)),
                VARIABLE => {
                    let at = self.variables.iter().position(|&v| v == t).unwrap_or_else(|| {
                        self.variables.push(t);
                        self.variables.len() - 1
                    });
                    out.push(Atom::Old(at));
                }
                _ => self.atoms(&self.a.exit.parts(t), out)?,
            }
            if out.len() > MOST_ATOMS {
                return None;
            }
        }
        Some(())
    }

    fn list(&mut self, list: &[u32]) -> Option<Vec<Atom>> {
        let mut out = vec![];
        self.atoms(list, &mut out)?;
        Some(out)
    }

    fn word_of<'b>(&'b self, atom: &'b Atom) -> &'b [u32] {
        match atom {
            Atom::Old(i) => &self.given[*i],
            Atom::Text(w) => w,
            Atom::New(_) => unreachable!("a new variable has no word given"),
        }
    }

    fn word(&self, atoms: &[Atom]) -> Vec<u32> {
        atoms.iter().flat_map(|a| self.word_of(a).iter().copied()).collect()
    }

    fn length(&self, atoms: &[Atom]) -> usize {
        atoms.iter().map(|a| self.word_of(a).len()).sum()
    }

    fn equal(&self, l: &[Atom], r: &[Atom]) -> bool {
        self.length(l) == self.length(r) && self.word(l) == self.word(r)
    }
}

// a pair of atom lists that are to have equal words
type Equal = (Vec<Atom>, Vec<Atom>);

// the atom of a Split: equal words, or equal lengths
enum Listed {
    Words(Equal),
    Lengths(Equal),
}

/// All words up to length 3 over two letters of the store and a third, and the store's constants.
fn words(s: &Lent, variables: usize) -> Vec<Vec<u32>> {
    let mut letters: Vec<u32> = vec![];
    let constants: Vec<&[u32]> = (1..=s.count()).filter(|&t| s.kind(t) == CONSTANT).map(|t| s.text(t)).collect();
    for &c in constants.iter().flat_map(|w| w.iter()).chain(&[97, 98]) {
        if !letters.contains(&c) && letters.len() < 2 {
            letters.push(c);
        }
    }
    letters.push((99..).find(|c| constants.iter().all(|w| !w.contains(c))).unwrap());
    // with four variables or more not all can be tried
    let longest = [3, 3, 3, 3, 2, 1][variables.min(5)];
    let mut all: Vec<Vec<u32>> = vec![vec![]];
    let mut from = 0;
    for _ in 0..longest {
        let to = all.len();
        for i in from..to {
            for &c in &letters {
                let mut w = all[i].clone();
                w.push(c);
                all.push(w);
            }
        }
        from = to;
    }
    for w in constants {
        if !all.iter().any(|x| x == w) && all.len() < 50 {
            all.push(w.to_vec());
        }
    }
    all
}

pub fn try_out(a: &Answered) -> Tried {
    attempt(a).unwrap_or(Tried::Untried)
}

fn attempt(a: &Answered) -> Option<Tried> {
    let s = a.entry;
    let mut trial = Trial { a, variables: vec![], given: vec![] };
    let sides = (trial.list(&a.lhs)?, trial.list(&a.rhs)?);
    // what is supposed: equal sides, and the edges under definitional merges and named reasons
    let mut supposed: Vec<Equal> = if a.claim == Claim::Equal { vec![] } else { vec![sides.clone()] };
    let named = a.exit.reason_list();
    for t in (1..=s.count()).filter(|&t| s.is_edge(t)) {
        let r = s.term(t);
        if r.label_kind == 4 || named.contains(&(r.label_kind, r.label_value)) {
            supposed.push((trial.list(&[t])?, trial.list(&[r.forest_parent])?));
        }
    }
    // what is claimed
    let mut listed: Vec<Listed> = vec![];
    match &a.claim {
        Claim::Conflict => {}
        Claim::Equal => listed.push(Listed::Words(sides)),
        Claim::Propagate { variable, word } => listed.push(Listed::Words((trial.list(&[*variable])?, trial.list(&[*word])?))),
        Claim::Split { atoms } => {
            for &e in atoms {
                let r = a.exit.term(e);
                listed.push(if a.exit.kind(r.first) == LENGTH {
                    let (x, y) = (a.exit.term(r.first).first, a.exit.term(r.second).first);
                    Listed::Lengths((trial.list(&[x])?, trial.list(&[y])?))
                } else {
                    Listed::Words((trial.list(&[r.first])?, trial.list(&[r.second])?))
                });
            }
        }
    }
    let n = trial.variables.len();
    if n > 6 {
        return None;
    }
    // each supposition is tested as soon as its last variable has a word
    let last = |e: &Equal| e.0.iter().chain(&e.1).map(|x| if let Atom::Old(i) = x { i + 1 } else { 0 }).max().unwrap_or(0);
    let mut due: Vec<Vec<Equal>> = vec![vec![]; n + 1];
    for e in supposed {
        due[last(&e)].push(e);
    }
    let words = words(a.exit, n);
    let mut met = 0;
    Some(match search(&mut trial, &due, &words, &listed, &mut met) {
        Some(found) => Tried::Refuted(found),
        None => Tried::Stands(met),
    })
}

fn search(trial: &mut Trial, due: &[Vec<Equal>], words: &[Vec<u32>], listed: &[Listed], met: &mut usize) -> Option<Assignment> {
    if due[trial.given.len()].iter().any(|(l, r)| !trial.equal(l, r)) {
        return None;
    }
    if trial.given.len() == trial.variables.len() {
        *met += 1;
        if listed.iter().any(|l| holds(trial, l)) {
            return None;
        }
        return Some(trial.variables.iter().copied().zip(trial.given.iter().cloned()).collect());
    }
    for w in words {
        trial.given.push(w.clone());
        let found = search(trial, due, words, listed, met);
        trial.given.pop();
        if found.is_some() {
            return found;
        }
    }
    None
}

fn has_new(l: &[Atom]) -> bool {
    l.iter().any(|a| matches!(a, Atom::New(_)))
}

// can be made true by words for the new variables
fn holds(trial: &Trial, listed: &Listed) -> bool {
    match listed {
        // a new variable can be as long as one likes
        Listed::Lengths((l, r)) => has_new(l) || has_new(r) || trial.length(l) == trial.length(r),
        Listed::Words((l, r)) => match (has_new(l), has_new(r)) {
            (false, false) => trial.equal(l, r),
            (true, false) => fits(trial, l, &trial.word(r), &mut HashMap::new()),
            (false, true) => fits(trial, r, &trial.word(l), &mut HashMap::new()),
            (true, true) => true,
        },
    }
}

// the new variables among the atoms can be given words that make them this word
fn fits(trial: &Trial, atoms: &[Atom], word: &[u32], bound: &mut HashMap<u32, Vec<u32>>) -> bool {
    let Some((first, rest)) = atoms.split_first() else { return word.is_empty() };
    match first {
        Atom::New(z) => {
            if let Some(w) = bound.get(z).cloned() {
                return word.starts_with(&w) && fits(trial, rest, &word[w.len()..], bound);
            }
            (0..=word.len()).any(|n| {
                bound.insert(*z, word[..n].to_vec());
                let fit = fits(trial, rest, &word[n..], bound);
                bound.remove(z);
                fit
            })
        }
        _ => {
            let w = trial.word_of(first);
            word.starts_with(w) && fits(trial, rest, &word[w.len()..], bound)
        }
    }
}
