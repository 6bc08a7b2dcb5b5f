//! The port's calls once more, written from document 01 and document 02's Notes 3 to 5 alone, departures and limits included. It shares no code
//! with the unchanged Rust or with the oracle but the argument checks, so that a difference between the two shows where the documents and
//! the Rust part, and the comparison can be tried where the port's library is not at hand.

use crate::{call::*, lent::*, oracle::refused_at_entry};
use std::collections::HashSet;

/// A value, or the refusal that was met.
type Work<T> = Result<T, u32>;

pub fn run(s: &Lent, request: &Request) -> Outcome {
    let mut outcome = Outcome::idle(s, request, refused_at_entry(s, request));
    if outcome.code != 0 {
        return outcome;
    }
    let mut m = Model { s: s.clone(), room: s.room(), held: s.reason_list().into_iter().collect() };
    match m.call(&request.call) {
        Ok((answer, list)) => {
            outcome.answer[..answer.len()].copy_from_slice(&answer);
            outcome.list[..list.len()].copy_from_slice(&list);
            outcome.exit = m.s;
        }
        Err(code) => outcome.code = code,
    }
    outcome
}

struct Model {
    s: Lent,
    room: [usize; 5],
    /// the list's reasons; none is added once some were taken back
    held: HashSet<Pair>,
}

enum Case {
    Done,
    Saturated,
    Conflict,
    Propagate(u32, u32, bool),
    /// the atoms, and how many terms were made
    Split(Vec<u32>, u32),
}

impl Model {
    fn call(&mut self, call: &Call) -> Work<(Vec<u32>, Vec<u32>)> {
        let one = |t: u32| (vec![t], vec![]);
        let none = (vec![], vec![]);
        Ok(match call {
            Call::Audit => none,
            Call::MakeConstant { text } => one(self.make_constant(text)?),
            Call::MakeVariable { name } => one(self.make_variable(name)?),
            Call::MakeConcatenation { parts } => one(self.make_concatenation(parts)?),
            Call::MakeLength { t } => one(self.make(LENGTH, *t, 0)?),
            Call::MakeEquation { t, u } => one(self.make(EQUATION, *t, *u)?),
            Call::Find { t } => one(self.s.class_root(*t)),
            Call::Explain { a, b } => {
                self.explain(*a, *b)?;
                none
            }
            Call::NormalForm { known, t } => {
                let list = self.normal_form(known, *t)?;
                (vec![1, list.len() as u32], list)
            }
            Call::DeepNormalForm { known, t } => match self.deep_form(known, *t)? {
                Some(list) => (vec![1, list.len() as u32], list),
                None => (vec![0, 0], vec![]),
            },
            Call::ResolveEquation { lhs, rhs, guard } => {
                let incoming = self.s.state[3];
                self.answered(lhs, rhs, *guard, incoming)?
            }
            Call::Step { known, equation, guard } => self.step(known, *equation, *guard)?,
            Call::NfEqual { lhs, rhs } => {
                let equal = lhs.len() == rhs.len() && lhs.iter().zip(rhs).all(|(&a, &b)| self.same(a, b));
                one(equal as u32)
            }
            Call::EmptyParts { lhs, rhs } => self.empty_parts(lhs, rhs)?,
            Call::ForcedLength { lhs, rhs } => (self.forced_length(lhs, rhs)?, vec![]),
            Call::NfEqualExplain { lhs, rhs } => {
                for (&a, &b) in lhs.iter().zip(rhs) {
                    let equal_texts = self.is_constant(a) && self.is_constant(b) && self.s.text(a) == self.s.text(b);
                    if !equal_texts && self.one_class(a, b) {
                        self.explain(a, b)?;
                    }
                }
                none
            }
        })
    }

    // -- records --

    fn has_room(&self, i: usize, more: usize, refusal: u32) -> Work<()> {
        if self.s.state[i] as usize + more <= self.room[i] {
            Ok(())
        } else {
            Err(refusal)
        }
    }

    fn append(&mut self, kind: u32, first: u32, second: u32) -> Work<u32> {
        self.has_room(0, 1, 8)?;
        Ok(self.s.add_term(kind, first, second))
    }

    fn lowest(&self, equal: impl Fn(u32) -> bool) -> Option<u32> {
        (1..=self.s.count()).find(|&t| equal(t))
    }

    // a length or an equation
    fn of_words(&self, kind: u32, first: u32, second: u32) -> Option<u32> {
        self.lowest(|t| {
            let r = self.s.term(t);
            (r.kind, r.first, r.second) == (kind, first, second)
        })
    }

    fn make(&mut self, kind: u32, first: u32, second: u32) -> Work<u32> {
        self.of_words(kind, first, second).map_or_else(|| self.append(kind, first, second), Ok)
    }

    fn of_text(&self, kind: u32, text: &[u32]) -> Option<u32> {
        self.lowest(|t| self.s.kind(t) == kind && self.s.text(t) == text)
    }

    fn make_text(&mut self, kind: u32, text: &[u32]) -> Work<u32> {
        if let Some(t) = self.of_text(kind, text) {
            return Ok(t);
        }
        self.has_room(2, text.len(), 8)?;
        let place = self.s.add_text(text);
        self.append(kind, place, text.len() as u32)
    }

    fn make_constant(&mut self, text: &[u32]) -> Work<u32> {
        self.make_text(CONSTANT, text)
    }

    fn make_variable(&mut self, name: &[u32]) -> Work<u32> {
        self.make_text(VARIABLE, name)
    }

    fn make_concatenation(&mut self, parts: &[u32]) -> Work<u32> {
        if let Some(t) = self.lowest(|t| self.s.kind(t) == CONCATENATION && self.s.parts(t) == parts) {
            return Ok(t);
        }
        self.has_room(1, parts.len(), 8)?;
        let cells: Vec<Pair> = parts.iter().map(|&p| (p, 0)).collect();
        let first = self.s.add_chain(&cells);
        self.append(CONCATENATION, first, 0)
    }

    fn fresh(&mut self) -> Work<u32> {
        loop {
            let n = self.s.state[5];
            if n == u32::MAX {
                return Err(9);
            }
            self.s.state[5] = n + 1;
            let name: Vec<u32> = format!("!strk{n}").chars().map(u32::from).collect();
            if self.of_text(VARIABLE, &name).is_none() {
                return self.make_variable(&name);
            }
        }
    }

    // -- engine --

    fn one_class(&self, a: u32, b: u32) -> bool {
        self.s.class_root(a) == self.s.class_root(b)
    }

    // adds what the list lacks; whether the explanation has a reason, listed or not
    fn explain(&mut self, a: u32, b: u32) -> Work<bool> {
        let mut reasons = vec![];
        self.pair(a, b, &mut HashSet::new(), &mut reasons);
        for &r in &reasons {
            if !self.held.contains(&r) {
                self.has_room(3, 1, 7)?;
                self.s.add_reason(r);
                self.held.insert(r);
            }
        }
        Ok(!reasons.is_empty())
    }

    fn pair(&self, a: u32, b: u32, seen: &mut HashSet<Pair>, reasons: &mut Vec<Pair>) {
        if a != b && seen.insert((a.min(b), a.max(b))) {
            for child in self.s.path(a, b).expect("one tree") {
                self.edge(child, seen, reasons);
            }
        }
    }

    fn edge(&self, child: u32, seen: &mut HashSet<Pair>, reasons: &mut Vec<Pair>) {
        let r = self.s.term(child);
        match r.label_kind {
            1 | 2 => reasons.push((r.label_kind, r.label_value)),
            3 => self.s.chain(r.label_value).into_iter().for_each(|(a, b)| self.pair(a, b, seen, reasons)),
            _ => {}
        }
    }

    // -- normalize --

    fn is_constant(&self, t: u32) -> bool {
        self.s.kind(t) == CONSTANT
    }

    fn is_concat(&self, t: u32) -> bool {
        self.s.kind(t) == CONCATENATION
    }

    fn flatten(&self, t: u32, list: &mut Vec<u32>) -> Work<()> {
        if self.is_concat(t) {
            return self.s.parts(t).into_iter().try_for_each(|p| self.flatten(p, list));
        }
        if list.len() == LIST {
            return Err(6);
        }
        list.push(t);
        Ok(())
    }

    fn representative(&self, among: &[u32], t: u32) -> u32 {
        let members = || among.iter().copied().filter(|&u| self.one_class(u, t));
        members().find(|&u| self.is_constant(u)).or_else(|| members().next()).unwrap_or(t)
    }

    fn normal_form(&mut self, known: &[u32], t: u32) -> Work<Vec<u32>> {
        let mut flat = vec![];
        self.flatten(t, &mut flat)?;
        let among = [known, &flat].concat();
        let mut list = vec![];
        for a in flat {
            let r = self.representative(&among, a);
            if r != a {
                self.explain(a, r)?;
            }
            self.join(&mut list, r)?;
        }
        Ok(list)
    }

    // 'drop "" ; join neighbouring constants, making each intermediate one'
    fn join(&mut self, list: &mut Vec<u32>, t: u32) -> Work<()> {
        if !self.is_constant(t) {
            list.push(t);
        } else if !self.s.text(t).is_empty() {
            match list.last().copied() {
                Some(last) if self.is_constant(last) => {
                    let word = [self.s.text(last), self.s.text(t)].concat();
                    *list.last_mut().unwrap() = self.make_constant(&word)?;
                }
                _ => list.push(t),
            }
        }
        Ok(())
    }

    fn deep_form(&mut self, known: &[u32], t: u32) -> Work<Option<Vec<u32>>> {
        const MOST: usize = 256;
        let mut list = self.normal_form(known, t)?;
        if list.len() > MOST {
            return Ok(None);
        }
        let mut met = HashSet::new();
        for _ in 0..64 {
            let mut round = vec![];
            for &a in &list {
                if a == t || !self.is_concat(a) {
                    round.push(a);
                    continue;
                }
                if !met.insert(a) {
                    return Ok(None);
                }
                round.extend(self.normal_form(known, a)?);
                if round.len() > MOST {
                    return Ok(None);
                }
            }
            let mut joined = vec![];
            for a in round {
                self.join(&mut joined, a)?;
            }
            if joined.len() > MOST {
                return Ok(None);
            }
            if joined == list {
                break;
            }
            list = joined;
        }
        Ok(Some(list))
    }

    // -- one equation --

    fn step(&mut self, known: &[u32], equation: u32, guard: i32) -> Work<(Vec<u32>, Vec<u32>)> {
        let entry = self.s.state[3];
        let e = self.s.term(equation);
        let left = self.deep_form(known, e.first)?;
        let right = if left.is_some() { self.deep_form(known, e.second)? } else { None };
        let (Some(l), Some(r)) = (left, right) else {
            self.s.state[3] = entry;
            return Ok((vec![UNEXPANDED], vec![]));
        };
        let words = self.answered(&l, &r, guard, self.s.state[3])?;
        if words.0[0] == DONE {
            self.s.state[3] = entry;
        }
        Ok(words)
    }

    fn answered(&mut self, lhs: &[u32], rhs: &[u32], guard: i32, incoming: u32) -> Work<(Vec<u32>, Vec<u32>)> {
        let case = self.resolve(lhs, rhs)?;
        if !matches!(case, Case::Conflict | Case::Propagate(..)) {
            self.s.state[3] = incoming;
        }
        Ok(match case {
            Case::Done => (vec![DONE], vec![]),
            Case::Saturated => (vec![SATURATED], vec![]),
            Case::Conflict => (vec![CONFLICT], vec![]),
            Case::Propagate(v, w, link) => (vec![PROPAGATE, v, w, link as u32], vec![]),
            Case::Split(atoms, made) => (vec![SPLIT, atoms.len() as u32, (-guard) as u32, made], atoms),
        })
    }

    // -- wordeq --

    fn same(&self, a: u32, b: u32) -> bool {
        if a == b {
            return true;
        }
        if self.is_constant(a) && self.is_constant(b) {
            return self.s.text(a) == self.s.text(b);
        }
        self.one_class(a, b)
    }

    fn resolve(&mut self, lhs: &[u32], rhs: &[u32]) -> Work<Case> {
        if !lhs.iter().chain(rhs).any(|&t| self.is_concat(t)) {
            return self.steps(lhs, rhs);
        }
        let mut flat = [vec![], vec![]];
        for (list, flat) in [lhs, rhs].into_iter().zip(&mut flat) {
            list.iter().try_for_each(|&t| self.flatten(t, flat))?;
        }
        Ok(match self.steps(&flat[0], &flat[1])? {
            Case::Conflict => Case::Saturated,
            case => case,
        })
    }

    fn all_constant(&self, l: &[u32]) -> bool {
        l.iter().all(|&t| self.is_constant(t))
    }

    // the characters of the constants among l
    fn letters(&self, l: &[u32]) -> Vec<u32> {
        l.iter().filter(|&&t| self.is_constant(t)).flat_map(|&t| self.s.text(t).to_vec()).collect()
    }

    fn is_minted(&self, t: u32) -> bool {
        self.s.text(t).starts_with(&[0x21, 0x73, 0x74, 0x72, 0x6b])
    }

    fn steps(&mut self, lhs: &[u32], rhs: &[u32]) -> Work<Case> {
        // 1
        let (mut l, mut r) = (lhs, rhs);
        let mut explained = false;
        while let ([a, more_l @ ..], [b, more_r @ ..]) = (l, r) {
            if !self.strip(*a, *b, &mut explained)? {
                break;
            }
            (l, r) = (more_l, more_r);
        }
        while let ([more_l @ .., a], [more_r @ .., b]) = (l, r) {
            if !self.strip(*a, *b, &mut explained)? {
                break;
            }
            (l, r) = (more_l, more_r);
        }
        if l.is_empty() && r.is_empty() {
            return Ok(Case::Done);
        }
        // 2
        for (single, rest) in [(l, r), (r, l)] {
            if let [lone] = single {
                if !self.is_constant(*lone) {
                    if let Some(a) = self.occurrence(*lone, rest) {
                        self.explain(a, *lone)?;
                        return Ok(Case::Conflict);
                    }
                }
            }
        }
        // 3
        for (fixed, other) in [(l, r), (r, l)] {
            if self.all_constant(fixed) {
                let (a, b) = (self.letters(fixed), self.letters(other));
                let differ = self.all_constant(other) && a != b;
                let letters: HashSet<u32> = a.iter().copied().collect();
                if differ || a.len() < b.len() || b.iter().any(|c| !letters.contains(c)) {
                    return Ok(Case::Conflict);
                }
            }
        }
        // 4
        if let Some(case) = self.propagate(l, r)? {
            return Ok(case);
        }
        // 5
        for (fixed, other) in [(l, r), (r, l)] {
            if self.all_constant(fixed) && !self.all_constant(other) {
                if let Some(variables) = self.forced(fixed, other) {
                    for &v in &variables[1..] {
                        self.explain(v, variables[0])?;
                    }
                    return Ok(Case::Conflict);
                }
            }
        }
        let ([a, ..], [b, ..]) = (l, r) else { return Ok(Case::Done) };
        // 6
        let (a, b) = (*a, *b);
        if self.is_constant(a) && self.is_constant(b) {
            let differ = self.s.text(a).iter().zip(self.s.text(b)).any(|(x, y)| x != y);
            return Ok(if differ { Case::Conflict } else { Case::Done });
        }
        // 7: 'a stripped class match has a non-empty explanation of its own'
        if explained {
            return Ok(Case::Saturated);
        }
        let key = (a.min(b), a.max(b));
        if self.s.key_list().contains(&key) {
            return Ok(Case::Saturated);
        }
        self.has_room(4, 1, 8)?;
        self.s.add_key(key);
        self.split(a, b)
    }

    fn strip(&mut self, a: u32, b: u32, explained: &mut bool) -> Work<bool> {
        if !self.same(a, b) {
            return Ok(false);
        }
        if a != b && !(self.is_constant(a) && self.is_constant(b)) {
            *explained |= self.explain(a, b)?;
        }
        Ok(true)
    }

    // departure A: the first occurrence that has a non-empty constant at another place
    fn occurrence(&self, lone: u32, rest: &[u32]) -> Option<u32> {
        let full = |i: usize| self.is_constant(rest[i]) && !self.s.text(rest[i]).is_empty();
        (0..rest.len()).find(|&i| self.one_class(rest[i], lone) && (0..rest.len()).any(|j| j != i && full(j))).map(|i| rest[i])
    }

    fn propagate(&mut self, l: &[u32], r: &[u32]) -> Work<Option<Case>> {
        let variable = |m: &Model, t: u32| m.s.kind(t) == VARIABLE;
        if let ([a], [b]) = (l, r) {
            if variable(self, *a) && variable(self, *b) && !self.is_minted(*a) && !self.is_minted(*b) {
                return Ok(Some(Case::Propagate(*a, *b, false)));
            }
        }
        for (empty, vs) in [(l, r), (r, l)] {
            if empty.is_empty() && vs.len() >= 2 && vs.iter().all(|&t| variable(self, t)) {
                let none = self.make_constant(&[])?;
                if let Some(&v) = vs.iter().find(|&&t| !self.same(t, none)) {
                    return Ok(Some(Case::Propagate(v, none, true)));
                }
            }
        }
        for (single, fixed) in [(l, r), (r, l)] {
            if let [v] = single {
                if variable(self, *v) && self.all_constant(fixed) {
                    let word = self.letters(fixed);
                    let w = self.make_constant(&word)?;
                    return Ok(Some(Case::Propagate(*v, w, false)));
                }
            }
        }
        Ok(None)
    }

    // document 02's Note 3
    fn empty_parts(&mut self, lhs: &[u32], rhs: &[u32]) -> Work<(Vec<u32>, Vec<u32>)> {
        let mut flat = [vec![], vec![]];
        for (list, flat) in [lhs, rhs].into_iter().zip(&mut flat) {
            list.iter().try_for_each(|&t| self.flatten(t, flat))?;
        }
        let variables = match [&flat[0][..], &flat[1][..]] {
            [[], vs] | [vs, []] if vs.len() >= 2 && vs.iter().all(|&t| self.s.kind(t) == VARIABLE) => vs,
            _ => return Ok((vec![0, 0, 0], vec![])),
        };
        let empty = self.make_constant(&[])?;
        let mut listed: Vec<u32> = vec![];
        for &v in variables {
            if !self.one_class(v, empty) && !listed.iter().any(|&u| self.one_class(v, u)) {
                listed.push(v);
            }
        }
        Ok((vec![listed.len() as u32, empty, !listed.is_empty() as u32], listed))
    }

    // document 02's Note 6
    fn forced_length(&mut self, lhs: &[u32], rhs: &[u32]) -> Work<Vec<u32>> {
        let mut flat = [vec![], vec![]];
        for (list, flat) in [lhs, rhs].into_iter().zip(&mut flat) {
            list.iter().try_for_each(|&t| self.flatten(t, flat))?;
        }
        let (mut l, mut r) = (&flat[0][..], &flat[1][..]);
        while let ([a, more_l @ ..], [b, more_r @ ..]) = (l, r) {
            if !self.same(*a, *b) {
                break;
            }
            (l, r) = (more_l, more_r);
        }
        while let ([more_l @ .., a], [more_r @ .., b]) = (l, r) {
            if !self.same(*a, *b) {
                break;
            }
            (l, r) = (more_l, more_r);
        }
        for (word, side) in [(l, r), (r, l)] {
            let variables: Vec<u32> = side.iter().copied().filter(|&t| !self.is_constant(t)).collect();
            if self.all_constant(word) && !variables.is_empty() && variables.iter().all(|&v| self.same(v, variables[0])) {
                let [k, c, l] = [variables.len(), self.letters(side).len(), self.letters(word).len()].map(|n| n as u32);
                return Ok(if l < c { vec![1, k, c, l, c - l, 0] } else { vec![0, k, c, l, (l - c) / k, (l - c) % k] });
            }
        }
        Err(11)
    }

    // step 5: the variable places of a side that no word for the one class makes equal to the constant side
    fn forced(&self, fixed: &[u32], side: &[u32]) -> Option<Vec<u32>> {
        let variables: Vec<u32> = side.iter().copied().filter(|&t| !self.is_constant(t)).collect();
        if variables.iter().any(|&v| !self.same(v, variables[0])) {
            return None;
        }
        let word = self.letters(fixed);
        let (k, c, l) = (variables.len(), self.letters(side).len(), word.len());
        if l < c || (l - c) % k != 0 {
            return Some(variables);
        }
        let m = (l - c) / k;
        let before = self.letters(&side[..side.iter().position(|&t| !self.is_constant(t)).unwrap()]).len();
        if before + m > l {
            return Some(variables);
        }
        let span = &word[before..before + m];
        let filled: Vec<u32> = side.iter().flat_map(|&t| if self.is_constant(t) { self.s.text(t) } else { span }.to_vec()).collect();
        (filled != word).then_some(variables)
    }

    fn split(&mut self, a: u32, b: u32) -> Work<Case> {
        for (v, c) in [(a, b), (b, a)] {
            if !self.is_constant(v) && self.is_constant(c) && !self.s.text(c).is_empty() {
                // 'three, plus one for each of the empty constant, its equation and the character constant that was absent'
                let mut made = 3;
                let first = self.s.text(c)[0];
                made += absent(self.of_text(CONSTANT, &[]));
                let empty = self.make_constant(&[])?;
                made += absent(self.of_words(EQUATION, v, empty));
                let v_empty = self.make(EQUATION, v, empty)?;
                made += absent(self.of_text(CONSTANT, &[first]));
                let ch = self.make_constant(&[first])?;
                let z = self.fresh()?;
                let joined = self.make_concatenation(&[ch, z])?;
                return Ok(Case::Split(vec![v_empty, self.make(EQUATION, v, joined)?], made));
            }
        }
        // 'six terms, plus one for each of the two lengths and their equation that was absent'
        let mut made = 6 + absent(self.of_words(LENGTH, a, 0));
        let la = self.make(LENGTH, a, 0)?;
        made += absent(self.of_words(LENGTH, b, 0));
        let lb = self.make(LENGTH, b, 0)?;
        made += absent(self.of_words(EQUATION, la, lb));
        let equal = self.make(EQUATION, la, lb)?;
        let z1 = self.fresh()?;
        let bz = self.make_concatenation(&[b, z1])?;
        let a_is = self.make(EQUATION, a, bz)?;
        let z2 = self.fresh()?;
        let az = self.make_concatenation(&[a, z2])?;
        let b_is = self.make(EQUATION, b, az)?;
        Ok(Case::Split(vec![equal, a_is, b_is], made))
    }
}

fn absent(there: Option<u32>) -> u32 {
    there.is_none() as u32
}
