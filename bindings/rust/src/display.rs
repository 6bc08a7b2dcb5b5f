//! A term as text.

use crate::{term_place, Store, Term, CELL_WIDTH, MAX_CHARACTER};
use std::fmt::{self, Write};

/// How many terms are printed before the rest is left out: a term that has another twice may be longer than all memory.
const PRINTED: usize = 1024;

/// A term that prints itself, as [`Store::display`] gives it.
///
/// ```
/// let mut store = labels::Store::new();
/// let a = store.constant("say \"a\"")?;
/// let shown: labels::Shown = store.display(a);
/// assert_eq!(format!("{shown}"), r#""say \"a\"""#);
/// # Ok::<(), labels::Refusal>(())
/// ```
#[derive(Clone, Copy, Debug)]
pub struct Shown<'a> {
    store: &'a Store,
    term: Term,
}

impl Store {
    /// The term for printing: a constant in quotes, a variable by its name, `++` between the parts of a concatenation, `len(..)`, `=` between
    /// the sides of an equation. Characters stand as Rust escapes them, and a surrogate, which no `&str` has, in the same form. After 1,024
    /// terms comes `..`; what is not there or breaks a rule is `?`.
    ///
    /// ```
    /// let mut store = labels::Store::new();
    /// let (site, batch, code) = (store.variable("site")?, store.variable("batch")?, store.constant("A7")?);
    /// let label = store.concatenation(&[site, batch])?;
    /// let equation = store.equation(label, code)?;
    /// assert_eq!(store.display(equation).to_string(), r#"site ++ batch = "A7""#);
    /// let pair = store.constant_chars(&[0x3BB, 0xD83D, 0xDE42, 0x0A])?;
    /// assert_eq!(store.display(pair).to_string(), r#""λ\u{d83d}\u{de42}\n""#);
    /// assert_eq!(store.display(99).to_string(), "?");
    /// # Ok::<(), labels::Refusal>(())
    /// ```
    pub fn display(&self, t: Term) -> Shown<'_> {
        Shown { store: self, term: t }
    }

    /// A counted term's kind, first and second words.
    fn record(&self, t: Term) -> Option<[u32; 3]> {
        let words = self.terms.get(term_place(t, 0)..term_place(t, 3))?;
        (t != 0 && t <= self.state[0]).then(|| [words[0], words[1], words[2]])
    }

    /// Characters that are counted, where the standard's alphabet has each.
    fn text(&self, place: u32, count: u32) -> Option<&[u32]> {
        let end = place.checked_add(count).filter(|&end| end <= self.state[2])?;
        self.chars.get(place as usize..end as usize).filter(|text| text.iter().all(|&c| c <= MAX_CHARACTER))
    }

    /// A counted cell's value and the next cell of its chain, which has a higher number or is 0.
    fn cell(&self, c: u32) -> Option<(Term, u32)> {
        let words = self.cells.chunks_exact(CELL_WIDTH).nth(c as usize)?;
        (c != 0 && c <= self.state[1] && (words[2] == 0 || words[2] > c)).then(|| (words[0], words[2]))
    }
}

impl fmt::Display for Shown<'_> {
    fn fmt(&self, f: &mut fmt::Formatter<'_>) -> fmt::Result {
        Printer { store: self.store, left: PRINTED, cut: false, f }.term(self.term, u32::MAX, false)
    }
}

struct Printer<'a, 'b, 'c> {
    store: &'a Store,
    left: usize,
    cut: bool,
    f: &'b mut fmt::Formatter<'c>,
}

impl Printer<'_, '_, '_> {
    /// Prints a term with a number below another's, so that a store that breaks this rule is printed to an end too. A part that is itself a
    /// concatenation stands in brackets.
    fn term(&mut self, t: Term, below: Term, part: bool) -> fmt::Result {
        if self.left == 0 {
            self.cut = true;
            return self.f.write_str("..");
        }
        self.left -= 1;
        match self.store.record(t).filter(|_| t < below) {
            Some([1, place, count]) => match self.store.text(place, count) {
                Some(text) => {
                    self.f.write_char('"')?;
                    self.text(text, true)?;
                    self.f.write_char('"')
                }
                None => self.f.write_char('?'),
            },
            Some([2, place, count]) => match self.store.text(place, count) {
                Some(name) => self.text(name, false),
                None => self.f.write_char('?'),
            },
            Some([3, chain, _]) if part => {
                self.f.write_char('(')?;
                self.chain(chain, t)?;
                self.f.write_char(')')
            }
            Some([3, chain, _]) => self.chain(chain, t),
            Some([4, of, _]) => {
                self.f.write_str("len(")?;
                self.term(of, t, false)?;
                self.f.write_char(')')
            }
            Some([5, lhs, rhs]) => {
                self.term(lhs, t, false)?;
                self.f.write_str(" = ")?;
                self.term(rhs, t, false)
            }
            _ => self.f.write_char('?'),
        }
    }

    /// Prints characters: surrogates one by one, as `\u{d800}`, and what stands between them as Rust escapes it, in quotes or outside them.
    fn text(&mut self, text: &[u32], quoted: bool) -> fmt::Result {
        let is_char = |&c: &u32| char::from_u32(c).is_some();
        for run in text.chunk_by(|a, b| is_char(a) && is_char(b)) {
            match run.iter().map(|&c| char::from_u32(c)).collect::<Option<String>>() {
                Some(run) if quoted => {
                    let shown = format!("{run:?}");
                    self.f.write_str(&shown[1..shown.len() - 1])?;
                }
                Some(run) => write!(self.f, "{}", run.escape_debug())?,
                None => write!(self.f, "\\u{{{:x}}}", run[0])?,
            }
        }
        Ok(())
    }

    /// Prints the parts of a concatenation.
    fn chain(&mut self, mut c: u32, whole: Term) -> fmt::Result {
        loop {
            let Some((part, next)) = self.store.cell(c) else { return self.f.write_char('?') };
            self.term(part, whole, true)?;
            if next == 0 || self.cut {
                return Ok(());
            }
            self.f.write_str(" ++ ")?;
            c = next;
        }
    }
}
