//! The label resolver's store and calls, with nothing unsafe for their user. Each call audits the store first, and what it leaves passes again.
//!
//! A term has a word, a list of characters: a constant its own, a variable any word, a concatenation the words of its parts in
//! order. Classes of terms are joined for reasons, and a question about an equation is answered with the reasons that the answer rests on.
//!
//! ```
//! use labels::{Answer, Reason, Store};
//!
//! let mut store = Store::new();
//! let (site, batch) = (store.variable("site")?, store.variable("batch")?);
//! let (b, code) = (store.constant("B")?, store.constant("A7")?);
//! let label = store.concatenation(&[site, batch])?;
//! let equation = store.equation(label, code)?;
//! let known = [site, batch, b, code, label];
//!
//! let mark = store.set_mark()?;
//! store.join(site, b, Reason::Asserted(3))?;
//! // the label cannot be the code, and a3 is why: whatever is kept of this goes when a3 goes
//! assert_eq!(store.step(&known, equation, 1)?, Answer::Conflict { reasons: vec![Reason::Asserted(3)] });
//! store.go_back(mark)?;
//! assert!(!matches!(store.step(&known, equation, 1)?, Answer::Conflict { .. }));
//! # Ok::<(), labels::Refusal>(())
//! ```
//!
//! # Characters
//!
//! They are those of SMT-LIB's strings, 0 to 0x2FFFF: Rust's below 0x30000, and 0xD800 to 0xDFFF besides. A word as `&str` can have no
//! surrogate; as numbers, to [`Store::constant_chars`] and [`Store::variable_chars`], it can have any. A pair of surrogates is two characters.
//!
//! # Asking a question
//!
//! The component appends the reasons that it names to those that the store counts, each only if it is not among them. So that an answer names
//! its own and no other's, each call of [`Store`] that names reasons begins with none, and hands back those that it named, each once. Where
//! an answer has to rest on reasons from before, [`Store::with_reasons`] hands them in.
//!
//! # What the caller sees to
//!
//! 192 KiB of stack have to be free when a call is made, as on a thread with Rust's default of 2 MiB. A store may be sent to another thread;
//! calls on different stores may run at the same time.

#![deny(missing_docs)]

mod answer;
mod display;
mod raw;

pub use answer::{Answer, EmptyParts, Fit, Form, Reason, Refusal, Span};
pub use display::Shown;

use answer::{answered_case, flag, outcome};
use std::fmt;

/// The version of this crate, of `labels.h` and of the changelog.
///
/// ```
/// assert_eq!(labels::VERSION, "0.10.0");
/// ```
pub const VERSION: &str = env!("CARGO_PKG_VERSION");

/// How many words a term has: the last is the next term of its bucket.
///
/// ```
/// assert_eq!(labels::term_place(2, 0) - labels::term_place(1, 0), labels::TERM_WIDTH);
/// ```
pub const TERM_WIDTH: usize = 9;

/// How many buckets the index has. Their heads are the first words of [`Store::terms`].
///
/// ```
/// let mut store = labels::Store::new();
/// let x = store.variable("x")?;
/// // the bucket of x: its kind, 2, plus its one character
/// assert_eq!(store.terms[(2 + 'x' as usize) % labels::BUCKETS], x);
/// # Ok::<(), labels::Refusal>(())
/// ```
pub const BUCKETS: usize = 64;

/// Where a word of a term stands in [`Store::terms`], the word by its number in the record.
///
/// ```
/// let mut store = labels::Store::new();
/// let t = store.variable("x")?;
/// // the first word of its record is the kind: 2, a variable
/// assert_eq!(store.terms[labels::term_place(t, 0)], 2);
/// # Ok::<(), labels::Refusal>(())
/// ```
pub const fn term_place(t: Term, word: usize) -> usize {
    BUCKETS + TERM_WIDTH * t as usize + word
}

/// How many words a cell of a chain has.
///
/// ```
/// let mut store = labels::Store::new();
/// let (x, y) = (store.variable("x")?, store.variable("y")?);
/// let xy = store.concatenation(&[x, y])?;
/// // the second word of its record is the first cell, whose first word is the first part
/// let cell = store.terms[labels::term_place(xy, 1)];
/// assert_eq!(store.cells[labels::CELL_WIDTH * cell as usize], x);
/// # Ok::<(), labels::Refusal>(())
/// ```
pub const CELL_WIDTH: usize = 3;

/// How many words a pair has: a reason or a key.
///
/// ```
/// let store = labels::Store::new();
/// assert_eq!(store.reasons.len() / labels::PAIR_WIDTH, labels::REASONS);
/// ```
pub const PAIR_WIDTH: usize = 2;

/// How many terms a store counts at most. The heads of the index and a record 0 that is never used stand before the first.
///
/// ```
/// assert_eq!(labels::Store::new().terms.len(), labels::term_place(labels::TERMS as u32 + 1, 0));
/// ```
pub const TERMS: usize = 512;

/// How many cells of chains a store counts at most. A record 0 that is never used stands before the first.
///
/// ```
/// assert_eq!(labels::Store::new().cells.len(), labels::CELL_WIDTH * (labels::CELLS + 1));
/// ```
pub const CELLS: usize = 2048;

/// How many characters a store counts at most, one word each.
///
/// ```
/// assert_eq!(labels::Store::new().chars.len(), labels::CHARS);
/// ```
pub const CHARS: usize = 16384;

/// The highest character of a constant or a name, as SMT-LIB's strings have it.
///
/// ```
/// let mut store = labels::Store::new();
/// assert!(store.constant_chars(&[labels::MAX_CHARACTER]).is_ok());
/// assert_eq!(store.constant_chars(&[labels::MAX_CHARACTER + 1]), Err(labels::Refusal::Argument));
/// ```
pub const MAX_CHARACTER: u32 = 0x2FFFF;

/// How many reasons a store counts at most.
///
/// ```
/// assert_eq!(labels::Store::new().reasons.len(), labels::PAIR_WIDTH * labels::REASONS);
/// ```
pub const REASONS: usize = 4096;

/// How many keys, pairs of heads that were split, a store counts at most.
///
/// ```
/// assert_eq!(labels::Store::new().keys.len(), labels::PAIR_WIDTH * labels::KEYS);
/// ```
pub const KEYS: usize = 4096;

/// How many terms a Split makes at most: so many over two heads, six over a character. [`Answer::Split`] has how many it made.
///
/// ```
/// use labels::{Answer, SPLIT_TERMS};
/// let mut store = labels::Store::new();
/// let (x, y) = (store.variable("x")?, store.variable("y")?);
/// let Answer::Split { terms_made, .. } = store.resolve_equation(&[x, y], &[y, x], 1)? else { panic!() };
/// assert_eq!(terms_made as usize, SPLIT_TERMS);
/// # Ok::<(), labels::Refusal>(())
/// ```
pub const SPLIT_TERMS: usize = 9;

/// How many terms a list has at most, one that is handed in or one that is answered.
///
/// ```
/// let mut store = labels::Store::new();
/// let x = store.variable("x")?;
/// assert!(store.nf_equal(&[x; labels::LIST], &[x; labels::LIST])?);
/// assert_eq!(store.nf_equal(&[x; labels::LIST + 1], &[x]), Err(labels::Refusal::Argument));
/// # Ok::<(), labels::Refusal>(())
/// ```
pub const LIST: usize = 1024;

/// The words lent for marks: one for each of 64 marks, and three for each of 511 joins.
///
/// ```
/// assert_eq!(labels::MARKS, 64 + 3 * 511);
/// ```
pub const MARKS: usize = 1597;

/// A term's number, from 1 on in the order in which terms are made.
///
/// ```
/// let mut store = labels::Store::new();
/// let first: labels::Term = store.constant("a")?;
/// assert_eq!(first, 1);
/// # Ok::<(), labels::Refusal>(())
/// ```
pub type Term = u32;

/// The words of the state.
///
/// ```
/// assert_eq!(labels::Store::new().state, [0; labels::STATE]);
/// ```
pub const STATE: usize = 8;

/// The words of an answer.
const ANSWER: usize = 8;

/// Where the reasons' count stands in the state.
const REASON_COUNT: usize = 3;

/// A store in memory of its own, with room up to every limit. The words are the caller's to change: a call refuses what breaks a rule. The count
/// of terms is not put back to undo a call: the index would still name the terms that are not counted any more. What a call appended stays;
/// who wants it gone asks a clone.
///
/// ```
/// let mut store = labels::Store::new();
/// store.variable("x")?;
/// assert_eq!(store.state, [1, 0, 1, 0, 0, 0, 0, 0]);
/// let mut other = store.clone();
/// other.state[0] = 0;
/// assert_eq!(other.audit(), Err(labels::Refusal::Index));
/// // a term of no kind
/// store.terms[labels::term_place(1, 0)] = 6;
/// assert_eq!(store.audit(), Err(labels::Refusal::Records));
/// # Ok::<(), labels::Refusal>(())
/// ```
#[derive(Clone)]
pub struct Store {
    /// counts of terms, cells, characters, reasons and keys, the name counter, counts of marks and of recorded joins
    pub state: [u32; STATE],
    /// the 64 heads of the index, then nine words a term: kind, first, second, class parent, forest parent, label kind, label value, stamp, the
    /// next term of its bucket ([`term_place`])
    pub terms: Vec<u32>,
    /// three words a cell: value, second value, next
    pub cells: Vec<u32>,
    /// the characters of constants and of names
    pub chars: Vec<u32>,
    /// two words a reason: 1 asserted or 2 interface, and its number
    pub reasons: Vec<u32>,
    /// two words a key: the lower of two string terms, the higher
    pub keys: Vec<u32>,
    /// the standing marks and the joins since the first of them, as `join`, `set_mark` and `go_back` keep them
    pub marks: Vec<u32>,
}

impl Default for Store {
    fn default() -> Self {
        Store {
            state: [0; STATE],
            // no head names a term
            terms: vec![0; term_place(TERMS as u32 + 1, 0)],
            cells: vec![0; CELL_WIDTH * (CELLS + 1)],
            chars: vec![0; CHARS],
            reasons: vec![0; PAIR_WIDTH * REASONS],
            keys: vec![0; PAIR_WIDTH * KEYS],
            marks: vec![0; MARKS],
        }
    }
}

/// The counts alone: the words are too many to read.
///
/// ```
/// let mut store = labels::Store::new();
/// store.constant("ab")?;
/// assert_eq!(
///     format!("{store:?}"),
///     "Store { terms: 1, cells: 0, chars: 2, reasons: 0, keys: 0, names: 0, marks: 0, joins: 0 }"
/// );
/// # Ok::<(), labels::Refusal>(())
/// ```
impl fmt::Debug for Store {
    fn fmt(&self, f: &mut fmt::Formatter<'_>) -> fmt::Result {
        let mut counts = f.debug_struct("Store");
        for (name, count) in ["terms", "cells", "chars", "reasons", "keys", "names", "marks", "joins"].iter().zip(&self.state) {
            counts.field(name, count);
        }
        counts.finish()
    }
}

impl Store {
    /// An empty store.
    ///
    /// ```
    /// assert_eq!(labels::Store::new().audit(), Ok(()));
    /// ```
    pub fn new() -> Self {
        Store::default()
    }

    /// Looks at every word that a call relies on, as each call does first.
    ///
    /// ```
    /// let mut store = labels::Store::new();
    /// store.state[0] = labels::TERMS as u32 + 1;
    /// assert_eq!(store.audit(), Err(labels::Refusal::Sizes));
    /// ```
    pub fn audit(&self) -> Result<(), Refusal> {
        outcome(raw::audit(self))
    }

    /// The constant of a word, made where the store has none. A character from U+30000 on is refused.
    ///
    /// ```
    /// let mut store = labels::Store::new();
    /// let a = store.constant("A7")?;
    /// assert_eq!(store.constant("A7")?, a);
    /// assert_eq!(store.constant("\u{30000}"), Err(labels::Refusal::Argument));
    /// # Ok::<(), labels::Refusal>(())
    /// ```
    pub fn constant(&mut self, text: &str) -> Result<Term, Refusal> {
        self.constant_chars(&characters(text))
    }

    /// The constant of characters that stand as numbers, as in a store's own words: any from 0 to 0x2FFFF, the surrogates among them, which a
    /// `&str` cannot have. Another is refused.
    ///
    /// ```
    /// let mut store = labels::Store::new();
    /// let a = store.constant_chars(&[0x41, 0x3BB])?;
    /// assert_eq!(store.constant("Aλ")?, a);
    /// // two surrogates are two characters, and not the one that they stand for in UTF-16
    /// let two = store.constant_chars(&[0xD83D, 0xDE42])?;
    /// assert_ne!(store.constant("\u{1F642}")?, two);
    /// assert_eq!(store.constant_chars(&[0x30000]), Err(labels::Refusal::Argument));
    /// # Ok::<(), labels::Refusal>(())
    /// ```
    pub fn constant_chars(&mut self, text: &[u32]) -> Result<Term, Refusal> {
        self.answered(|s, a| raw::make_constant(s, text, a))
    }

    /// The variable of a name, made where the store has none. A name has one character or more; those that begin with `!strk` are the
    /// component's own.
    ///
    /// ```
    /// let mut store = labels::Store::new();
    /// let site = store.variable("site")?;
    /// assert_eq!(store.variable("site")?, site);
    /// assert_eq!(store.variable(""), Err(labels::Refusal::Argument));
    /// # Ok::<(), labels::Refusal>(())
    /// ```
    pub fn variable(&mut self, name: &str) -> Result<Term, Refusal> {
        self.variable_chars(&characters(name))
    }

    /// The variable of a name whose characters stand as numbers, the same as a constant's.
    ///
    /// ```
    /// let mut store = labels::Store::new();
    /// let x = store.variable_chars(&[0x78])?;
    /// assert_eq!(store.variable("x")?, x);
    /// let odd = store.variable_chars(&[0x78, 0xD800])?;
    /// assert_eq!(store.display(odd).to_string(), r"x\u{d800}");
    /// assert_eq!(store.variable_chars(&[0x30000]), Err(labels::Refusal::Argument));
    /// # Ok::<(), labels::Refusal>(())
    /// ```
    pub fn variable_chars(&mut self, name: &[u32]) -> Result<Term, Refusal> {
        self.answered(|s, a| raw::make_variable(s, name, a))
    }

    /// The concatenation of two or more string terms, made where the store has none.
    ///
    /// ```
    /// let mut store = labels::Store::new();
    /// let (site, batch) = (store.variable("site")?, store.variable("batch")?);
    /// let label = store.concatenation(&[site, batch])?;
    /// assert_eq!(store.display(label).to_string(), "site ++ batch");
    /// assert_eq!(store.concatenation(&[site]), Err(labels::Refusal::Argument));
    /// # Ok::<(), labels::Refusal>(())
    /// ```
    pub fn concatenation(&mut self, parts: &[Term]) -> Result<Term, Refusal> {
        self.answered(|s, a| raw::make_concatenation(s, parts, a))
    }

    /// The length of a string term, made where the store has none.
    ///
    /// ```
    /// let mut store = labels::Store::new();
    /// let site = store.variable("site")?;
    /// let n = store.length(site)?;
    /// assert_eq!(store.display(n).to_string(), "len(site)");
    /// # Ok::<(), labels::Refusal>(())
    /// ```
    pub fn length(&mut self, t: Term) -> Result<Term, Refusal> {
        self.answered(|s, a| raw::make_length(s, t, a))
    }

    /// The equation of two string terms or of two lengths, made where the store has none. Nothing is said of whether it is true.
    ///
    /// ```
    /// let mut store = labels::Store::new();
    /// let (site, a) = (store.variable("site")?, store.constant("A")?);
    /// let equation = store.equation(site, a)?;
    /// assert_eq!(store.display(equation).to_string(), "site = \"A\"");
    /// # Ok::<(), labels::Refusal>(())
    /// ```
    pub fn equation(&mut self, t: Term, u: Term) -> Result<Term, Refusal> {
        self.answered(|s, a| raw::make_equation(s, t, u, a))
    }

    /// The root of a string term's class: two terms are in one class where their roots are one.
    ///
    /// ```
    /// let mut store = labels::Store::new();
    /// let (x, y) = (store.variable("x")?, store.variable("y")?);
    /// assert_ne!(store.find(x)?, store.find(y)?);
    /// store.join(x, y, labels::Reason::Asserted(1))?;
    /// assert_eq!(store.find(x)?, store.find(y)?);
    /// # Ok::<(), labels::Refusal>(())
    /// ```
    pub fn find(&self, t: Term) -> Result<Term, Refusal> {
        let mut answer = [0; ANSWER];
        outcome(raw::find(self, t, &mut answer))?;
        Ok(answer[0])
    }

    /// Joins the classes of two string terms under a reason: true where it did, false where they are in one class already, and then nothing
    /// has changed. A reason's number is below 2^31.
    ///
    /// ```
    /// use labels::Reason;
    /// let mut store = labels::Store::new();
    /// let (x, y) = (store.variable("x")?, store.variable("y")?);
    /// assert!(store.join(x, y, Reason::Asserted(1))?);
    /// assert!(!store.join(y, x, Reason::Asserted(2))?);
    /// # Ok::<(), labels::Refusal>(())
    /// ```
    pub fn join(&mut self, a: Term, b: Term, reason: Reason) -> Result<bool, Refusal> {
        let (kind, number) = reason.words();
        flag(self.answered(|s, w| raw::join(s, a, b, kind, number, w))?)
    }

    /// Sets a mark and gives its number: from 1 in the order set, at most 64 standing.
    ///
    /// ```
    /// let mut store = labels::Store::new();
    /// assert_eq!((store.set_mark()?, store.set_mark()?), (1, 2));
    /// # Ok::<(), labels::Refusal>(())
    /// ```
    pub fn set_mark(&mut self) -> Result<u32, Refusal> {
        self.answered(raw::set_mark)
    }

    /// Goes back to a mark, which uses up that mark and later ones. The joins since it are undone, whatever calls were made between: each term
    /// counted then has its first eight words as they were, and terms made since stay, each alone in its class. Reasons, keys and the index stay
    /// too.
    ///
    /// ```
    /// let mut store = labels::Store::new();
    /// let (x, y) = (store.variable("x")?, store.variable("y")?);
    /// let mark = store.set_mark()?;
    /// store.join(x, y, labels::Reason::Asserted(1))?;
    /// store.go_back(mark)?;
    /// assert_ne!(store.find(x)?, store.find(y)?);
    /// assert_eq!(store.go_back(mark), Err(labels::Refusal::Mark));
    /// # Ok::<(), labels::Refusal>(())
    /// ```
    pub fn go_back(&mut self, mark: u32) -> Result<(), Refusal> {
        outcome(raw::go_back(self, mark))
    }

    /// Hands reasons in with the question that follows: its answer rests on them too, and names them first, as they were handed in. None of
    /// them is named again after those. A reason's number is below 2^31; more than 4,096 reasons are refused.
    ///
    /// Who takes two normal forms and asks the equation between them hands in what the forms rest on. (`step` does so by itself.)
    ///
    /// ```
    /// use labels::{Answer, Reason};
    /// let mut store = labels::Store::new();
    /// let (x, a, b) = (store.variable("x")?, store.constant("a")?, store.constant("b")?);
    /// store.join(x, a, Reason::Asserted(3))?;
    /// let lhs = store.normal_form(&[a], x)?;
    /// let rhs = store.with_reasons(&lhs.reasons)?.normal_form(&[a], b)?;
    /// let answer = store.with_reasons(&rhs.reasons)?.resolve_equation(&lhs.atoms, &rhs.atoms, 1)?;
    /// assert_eq!(answer, Answer::Conflict { reasons: vec![Reason::Asserted(3)] });
    /// # Ok::<(), labels::Refusal>(())
    /// ```
    pub fn with_reasons(&mut self, reasons: &[Reason]) -> Result<Question<'_>, Refusal> {
        if reasons.iter().any(|reason| reason.words().1 >= 1 << 31) {
            return Err(Refusal::Argument);
        }
        if reasons.len() > REASONS || PAIR_WIDTH * reasons.len() > self.reasons.len() {
            return Err(Refusal::Reasons);
        }
        for (pair, reason) in self.reasons.chunks_exact_mut(PAIR_WIDTH).zip(reasons) {
            (pair[0], pair[1]) = reason.words();
        }
        self.state[REASON_COUNT] = reasons.len() as u32;
        Ok(Question { store: self })
    }

    /// The reasons why two string terms of one class are equal, each once.
    ///
    /// ```
    /// use labels::{Reason, Refusal};
    /// let mut store = labels::Store::new();
    /// let (x, y, z) = (store.variable("x")?, store.variable("y")?, store.variable("z")?);
    /// store.join(x, y, Reason::Asserted(1))?;
    /// assert_eq!(store.explain(x, y)?, [Reason::Asserted(1)]);
    /// assert_eq!(store.explain(x, z), Err(Refusal::Argument));
    /// # Ok::<(), labels::Refusal>(())
    /// ```
    pub fn explain(&mut self, a: Term, b: Term) -> Result<Vec<Reason>, Refusal> {
        self.question().explain(a, b)
    }

    /// The normal form of a string term over the known list, with the reasons that it rests on.
    ///
    /// ```
    /// use labels::Reason;
    /// let mut store = labels::Store::new();
    /// let (x, a) = (store.variable("x")?, store.constant("a")?);
    /// store.join(x, a, Reason::Asserted(1))?;
    /// let form = store.normal_form(&[a], x)?;
    /// assert_eq!((form.atoms, form.reasons), (vec![a], vec![Reason::Asserted(1)]));
    /// # Ok::<(), labels::Refusal>(())
    /// ```
    pub fn normal_form(&mut self, known: &[Term], t: Term) -> Result<Form, Refusal> {
        self.question().normal_form(known, t)
    }

    /// The same with concatenations expanded, or None where that takes more than 256 atoms or meets one again.
    ///
    /// ```
    /// use labels::Reason;
    /// let mut store = labels::Store::new();
    /// let (x, a, z) = (store.variable("x")?, store.constant("a")?, store.variable("z")?);
    /// let az = store.concatenation(&[a, z])?;
    /// store.join(x, az, Reason::Asserted(1))?;
    /// assert_eq!(store.deep_normal_form(&[az], x)?.unwrap().atoms, [a, z]);
    /// # Ok::<(), labels::Refusal>(())
    /// ```
    pub fn deep_normal_form(&mut self, known: &[Term], t: Term) -> Result<Option<Form>, Refusal> {
        self.question().deep_normal_form(known, t)
    }

    /// The equation between two lists of string terms; the guard, which a Split hands back negated, is neither 0 nor the lowest number.
    /// Where one list is constants alone and the other constants and one variable that is alone in its class, once or more, the answer is
    /// Conflict exactly when no word for the variable makes the sides equal.
    ///
    /// ```
    /// use labels::Answer;
    /// let mut store = labels::Store::new();
    /// let (x, a) = (store.variable("x")?, store.constant("a")?);
    /// let answer = store.resolve_equation(&[x], &[a], 1)?;
    /// assert_eq!(answer, Answer::Propagate { variable: x, word: a, link: false, reasons: vec![] });
    ///
    /// // batch ++ "-" ++ lot against a code: with lot and batch of one class the two places differ, and a7 is why
    /// let (batch, lot) = (store.variable("batch")?, store.variable("lot")?);
    /// let (hyphen, code) = (store.constant("-")?, store.constant("7-8")?);
    /// store.join(lot, batch, labels::Reason::Asserted(7))?;
    /// let answer = store.resolve_equation(&[batch, hyphen, lot], &[code], 1)?;
    /// assert_eq!(answer, Answer::Conflict { reasons: vec![labels::Reason::Asserted(7)] });
    /// # Ok::<(), labels::Refusal>(())
    /// ```
    pub fn resolve_equation(&mut self, lhs: &[Term], rhs: &[Term], guard: i32) -> Result<Answer, Refusal> {
        self.question().resolve_equation(lhs, rhs, guard)
    }

    /// The step over an equation of two string terms: the deep forms of its sides over the known list, then the equation between them.
    /// Pass every string term as known: where one is left out the answer says less, and nothing wrong.
    ///
    /// ```
    /// use labels::{Answer, Reason};
    /// let mut store = labels::Store::new();
    /// let (x, a, b) = (store.variable("x")?, store.constant("a")?, store.constant("b")?);
    /// let equation = store.equation(x, b)?;
    /// store.join(x, a, Reason::Interface(4))?;
    /// assert_eq!(store.step(&[x, a, b], equation, 1)?, Answer::Conflict { reasons: vec![Reason::Interface(4)] });
    /// # Ok::<(), labels::Refusal>(())
    /// ```
    pub fn step(&mut self, known: &[Term], equation: Term, guard: i32) -> Result<Answer, Refusal> {
        self.question().step(known, equation, guard)
    }

    /// Every variable that must still become "", where one flattened list is empty and the other is two or more variables; "" is made where
    /// the store has none. For other lists none, and nothing is made. No reasons are named, and those counted stay.
    ///
    /// The list is what [`Store::resolve_equation`] would have propagated, called again after each join.
    ///
    /// ```
    /// use labels::{Answer, EmptyParts, Reason};
    /// let mut store = labels::Store::new();
    /// let (site, batch, serial) = (store.variable("site")?, store.variable("batch")?, store.variable("serial")?);
    /// store.join(batch, site, Reason::Asserted(1))?;
    /// let label = [site, batch, serial];
    /// // site stands for batch too, which is of its class
    /// let parts = store.empty_parts(&[], &label)?;
    /// assert_eq!((&parts.variables, parts.link), (&vec![site, serial], true));
    /// if let Some(empty) = parts.empty {
    ///     for variable in parts.variables {
    ///         store.join(variable, empty, Reason::Interface(9))?;
    ///     }
    /// }
    /// assert_eq!(store.empty_parts(&[], &label)?, EmptyParts { variables: vec![], empty: parts.empty, link: false });
    /// assert_eq!(store.resolve_equation(&[], &label, 1)?, Answer::Done);
    /// // a list of another form
    /// assert_eq!(store.empty_parts(&[site], &[batch, serial])?.empty, None);
    /// # Ok::<(), labels::Refusal>(())
    /// ```
    pub fn empty_parts(&mut self, lhs: &[Term], rhs: &[Term]) -> Result<EmptyParts, Refusal> {
        let (mut list, mut answer) = (list(), [0; ANSWER]);
        outcome(raw::empty_parts(self, lhs, rhs, &mut list, &mut answer))?;
        EmptyParts::of(&answer, &list)
    }

    /// The length that a side of constants forces on the one variable class of the other side. Both lists are flattened, and same heads and
    /// then same tails are stripped; lists of another form are refused. Nothing is written.
    ///
    /// With a rest above 0 or a shortage [`Store::resolve_equation`] answers Conflict on the same lists, or Saturated where it flattened, unless
    /// the reasons are full: no words fit under the reasons that the Conflict names, and without them some may.
    ///
    /// ```
    /// use labels::{Fit, Refusal, Span};
    /// let mut store = labels::Store::new();
    /// let (lot, hyphen, code) = (store.variable("lot")?, store.constant("-")?, store.constant("A7-A71")?);
    /// // two places of two characters and the hyphen take five, and one is over
    /// let fit = store.forced_length(&[code], &[lot, hyphen, lot])?;
    /// assert_eq!(fit, Fit { variables: 2, constant: 1, against: 6, span: Span::Length { length: 2, rest: 1 } });
    /// assert_eq!(store.forced_length(&[], &[lot, hyphen])?.span, Span::Shortage(1));
    /// assert_eq!(store.forced_length(&[code], &[hyphen]), Err(Refusal::Form));
    /// # Ok::<(), labels::Refusal>(())
    /// ```
    pub fn forced_length(&self, lhs: &[Term], rhs: &[Term]) -> Result<Fit, Refusal> {
        let mut answer = [0; ANSWER];
        outcome(raw::forced_length(self, lhs, rhs, &mut answer))?;
        Fit::of(&answer)
    }

    /// Whether two lists are atom by atom the same.
    ///
    /// ```
    /// let mut store = labels::Store::new();
    /// let (x, y) = (store.variable("x")?, store.variable("y")?);
    /// assert!(!store.nf_equal(&[x], &[y])?);
    /// # Ok::<(), labels::Refusal>(())
    /// ```
    pub fn nf_equal(&self, lhs: &[Term], rhs: &[Term]) -> Result<bool, Refusal> {
        let mut answer = [0; ANSWER];
        outcome(raw::nf_equal(self, lhs, rhs, &mut answer))?;
        flag(answer[0])
    }

    /// The reasons why the pairs of one class in two lists of equal length are equal, each once.
    ///
    /// ```
    /// use labels::Reason;
    /// let mut store = labels::Store::new();
    /// let (x, y) = (store.variable("x")?, store.variable("y")?);
    /// store.join(x, y, Reason::Asserted(1))?;
    /// assert_eq!(store.nf_equal_explain(&[x], &[y])?, [Reason::Asserted(1)]);
    /// assert_eq!(store.nf_equal_explain(&[x, y], &[y, x])?, [Reason::Asserted(1)]);
    /// # Ok::<(), labels::Refusal>(())
    /// ```
    pub fn nf_equal_explain(&mut self, lhs: &[Term], rhs: &[Term]) -> Result<Vec<Reason>, Refusal> {
        self.question().nf_equal_explain(lhs, rhs)
    }

    /// The reasons that the store counts: those of the last question. Of a store that no call has audited those are left out that are of no
    /// kind or not there; what an answer rests on is in the answer.
    ///
    /// ```
    /// use labels::Reason;
    /// let mut store = labels::Store::new();
    /// let (x, y) = (store.variable("x")?, store.variable("y")?);
    /// store.join(x, y, Reason::Asserted(1))?;
    /// store.explain(x, y)?;
    /// assert_eq!(store.reason_list(), [Reason::Asserted(1)]);
    /// # Ok::<(), labels::Refusal>(())
    /// ```
    pub fn reason_list(&self) -> Vec<Reason> {
        let pairs = self.reasons.chunks_exact(PAIR_WIDTH).take(self.state[REASON_COUNT] as usize);
        pairs.filter_map(|p| Reason::of(p[0], p[1])).collect()
    }

    /// Every reason counted, or an error where one is of no kind: an answer that left one out would be a wrong one.
    fn named(&self) -> Result<Vec<Reason>, Refusal> {
        let (reasons, count) = (self.reason_list(), self.state[REASON_COUNT]);
        if reasons.len() == count as usize {
            Ok(reasons)
        } else {
            Err(Refusal::UnknownAnswer(count))
        }
    }

    /// A question with no reasons handed in.
    fn question(&mut self) -> Question<'_> {
        self.state[REASON_COUNT] = 0;
        Question { store: self }
    }

    fn answered(&mut self, call: impl FnOnce(&mut Store, &mut [u32; ANSWER]) -> u32) -> Result<Term, Refusal> {
        let mut answer = [0; ANSWER];
        outcome(call(self, &mut answer))?;
        Ok(answer[0])
    }
}

/// A question with reasons handed in, as [`Store::with_reasons`] makes it. Each call is that of [`Store`] with the same name, and the reasons
/// handed in come first among those that it gives; none of them is given again.
///
/// ```
/// use labels::Reason;
/// let mut store = labels::Store::new();
/// let (x, y) = (store.variable("x")?, store.variable("y")?);
/// store.join(x, y, Reason::Asserted(1))?;
/// let reasons = store.with_reasons(&[Reason::Interface(9)])?.explain(x, y)?;
/// assert_eq!(reasons, [Reason::Interface(9), Reason::Asserted(1)]);
/// let reasons = store.with_reasons(&[Reason::Asserted(1), Reason::Interface(9)])?.explain(x, y)?;
/// assert_eq!(reasons, [Reason::Asserted(1), Reason::Interface(9)]);
/// // the next question begins with none
/// assert_eq!(store.explain(x, y)?, [Reason::Asserted(1)]);
/// # Ok::<(), labels::Refusal>(())
/// ```
#[must_use = "reasons are handed in with the call that follows"]
#[derive(Debug)]
pub struct Question<'a> {
    store: &'a mut Store,
}

impl Question<'_> {
    /// [`Store::explain`] with the reasons handed in.
    ///
    /// ```
    /// # use labels::{Answer, Form, Reason, Store};
    /// # let mut store = Store::new();
    /// # let (x, y) = (store.variable("x")?, store.variable("y")?);
    /// # store.join(x, y, Reason::Asserted(1))?;
    /// let handed = [Reason::Interface(9)];
    /// assert_eq!(store.with_reasons(&handed)?.explain(x, y)?, vec![Reason::Interface(9), Reason::Asserted(1)]);
    /// # Ok::<(), labels::Refusal>(())
    /// ```
    pub fn explain(self, a: Term, b: Term) -> Result<Vec<Reason>, Refusal> {
        outcome(raw::explain(self.store, a, b))?;
        self.store.named()
    }

    /// [`Store::normal_form`] with the reasons handed in.
    ///
    /// ```
    /// # use labels::{Answer, Form, Reason, Store};
    /// # let mut store = Store::new();
    /// # let (x, y) = (store.variable("x")?, store.variable("y")?);
    /// # store.join(x, y, Reason::Asserted(1))?;
    /// let handed = [Reason::Interface(9)];
    /// let form = store.with_reasons(&handed)?.normal_form(&[x], y)?;
    /// assert_eq!(form, Form { atoms: vec![x], reasons: vec![Reason::Interface(9), Reason::Asserted(1)] });
    /// # Ok::<(), labels::Refusal>(())
    /// ```
    pub fn normal_form(self, known: &[Term], t: Term) -> Result<Form, Refusal> {
        let (mut list, mut answer) = (list(), [0; ANSWER]);
        outcome(raw::normal_form(self.store, known, t, &mut list, &mut answer))?;
        Form::of(&answer, &list, self.store.named()?)?.ok_or(Refusal::UnknownAnswer(answer[0]))
    }

    /// [`Store::deep_normal_form`] with the reasons handed in.
    ///
    /// ```
    /// # use labels::{Answer, Form, Reason, Store};
    /// # let mut store = Store::new();
    /// # let (x, y) = (store.variable("x")?, store.variable("y")?);
    /// # store.join(x, y, Reason::Asserted(1))?;
    /// let handed = [Reason::Interface(9)];
    /// let form = store.with_reasons(&handed)?.deep_normal_form(&[x], y)?;
    /// assert_eq!(form, Some(Form { atoms: vec![x], reasons: vec![Reason::Interface(9), Reason::Asserted(1)] }));
    /// # Ok::<(), labels::Refusal>(())
    /// ```
    pub fn deep_normal_form(self, known: &[Term], t: Term) -> Result<Option<Form>, Refusal> {
        let (mut list, mut answer) = (list(), [0; ANSWER]);
        outcome(raw::deep_normal_form(self.store, known, t, &mut list, &mut answer))?;
        Form::of(&answer, &list, self.store.named()?)
    }

    /// [`Store::resolve_equation`] with the reasons handed in.
    ///
    /// ```
    /// # use labels::{Answer, Form, Reason, Store};
    /// # let mut store = Store::new();
    /// # let (x, y) = (store.variable("x")?, store.variable("y")?);
    /// # store.join(x, y, Reason::Asserted(1))?;
    /// let handed = [Reason::Interface(9)];
    /// let a = store.constant("a")?;
    /// let answer = store.with_reasons(&handed)?.resolve_equation(&[x], &[y, a], 1)?;
    /// assert_eq!(answer, Answer::Conflict { reasons: vec![Reason::Interface(9), Reason::Asserted(1)] });
    /// # Ok::<(), labels::Refusal>(())
    /// ```
    pub fn resolve_equation(self, lhs: &[Term], rhs: &[Term], guard: i32) -> Result<Answer, Refusal> {
        let (mut list, mut answer) = (list(), [0; ANSWER]);
        outcome(raw::resolve_equation(self.store, lhs, rhs, guard, &mut list, &mut answer))?;
        answered_case(&answer, &list, self.store.named()?)
    }

    /// [`Store::step`] with the reasons handed in.
    ///
    /// ```
    /// # use labels::{Answer, Form, Reason, Store};
    /// # let mut store = Store::new();
    /// # let (x, y) = (store.variable("x")?, store.variable("y")?);
    /// # store.join(x, y, Reason::Asserted(1))?;
    /// let handed = [Reason::Interface(9)];
    /// let a = store.constant("a")?;
    /// let ya = store.concatenation(&[y, a])?;
    /// let equation = store.equation(x, ya)?;
    /// let answer = store.with_reasons(&handed)?.step(&[x, y, a, ya], equation, 1)?;
    /// assert_eq!(answer, Answer::Conflict { reasons: vec![Reason::Interface(9), Reason::Asserted(1)] });
    /// # Ok::<(), labels::Refusal>(())
    /// ```
    pub fn step(self, known: &[Term], equation: Term, guard: i32) -> Result<Answer, Refusal> {
        let (mut list, mut answer) = (list(), [0; ANSWER]);
        outcome(raw::step(self.store, known, equation, guard, &mut list, &mut answer))?;
        answered_case(&answer, &list, self.store.named()?)
    }

    /// [`Store::nf_equal_explain`] with the reasons handed in.
    ///
    /// ```
    /// # use labels::{Answer, Form, Reason, Store};
    /// # let mut store = Store::new();
    /// # let (x, y) = (store.variable("x")?, store.variable("y")?);
    /// # store.join(x, y, Reason::Asserted(1))?;
    /// let handed = [Reason::Interface(9)];
    /// assert_eq!(store.with_reasons(&handed)?.nf_equal_explain(&[x], &[y])?, vec![Reason::Interface(9), Reason::Asserted(1)]);
    /// # Ok::<(), labels::Refusal>(())
    /// ```
    pub fn nf_equal_explain(self, lhs: &[Term], rhs: &[Term]) -> Result<Vec<Reason>, Refusal> {
        outcome(raw::nf_equal_explain(self.store, lhs, rhs))?;
        self.store.named()
    }
}

/// Where a call puts the list that it answers: on the heap, so that the stack is the call's own.
fn list() -> Vec<u32> {
    vec![0; LIST]
}

fn characters(text: &str) -> Vec<u32> {
    text.chars().map(u32::from).collect()
}
