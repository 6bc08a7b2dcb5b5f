//! What a call comes to: a refusal or an answer, and the reasons that it rests on.

use crate::{Term, ANSWER};
use std::fmt;

/// Why a call was refused. After the first five, and after `Mark`, `Form` and `Index`, the call has changed no word of the store; a question has
/// set the count of its reasons to those that were handed in. After the others what was counted is as it was, and so is the index.
///
/// ```
/// use labels::{Refusal, Store};
/// let refused = Store::new().variable("").unwrap_err();
/// assert_eq!(refused, Refusal::Argument);
/// assert_eq!(refused.to_string(), "a wrong argument");
/// // an error like any other
/// let error: Box<dyn std::error::Error> = refused.into();
/// assert!(error.source().is_none());
/// ```
#[derive(Clone, Copy, PartialEq, Eq, Hash, Debug)]
pub enum Refusal {
    /// a count above its limit, or a slice too short for it
    Sizes,
    /// a record that breaks its rule
    Records,
    /// classes and forest do not agree, or would not after going back to a mark
    Classes,
    /// a congruence that its parts do not give
    Congruences,
    /// a wrong argument
    Argument,
    /// a flattened list above 1,024 atoms
    List,
    /// no room for a reason
    Reasons,
    /// no room for a term, its characters or cells, or a key
    Room,
    /// no name left
    Names,
    /// a mark that is not standing, or a 65th
    Mark,
    /// no side of constants against one variable class
    Form,
    /// a head or a chain of the index that the terms do not give; due after `Congruences` and before `Argument`
    Index,
    /// a refusal's number that no call gives: the library is not the one that this crate was written for
    Other(u32),
    /// an answer's number that no call gives, for the same cause
    UnknownAnswer(u32),
}

impl Refusal {
    /// The number that the manual and `labels.h` have for the refusal; None for an answer that is not known.
    ///
    /// ```
    /// use labels::Refusal;
    /// assert_eq!((Refusal::Sizes.number(), Refusal::Mark.number()), (Some(1), Some(10)));
    /// ```
    pub fn number(self) -> Option<u32> {
        Some(match self {
            Refusal::Sizes => 1,
            Refusal::Records => 2,
            Refusal::Classes => 3,
            Refusal::Congruences => 4,
            Refusal::Argument => 5,
            Refusal::List => 6,
            Refusal::Reasons => 7,
            Refusal::Room => 8,
            Refusal::Names => 9,
            Refusal::Mark => 10,
            Refusal::Form => 11,
            Refusal::Index => 12,
            Refusal::Other(n) => n,
            Refusal::UnknownAnswer(_) => return None,
        })
    }
}

impl fmt::Display for Refusal {
    fn fmt(&self, f: &mut fmt::Formatter<'_>) -> fmt::Result {
        f.write_str(match self {
            Refusal::Sizes => "a count above its limit, or a slice too short",
            Refusal::Records => "a record that breaks its rule",
            Refusal::Classes => "classes and forest do not agree, or would not after going back to a mark",
            Refusal::Congruences => "a congruence that its parts do not give",
            Refusal::Argument => "a wrong argument",
            Refusal::List => "a flattened list above 1,024 atoms",
            Refusal::Reasons => "no room for the next reason",
            Refusal::Room => "no room for a term, a cell, a character or a key",
            Refusal::Names => "no name left",
            Refusal::Mark => "a mark that is not standing, or a 65th",
            Refusal::Form => "no side of constants against one variable class",
            Refusal::Index => "a head or a chain of the index that the terms do not give",
            Refusal::Other(n) => return write!(f, "a refusal that no call gives: {n}"),
            Refusal::UnknownAnswer(n) => return write!(f, "an answer that no call gives: {n}"),
        })
    }
}

impl std::error::Error for Refusal {}

/// The result of a call from the number that it returned.
pub(crate) fn outcome(code: u32) -> Result<(), Refusal> {
    Err(match code {
        0 => return Ok(()),
        1 => Refusal::Sizes,
        2 => Refusal::Records,
        3 => Refusal::Classes,
        4 => Refusal::Congruences,
        5 => Refusal::Argument,
        6 => Refusal::List,
        7 => Refusal::Reasons,
        8 => Refusal::Room,
        9 => Refusal::Names,
        10 => Refusal::Mark,
        11 => Refusal::Form,
        12 => Refusal::Index,
        n => Refusal::Other(n),
    })
}

/// Why two terms are equal: a reason of the caller's, by its number below 2^31.
///
/// ```
/// use labels::Reason;
/// use std::collections::HashSet;
/// assert_eq!(Reason::Asserted(3).to_string(), "a3");
/// assert_eq!(Reason::Interface(4).to_string(), "i4");
/// // the rules that rest on a reason can be looked up by it
/// let undone: HashSet<Reason> = [Reason::Asserted(3)].into();
/// assert!(undone.contains(&Reason::Asserted(3)));
/// ```
#[derive(Clone, Copy, PartialEq, Eq, PartialOrd, Ord, Hash, Debug)]
pub enum Reason {
    /// an equality that was asserted
    Asserted(u32),
    /// an equality that came over the interface
    Interface(u32),
}

impl Reason {
    /// The kind and the number, as the words of the store have them.
    pub(crate) fn words(self) -> (u32, u32) {
        match self {
            Reason::Asserted(n) => (1, n),
            Reason::Interface(n) => (2, n),
        }
    }

    /// The reason of two words, if they are one's.
    pub(crate) fn of(kind: u32, number: u32) -> Option<Reason> {
        match kind {
            1 => Some(Reason::Asserted(number)),
            2 => Some(Reason::Interface(number)),
            _ => None,
        }
    }
}

impl fmt::Display for Reason {
    fn fmt(&self, f: &mut fmt::Formatter<'_>) -> fmt::Result {
        match self {
            Reason::Asserted(n) => write!(f, "a{n}"),
            Reason::Interface(n) => write!(f, "i{n}"),
        }
    }
}

/// A normal form: the list has the term's word wherever the reasons hold.
///
/// ```
/// let mut store = labels::Store::new();
/// let (x, a) = (store.variable("x")?, store.constant("a")?);
/// let xa = store.concatenation(&[x, a])?;
/// let form = store.normal_form(&[], xa)?;
/// assert_eq!(form, labels::Form { atoms: vec![x, a], reasons: vec![] });
/// # Ok::<(), labels::Refusal>(())
/// ```
#[must_use = "what the form is used for rests on its reasons"]
#[derive(Clone, PartialEq, Eq, Hash, Debug)]
pub struct Form {
    /// the atoms of the list, in order
    pub atoms: Vec<Term>,
    /// those handed in, then those of what was replaced
    pub reasons: Vec<Reason>,
}

impl Form {
    /// The form in an answer's words, or None for 0 in word 0.
    pub(crate) fn of(answer: &[u32; ANSWER], list: &[u32], reasons: Vec<Reason>) -> Result<Option<Form>, Refusal> {
        match answer[0] {
            0 => Ok(None),
            1 => Ok(Some(Form { atoms: first(list, answer[1])?, reasons })),
            n => Err(Refusal::UnknownAnswer(n)),
        }
    }
}

/// The parts of a label that must still become "": if the two sides have equal words, each of these variables has the word of "", whatever was
/// merged. That rests on the equation between the lists and on what the lists rest on.
///
/// ```
/// let mut store = labels::Store::new();
/// let (site, batch) = (store.variable("site")?, store.variable("batch")?);
/// let parts = store.empty_parts(&[], &[site, batch])?;
/// assert_eq!(parts, labels::EmptyParts { variables: vec![site, batch], empty: Some(3), link: true });
/// # Ok::<(), labels::Refusal>(())
/// ```
#[must_use = "the variables are to be joined with the empty constant"]
#[derive(Clone, PartialEq, Eq, Hash, Debug)]
pub struct EmptyParts {
    /// the variables, in the order of their places, the first of each class
    pub variables: Vec<Term>,
    /// the constant "", or None where the lists have another form
    pub empty: Option<Term>,
    /// set where a variable is listed: an empty side stood against several variables
    pub link: bool,
}

impl EmptyParts {
    /// The parts in an answer's words.
    pub(crate) fn of(answer: &[u32; ANSWER], list: &[u32]) -> Result<EmptyParts, Refusal> {
        let (count, empty, link) = (answer[0], answer[1], answer[2]);
        if link > 1 || (link == 1) != (count > 0) || (count > 0 && empty == 0) {
            return Err(Refusal::UnknownAnswer(link));
        }
        Ok(EmptyParts { variables: first(list, count)?, empty: (empty != 0).then_some(empty), link: link == 1 })
    }
}

/// What the length of a side of constants leaves to each of the variables against it.
///
/// ```
/// use labels::Span;
/// let mut store = labels::Store::new();
/// let (lot, hyphen, code) = (store.variable("lot")?, store.constant("-")?, store.constant("A7-A7")?);
/// // five characters: the hyphen, and two for each of two places
/// assert_eq!(store.forced_length(&[code], &[lot, hyphen, lot])?.span, Span::Length { length: 2, rest: 0 });
/// // a constant of six characters against five
/// let longer = store.constant("A7-A7-")?;
/// assert_eq!(store.forced_length(&[code], &[lot, longer])?.span, Span::Shortage(1));
/// # Ok::<(), labels::Refusal>(())
/// ```
#[derive(Clone, Copy, PartialEq, Eq, Hash, Debug)]
pub enum Span {
    /// each variable has the same length
    Length {
        /// the characters of each variable: m
        length: u32,
        /// the characters left over, fewer than there are variables: r
        rest: u32,
    },
    /// how many characters the side is too short for the constants against it
    Shortage(u32),
}

/// The forced length of a repeated field. With a rest above 0 or a shortage [`Store::resolve_equation`](crate::Store::resolve_equation) answers
/// Conflict on the same lists, or Saturated where it flattened, unless the reasons are full: no words fit under the reasons that the Conflict
/// names, and without them some may.
///
/// ```
/// use labels::{Fit, Span};
/// let mut store = labels::Store::new();
/// let (lot, code) = (store.variable("lot")?, store.constant("777")?);
/// // three characters for two places of one length
/// let fit = store.forced_length(&[lot, lot], &[code])?;
/// assert_eq!(fit, Fit { variables: 2, constant: 0, against: 3, span: Span::Length { length: 1, rest: 1 } });
/// # Ok::<(), labels::Refusal>(())
/// ```
#[derive(Clone, Copy, PartialEq, Eq, Hash, Debug)]
pub struct Fit {
    /// at how many places the variables stand: k
    pub variables: u32,
    /// the constant characters beside them: c
    pub constant: u32,
    /// the characters of the side of constants: l
    pub against: u32,
    /// m and r, with l = c + k * m + r and r below k, or the shortage c - l
    pub span: Span,
}

impl Fit {
    /// The fit in an answer's words.
    pub(crate) fn of(answer: &[u32; ANSWER]) -> Result<Fit, Refusal> {
        let span = match answer[0] {
            0 => Span::Length { length: answer[4], rest: answer[5] },
            1 => Span::Shortage(answer[4]),
            n => return Err(Refusal::UnknownAnswer(n)),
        };
        Ok(Fit { variables: answer[1], constant: answer[2], against: answer[3], span })
    }
}

/// What an equation comes to. What is said of the sides is true wherever the reasons hold, so each case but `Done` and `Unexpanded`, which
/// say nothing of them, carries its reasons: keep them with whatever is kept of the answer. Reasons that were handed in come first.
///
/// ```
/// use labels::{Answer, Reason, Store};
/// let mut store = Store::new();
/// let (x, y) = (store.variable("x")?, store.variable("y")?);
/// let (u, w) = (store.variable("u")?, store.variable("w")?);
/// let (lhs, rhs) = (store.concatenation(&[x, u, w])?, store.concatenation(&[y, w, u])?);
/// let equation = store.equation(lhs, rhs)?;
/// store.join(x, y, Reason::Asserted(9))?;
/// // u ++ w = w ++ u is what is left, and that it is left rests on a9
/// match store.step(&[x, y, u, w], equation, 2)? {
///     Answer::Split { atoms, guard, terms_made, reasons } => {
///         assert_eq!(store.display(atoms[0]).to_string(), "len(u) = len(w)");
///         assert_eq!((guard, reasons), (-2, vec![Reason::Asserted(9)]));
///         // the lengths of u and w and their equation, and six more
///         assert_eq!(terms_made, 9);
///     }
///     other => panic!("{other:?}"),
/// }
/// // a second time the pair of u and w is known to be split; this too rests on a9
/// assert_eq!(store.step(&[x, y, u, w], equation, 2)?, Answer::Saturated { reasons: vec![Reason::Asserted(9)] });
/// # Ok::<(), labels::Refusal>(())
/// ```
#[must_use = "an answer says what has to be kept, and why"]
#[derive(Clone, PartialEq, Eq, Hash, Debug)]
pub enum Answer {
    /// nothing is to be done as the classes stand, which does not say that the sides are equal: ask again once a class of their terms has changed
    Done,
    /// nothing can be said yet
    Saturated {
        /// of the step those of the normal forms
        reasons: Vec<Reason>,
    },
    /// the sides are unequal
    Conflict {
        /// why they are
        reasons: Vec<Reason>,
    },
    /// where the sides are equal the variable has the word of a certain term
    Propagate {
        /// the variable
        variable: Term,
        /// a term that has the word
        word: Term,
        /// whether an empty side stood against several variables: then ask again once this one is joined with ""
        link: bool,
        /// why it has that word
        reasons: Vec<Reason>,
    },
    /// where the sides are equal one of the atoms is true: the clause is the guard's literal, negated, or one of them
    Split {
        /// equations
        atoms: Vec<Term>,
        /// the guard that was handed in, negated
        guard: i32,
        /// how many terms the Split made, at most [`SPLIT_TERMS`](crate::SPLIT_TERMS): over two heads six, and one for each of the two lengths
        /// and their equation that was absent; over a character three, and one for each of "", its equation and the character's constant that
        /// was absent. Of the step the terms of the normal forms are left out
        terms_made: u32,
        /// of the step those of the normal forms
        reasons: Vec<Reason>,
    },
    /// a side has no deep form; of the step alone
    Unexpanded,
}

impl Answer {
    /// The reasons that the answer rests on.
    ///
    /// ```
    /// use labels::{Answer, Reason};
    /// assert_eq!(Answer::Conflict { reasons: vec![Reason::Asserted(3)] }.reasons(), [Reason::Asserted(3)]);
    /// assert_eq!(Answer::Done.reasons(), []);
    /// ```
    pub fn reasons(&self) -> &[Reason] {
        match self {
            Answer::Done | Answer::Unexpanded => &[],
            Answer::Saturated { reasons }
            | Answer::Conflict { reasons }
            | Answer::Propagate { reasons, .. }
            | Answer::Split { reasons, .. } => reasons,
        }
    }
}

/// The case in an answer's words. A number that no call gives is an error, not the nearest case.
pub(crate) fn answered_case(answer: &[u32; ANSWER], list: &[u32], reasons: Vec<Reason>) -> Result<Answer, Refusal> {
    Ok(match answer[0] {
        0 => Answer::Done,
        1 => Answer::Saturated { reasons },
        2 => Answer::Conflict { reasons },
        3 if answer[3] <= 1 => Answer::Propagate { variable: answer[1], word: answer[2], link: answer[3] == 1, reasons },
        4 if (3..=9).contains(&answer[3]) => {
            Answer::Split { atoms: first(list, answer[1])?, guard: answer[2] as i32, terms_made: answer[3], reasons }
        }
        5 => Answer::Unexpanded,
        n => return Err(Refusal::UnknownAnswer(n)),
    })
}

/// What an answer of 0 or 1 says. Another number is an error, not a no.
pub(crate) fn flag(word: u32) -> Result<bool, Refusal> {
    match word {
        0 => Ok(false),
        1 => Ok(true),
        n => Err(Refusal::UnknownAnswer(n)),
    }
}

/// The first terms of a list, as many as an answer counts.
fn first(list: &[u32], count: u32) -> Result<Vec<Term>, Refusal> {
    list.get(..count as usize).map(<[u32]>::to_vec).ok_or(Refusal::UnknownAnswer(count))
}

#[cfg(test)]
mod tests {
    use super::*;

    #[test]
    fn an_unknown_number_is_an_error() {
        let case = |answer| answered_case(&answer, &[7, 8], vec![Reason::Asserted(3)]);
        assert_eq!(case([6, 1, 0, 0, 0, 0, 0, 0]), Err(Refusal::UnknownAnswer(6)));
        assert_eq!(case([3, 1, 2, 9, 0, 0, 0, 0]), Err(Refusal::UnknownAnswer(3)));
        assert_eq!(case([4, 3, 1, 6, 0, 0, 0, 0]), Err(Refusal::UnknownAnswer(3)));
        let split = |terms_made| Answer::Split { atoms: vec![7, 8], guard: -1, terms_made, reasons: vec![Reason::Asserted(3)] };
        for made in [3, 9] {
            assert_eq!(case([4, 2, u32::MAX, made, 0, 0, 0, 0]), Ok(split(made)));
        }
        // a library that does not count the terms leaves the word as it was
        for made in [0, 2, 10] {
            assert_eq!(case([4, 2, u32::MAX, made, 0, 0, 0, 0]), Err(Refusal::UnknownAnswer(4)));
        }
        assert_eq!(Form::of(&[2, 0, 0, 0, 0, 0, 0, 0], &[], vec![]), Err(Refusal::UnknownAnswer(2)));
        assert_eq!(Form::of(&[1, 1, 0, 0, 0, 0, 0, 0], &[], vec![]), Err(Refusal::UnknownAnswer(1)));
        assert_eq!((flag(0), flag(1), flag(2)), (Ok(false), Ok(true), Err(Refusal::UnknownAnswer(2))));
        assert_eq!(outcome(13), Err(Refusal::Other(13)));
    }

    #[test]
    fn empty_parts_are_those_of_the_words() {
        let parts = |count, empty, link| EmptyParts::of(&[count, empty, link, 9, 9, 9, 9, 9], &[7, 8]);
        assert_eq!(parts(2, 3, 1), Ok(EmptyParts { variables: vec![7, 8], empty: Some(3), link: true }));
        assert_eq!(parts(0, 3, 0), Ok(EmptyParts { variables: vec![], empty: Some(3), link: false }));
        assert_eq!(parts(0, 0, 0), Ok(EmptyParts { variables: vec![], empty: None, link: false }));
        assert_eq!(parts(3, 3, 1), Err(Refusal::UnknownAnswer(3)));
        for (count, empty, link) in [(2, 3, 2), (2, 3, 0), (0, 3, 1), (2, 0, 1)] {
            assert_eq!(parts(count, empty, link), Err(Refusal::UnknownAnswer(link)));
        }
    }

    #[test]
    fn fits_are_those_of_the_words() {
        let fit = |case| Fit::of(&[case, 2, 1, 6, 2, 1, 9, 9]).map(|f| (f.variables, f.constant, f.against, f.span));
        assert_eq!(fit(0), Ok((2, 1, 6, Span::Length { length: 2, rest: 1 })));
        assert_eq!(fit(1), Ok((2, 1, 6, Span::Shortage(2))));
        assert_eq!(fit(2), Err(Refusal::UnknownAnswer(2)));
    }

    #[test]
    fn numbers_and_refusals_go_together() {
        assert_eq!(outcome(0), Ok(()));
        for n in 1..=13 {
            assert_eq!(outcome(n).unwrap_err().number(), Some(n));
        }
        assert_eq!(Refusal::UnknownAnswer(6).number(), None);
        assert_eq!(Refusal::UnknownAnswer(6).to_string(), "an answer that no call gives: 6");
        assert_eq!(Refusal::Other(13).to_string(), "a refusal that no call gives: 13");
    }
}
