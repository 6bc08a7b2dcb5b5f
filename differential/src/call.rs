//! The port's calls and what they answer, in the terms of its C interface.

use crate::lent::{Lent, LIST};
use std::fmt;

#[derive(Clone, PartialEq, Eq, Debug)]
pub enum Call {
    Audit,
    MakeConstant { text: Vec<u32> },
    MakeVariable { name: Vec<u32> },
    MakeConcatenation { parts: Vec<u32> },
    MakeLength { t: u32 },
    MakeEquation { t: u32, u: u32 },
    Find { t: u32 },
    Explain { a: u32, b: u32 },
    NormalForm { known: Vec<u32>, t: u32 },
    DeepNormalForm { known: Vec<u32>, t: u32 },
    ResolveEquation { lhs: Vec<u32>, rhs: Vec<u32>, guard: i32 },
    Step { known: Vec<u32>, equation: u32, guard: i32 },
    NfEqual { lhs: Vec<u32>, rhs: Vec<u32> },
    NfEqualExplain { lhs: Vec<u32>, rhs: Vec<u32> },
    EmptyParts { lhs: Vec<u32>, rhs: Vec<u32> },
    ForcedLength { lhs: Vec<u32>, rhs: Vec<u32> },
}

pub const NAMES: [&str; 16] = [
    "audit",
    "make_constant",
    "make_variable",
    "make_concatenation",
    "make_length",
    "make_equation",
    "find",
    "explain",
    "normal_form",
    "deep_normal_form",
    "resolve_equation",
    "step",
    "nf_equal",
    "nf_equal_explain",
    "empty_parts",
    "forced_length",
];

impl Call {
    pub fn number(&self) -> usize {
        match self {
            Call::Audit => 0,
            Call::MakeConstant { .. } => 1,
            Call::MakeVariable { .. } => 2,
            Call::MakeConcatenation { .. } => 3,
            Call::MakeLength { .. } => 4,
            Call::MakeEquation { .. } => 5,
            Call::Find { .. } => 6,
            Call::Explain { .. } => 7,
            Call::NormalForm { .. } => 8,
            Call::DeepNormalForm { .. } => 9,
            Call::ResolveEquation { .. } => 10,
            Call::Step { .. } => 11,
            Call::NfEqual { .. } => 12,
            Call::NfEqualExplain { .. } => 13,
            Call::EmptyParts { .. } => 14,
            Call::ForcedLength { .. } => 15,
        }
    }

    pub fn name(&self) -> &'static str {
        NAMES[self.number()]
    }

    pub fn answers_a_list(&self) -> bool {
        matches!(self.number(), 8..=11 | 14)
    }

    pub fn has_answer_words(&self) -> bool {
        !matches!(self, Call::Audit | Call::Explain { .. } | Call::NfEqualExplain { .. })
    }

    /// The lists of terms among its arguments.
    pub fn lists_mut(&mut self) -> Vec<&mut Vec<u32>> {
        match self {
            Call::MakeConcatenation { parts } => vec![parts],
            Call::NormalForm { known, .. } | Call::DeepNormalForm { known, .. } | Call::Step { known, .. } => vec![known],
            Call::ResolveEquation { lhs, rhs, .. }
            | Call::NfEqual { lhs, rhs }
            | Call::NfEqualExplain { lhs, rhs }
            | Call::EmptyParts { lhs, rhs }
            | Call::ForcedLength { lhs, rhs } => vec![lhs, rhs],
            _ => vec![],
        }
    }

    /// The single terms among its arguments.
    pub fn terms_mut(&mut self) -> Vec<&mut u32> {
        match self {
            Call::MakeLength { t } | Call::Find { t } | Call::NormalForm { t, .. } | Call::DeepNormalForm { t, .. } => vec![t],
            Call::MakeEquation { t, u } => vec![t, u],
            Call::Explain { a, b } => vec![a, b],
            Call::Step { equation, .. } => vec![equation],
            _ => vec![],
        }
    }
}

/// A call with the lengths of its answer's slices.
#[derive(Clone, PartialEq, Eq, Debug)]
pub struct Request {
    pub call: Call,
    pub list_room: usize,
    pub answer_room: usize,
}

impl Request {
    pub fn new(call: Call) -> Self {
        Request { call, list_room: LIST, answer_room: 8 }
    }
}

/// The cases of wordeq and of the step, as answer word 0 gives them.
pub const DONE: u32 = 0;
pub const SATURATED: u32 = 1;
pub const CONFLICT: u32 = 2;
pub const PROPAGATE: u32 = 3;
pub const SPLIT: u32 = 4;
pub const UNEXPANDED: u32 = 5;

/// What a call leaves: its result, the answer's words, the list, and the store.
#[derive(Clone, PartialEq, Eq, Debug)]
pub struct Outcome {
    pub code: u32,
    pub answer: Vec<u32>,
    pub list: Vec<u32>,
    pub exit: Lent,
}

/// What an answer's slices are filled with before a call.
pub const BLANK: u32 = 0xBBBB_BBBB;

impl Outcome {
    /// Nothing written.
    pub fn idle(entry: &Lent, request: &Request, code: u32) -> Self {
        Outcome { code, answer: vec![BLANK; request.answer_room], list: vec![BLANK; request.list_room], exit: entry.clone() }
    }

    /// How many of the answer's words have a meaning, and how many words of the list.
    pub fn meant(&self, call: &Call) -> (usize, usize) {
        if self.code != 0 {
            return (0, 0);
        }
        let word = |i: usize| self.answer.get(i).copied().unwrap_or(0) as usize;
        match call {
            Call::Audit | Call::Explain { .. } | Call::NfEqualExplain { .. } => (0, 0),
            Call::NormalForm { .. } | Call::DeepNormalForm { .. } => (2, word(1)),
            Call::EmptyParts { .. } => (3, word(0)),
            Call::ForcedLength { .. } => (6, 0),
            Call::ResolveEquation { .. } | Call::Step { .. } => match self.answer[0] {
                PROPAGATE => (4, 0),
                SPLIT => (4, word(1)),
                _ => (1, 0),
            },
            _ => (1, 0),
        }
    }
}

impl fmt::Display for Outcome {
    fn fmt(&self, f: &mut fmt::Formatter) -> fmt::Result {
        let list = self.list.iter().take_while(|&&x| x != BLANK).take(40).collect::<Vec<_>>();
        write!(f, "code {} answer {:?} list {:?}\n{}", self.code, self.answer, list, self.exit)
    }
}
