//! The C interface: a slice is a pointer and a length, and the library reads and writes within them alone, as is proved of it.

// a call of the interface has as many arguments as it lends slices
#![allow(clippy::too_many_arguments)]

use crate::{Store, ANSWER};

macro_rules! interface {
    ($borrow:ty, $words:ty, $pointer:ident: $($symbol:ident $name:ident($($arg:ident: $ty:ty),*);)*) => {
        extern "C" {
            $(fn $symbol(
                state: $words, state_len: usize,
                terms: $words, terms_len: usize,
                cells: $words, cells_len: usize,
                chars: $words, chars_len: usize,
                reasons: $words, reasons_len: usize,
                keys: $words, keys_len: usize,
                $($arg: $ty),*
            ) -> u32;)*
        }

        $(fn $name(s: $borrow, $($arg: $ty),*) -> u32 {
            // each pointer is to words that are lent to the call, as many as its length says
            unsafe {
                $symbol(
                    s.state.$pointer(), s.state.len(),
                    s.terms.$pointer(), s.terms.len(),
                    s.cells.$pointer(), s.cells.len(),
                    s.chars.$pointer(), s.chars.len(),
                    s.reasons.$pointer(), s.reasons.len(),
                    s.keys.$pointer(), s.keys.len(),
                    $($arg),*
                )
            }
        })*
    };
}

// the calls that only read the store
interface! {
    &Store, *const u32, as_ptr:
    labels_audit audit_words();
    labels_find root(t: u32, answer: *mut u32, answer_len: usize);
    labels_forced_length forced(lhs: *const u32, lhs_len: usize, rhs: *const u32, rhs_len: usize, answer: *mut u32, answer_len: usize);
    labels_nf_equal equal(lhs: *const u32, lhs_len: usize, rhs: *const u32, rhs_len: usize, answer: *mut u32, answer_len: usize);
}

interface! {
    &mut Store, *mut u32, as_mut_ptr:
    labels_make_constant constant(text: *const u32, text_len: usize, answer: *mut u32, answer_len: usize);
    labels_make_variable variable(name: *const u32, name_len: usize, answer: *mut u32, answer_len: usize);
    labels_make_concatenation concatenation(parts: *const u32, parts_len: usize, answer: *mut u32, answer_len: usize);
    labels_make_length length(t: u32, answer: *mut u32, answer_len: usize);
    labels_make_equation equation(t: u32, u: u32, answer: *mut u32, answer_len: usize);
    labels_explain reasons_of(a: u32, b: u32);
    labels_nf_equal_explain reasons_of_lists(lhs: *const u32, lhs_len: usize, rhs: *const u32, rhs_len: usize);
    labels_resolve_equation resolved(lhs: *const u32, lhs_len: usize, rhs: *const u32, rhs_len: usize, guard: i32, list: *mut u32, list_len: usize, answer: *mut u32, answer_len: usize);
    labels_empty_parts parts(lhs: *const u32, lhs_len: usize, rhs: *const u32, rhs_len: usize, list: *mut u32, list_len: usize, answer: *mut u32, answer_len: usize);
    labels_step stepped(known: *const u32, known_len: usize, e: u32, guard: i32, list: *mut u32, list_len: usize, answer: *mut u32, answer_len: usize);
    labels_normal_form form(known: *const u32, known_len: usize, t: u32, list: *mut u32, list_len: usize, answer: *mut u32, answer_len: usize);
    labels_join joined(marks: *mut u32, marks_len: usize, a: u32, b: u32, kind: u32, number: u32, answer: *mut u32, answer_len: usize);
    labels_set_mark marked(marks: *mut u32, marks_len: usize, answer: *mut u32, answer_len: usize);
    labels_go_back gone_back(marks: *const u32, marks_len: usize, mark: u32);
    labels_deep_normal_form deep_form(known: *const u32, known_len: usize, t: u32, list: *mut u32, list_len: usize, answer: *mut u32, answer_len: usize);
}

pub fn audit(s: &Store) -> u32 {
    audit_words(s)
}

pub fn make_constant(s: &mut Store, text: &[u32], answer: &mut [u32; ANSWER]) -> u32 {
    constant(s, text.as_ptr(), text.len(), answer.as_mut_ptr(), answer.len())
}

pub fn make_variable(s: &mut Store, name: &[u32], answer: &mut [u32; ANSWER]) -> u32 {
    variable(s, name.as_ptr(), name.len(), answer.as_mut_ptr(), answer.len())
}

pub fn make_concatenation(s: &mut Store, parts: &[u32], answer: &mut [u32; ANSWER]) -> u32 {
    concatenation(s, parts.as_ptr(), parts.len(), answer.as_mut_ptr(), answer.len())
}

pub fn make_length(s: &mut Store, t: u32, answer: &mut [u32; ANSWER]) -> u32 {
    length(s, t, answer.as_mut_ptr(), answer.len())
}

pub fn make_equation(s: &mut Store, t: u32, u: u32, answer: &mut [u32; ANSWER]) -> u32 {
    equation(s, t, u, answer.as_mut_ptr(), answer.len())
}

pub fn find(s: &Store, t: u32, answer: &mut [u32; ANSWER]) -> u32 {
    root(s, t, answer.as_mut_ptr(), answer.len())
}

pub fn explain(s: &mut Store, a: u32, b: u32) -> u32 {
    reasons_of(s, a, b)
}

// the words of `marks` stand apart from the store's own, so that a call is lent both
pub fn join(s: &mut Store, a: u32, b: u32, kind: u32, number: u32, answer: &mut [u32; ANSWER]) -> u32 {
    let (marks, marks_len) = (s.marks.as_mut_ptr(), s.marks.len());
    joined(s, marks, marks_len, a, b, kind, number, answer.as_mut_ptr(), answer.len())
}

pub fn set_mark(s: &mut Store, answer: &mut [u32; ANSWER]) -> u32 {
    let (marks, marks_len) = (s.marks.as_mut_ptr(), s.marks.len());
    marked(s, marks, marks_len, answer.as_mut_ptr(), answer.len())
}

pub fn go_back(s: &mut Store, mark: u32) -> u32 {
    let (marks, marks_len) = (s.marks.as_ptr(), s.marks.len());
    gone_back(s, marks, marks_len, mark)
}

pub fn normal_form(s: &mut Store, known: &[u32], t: u32, list: &mut [u32], answer: &mut [u32; ANSWER]) -> u32 {
    form(s, known.as_ptr(), known.len(), t, list.as_mut_ptr(), list.len(), answer.as_mut_ptr(), answer.len())
}

pub fn deep_normal_form(s: &mut Store, known: &[u32], t: u32, list: &mut [u32], answer: &mut [u32; ANSWER]) -> u32 {
    deep_form(s, known.as_ptr(), known.len(), t, list.as_mut_ptr(), list.len(), answer.as_mut_ptr(), answer.len())
}

pub fn resolve_equation(s: &mut Store, lhs: &[u32], rhs: &[u32], guard: i32, list: &mut [u32], answer: &mut [u32; ANSWER]) -> u32 {
    resolved(s, lhs.as_ptr(), lhs.len(), rhs.as_ptr(), rhs.len(), guard, list.as_mut_ptr(), list.len(), answer.as_mut_ptr(), answer.len())
}

pub fn empty_parts(s: &mut Store, lhs: &[u32], rhs: &[u32], list: &mut [u32], answer: &mut [u32; ANSWER]) -> u32 {
    parts(s, lhs.as_ptr(), lhs.len(), rhs.as_ptr(), rhs.len(), list.as_mut_ptr(), list.len(), answer.as_mut_ptr(), answer.len())
}

pub fn forced_length(s: &Store, lhs: &[u32], rhs: &[u32], answer: &mut [u32; ANSWER]) -> u32 {
    forced(s, lhs.as_ptr(), lhs.len(), rhs.as_ptr(), rhs.len(), answer.as_mut_ptr(), answer.len())
}

pub fn nf_equal(s: &Store, lhs: &[u32], rhs: &[u32], answer: &mut [u32; ANSWER]) -> u32 {
    equal(s, lhs.as_ptr(), lhs.len(), rhs.as_ptr(), rhs.len(), answer.as_mut_ptr(), answer.len())
}

pub fn nf_equal_explain(s: &mut Store, lhs: &[u32], rhs: &[u32]) -> u32 {
    reasons_of_lists(s, lhs.as_ptr(), lhs.len(), rhs.as_ptr(), rhs.len())
}

pub fn step(s: &mut Store, known: &[u32], e: u32, guard: i32, list: &mut [u32], answer: &mut [u32; ANSWER]) -> u32 {
    stepped(s, known.as_ptr(), known.len(), e, guard, list.as_mut_ptr(), list.len(), answer.as_mut_ptr(), answer.len())
}
