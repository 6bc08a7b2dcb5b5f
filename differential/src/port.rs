//! The port's static library, called as a C caller would. Every slice stands between fences, so that a word written beside it shows.

use crate::{
    call::*,
    lent::Lent,
    marks::{Act, Marked, Told},
};

macro_rules! interface {
    ($($symbol:tt $name:ident($($arg:ident: $ty:ty),*);)*) => {
        $(
            #[cfg(exports = $symbol)]
            extern "C" {
                fn $name(
                    state: *mut u32, state_len: usize,
                    terms: *mut u32, terms_len: usize,
                    cells: *mut u32, cells_len: usize,
                    chars: *mut u32, chars_len: usize,
                    reasons: *mut u32, reasons_len: usize,
                    keys: *mut u32, keys_len: usize,
                    $($arg: $ty),*
                ) -> u32;
            }

            #[cfg(not(exports = $symbol))]
            #[allow(clippy::too_many_arguments)]
            unsafe fn $name(
                _: *mut u32, _: usize, _: *mut u32, _: usize, _: *mut u32, _: usize,
                _: *mut u32, _: usize, _: *mut u32, _: usize, _: *mut u32, _: usize,
                $(_: $ty),*
            ) -> u32 {
                ABSENT
            }
        )*
    };
}

/// The result of a call that the library does not have.
pub const ABSENT: u32 = 0xABAB_ABAB;

interface! {
    "labels_audit" labels_audit();
    "labels_make_constant" labels_make_constant(text: *const u32, text_len: usize, answer: *mut u32, answer_len: usize);
    "labels_make_variable" labels_make_variable(name: *const u32, name_len: usize, answer: *mut u32, answer_len: usize);
    "labels_make_concatenation" labels_make_concatenation(parts: *const u32, parts_len: usize, answer: *mut u32, answer_len: usize);
    "labels_make_length" labels_make_length(t: u32, answer: *mut u32, answer_len: usize);
    "labels_make_equation" labels_make_equation(t: u32, u: u32, answer: *mut u32, answer_len: usize);
    "labels_find" labels_find(t: u32, answer: *mut u32, answer_len: usize);
    "labels_explain" labels_explain(a: u32, b: u32);
    "labels_normal_form" labels_normal_form(known: *const u32, known_len: usize, t: u32, list: *mut u32, list_len: usize, answer: *mut u32, answer_len: usize);
    "labels_deep_normal_form" labels_deep_normal_form(known: *const u32, known_len: usize, t: u32, list: *mut u32, list_len: usize, answer: *mut u32, answer_len: usize);
    "labels_resolve_equation" labels_resolve_equation(lhs: *const u32, lhs_len: usize, rhs: *const u32, rhs_len: usize, guard: i32, list: *mut u32, list_len: usize, answer: *mut u32, answer_len: usize);
    "labels_step" labels_step(known: *const u32, known_len: usize, equation: u32, guard: i32, list: *mut u32, list_len: usize, answer: *mut u32, answer_len: usize);
    "labels_nf_equal" labels_nf_equal(lhs: *const u32, lhs_len: usize, rhs: *const u32, rhs_len: usize, answer: *mut u32, answer_len: usize);
    "labels_nf_equal_explain" labels_nf_equal_explain(lhs: *const u32, lhs_len: usize, rhs: *const u32, rhs_len: usize);
    "labels_empty_parts" labels_empty_parts(lhs: *const u32, lhs_len: usize, rhs: *const u32, rhs_len: usize, list: *mut u32, list_len: usize, answer: *mut u32, answer_len: usize);
    "labels_forced_length" labels_forced_length(lhs: *const u32, lhs_len: usize, rhs: *const u32, rhs_len: usize, answer: *mut u32, answer_len: usize);
    "labels_join" labels_join(marks: *mut u32, marks_len: usize, a: u32, b: u32, kind: u32, number: u32, answer: *mut u32, answer_len: usize);
    "labels_set_mark" labels_set_mark(marks: *mut u32, marks_len: usize, answer: *mut u32, answer_len: usize);
    "labels_go_back" labels_go_back(marks: *mut u32, marks_len: usize, mark: u32);
}

const FENCE: u32 = 0xFEFE_FEFE;
const WIDTH: usize = 16;

struct Fenced(Vec<u32>);

impl Fenced {
    fn new(words: &[u32]) -> Self {
        let mut all = vec![FENCE; WIDTH];
        all.extend_from_slice(words);
        all.extend([FENCE; WIDTH]);
        Fenced(all)
    }

    fn slice(&mut self) -> &mut [u32] {
        let n = self.0.len() - WIDTH;
        &mut self.0[WIDTH..n]
    }

    fn taken(self) -> Vec<u32> {
        let n = self.0.len() - WIDTH;
        let fences = self.0[..WIDTH].iter().chain(&self.0[n..]);
        assert!(fences.copied().all(|w| w == FENCE), "a word was written outside its slice");
        self.0[WIDTH..n].to_vec()
    }
}

/// The lent slices and the answer's, for calls that are timed: nothing is copied by a call.
pub struct Lending<'a> {
    pub store: &'a mut Lent,
    pub list: &'a mut [u32],
    pub answer: &'a mut [u32],
}

pub fn call(l: &mut Lending, call: &Call) -> u32 {
    let s = &mut *l.store;
    raw([&mut s.state, &mut s.terms, &mut s.cells, &mut s.chars, &mut s.reasons, &mut s.keys], l.list, l.answer, call)
}

// a call with the store's six slices before its own arguments
macro_rules! lent {
    ($store:ident, $f:ident $(, $arg:expr)*) => {{
        let [state, terms, cells, chars, reasons, keys] = $store;
        unsafe {
            $f(
                state.as_mut_ptr(), state.len(),
                terms.as_mut_ptr(), terms.len(),
                cells.as_mut_ptr(), cells.len(),
                chars.as_mut_ptr(), chars.len(),
                reasons.as_mut_ptr(), reasons.len(),
                keys.as_mut_ptr(), keys.len(),
                $($arg),*
            )
        }
    }};
}

fn raw(store: [&mut [u32]; 6], list: &mut [u32], answer: &mut [u32], call: &Call) -> u32 {
    macro_rules! with_store {
        ($f:ident $(, $arg:expr)*) => {
            lent!(store, $f $(, $arg)*)
        };
    }
    let (a, n) = (answer.as_mut_ptr(), answer.len());
    let (l, m) = (list.as_mut_ptr(), list.len());
    match call {
        Call::Audit => with_store!(labels_audit),
        Call::MakeConstant { text } => with_store!(labels_make_constant, text.as_ptr(), text.len(), a, n),
        Call::MakeVariable { name } => with_store!(labels_make_variable, name.as_ptr(), name.len(), a, n),
        Call::MakeConcatenation { parts } => with_store!(labels_make_concatenation, parts.as_ptr(), parts.len(), a, n),
        Call::MakeLength { t } => with_store!(labels_make_length, *t, a, n),
        Call::MakeEquation { t, u } => with_store!(labels_make_equation, *t, *u, a, n),
        Call::Find { t } => with_store!(labels_find, *t, a, n),
        Call::Explain { a, b } => with_store!(labels_explain, *a, *b),
        Call::NormalForm { known, t } => with_store!(labels_normal_form, known.as_ptr(), known.len(), *t, l, m, a, n),
        Call::DeepNormalForm { known, t } => with_store!(labels_deep_normal_form, known.as_ptr(), known.len(), *t, l, m, a, n),
        Call::ResolveEquation { lhs, rhs, guard } => {
            with_store!(labels_resolve_equation, lhs.as_ptr(), lhs.len(), rhs.as_ptr(), rhs.len(), *guard, l, m, a, n)
        }
        Call::Step { known, equation, guard } => {
            with_store!(labels_step, known.as_ptr(), known.len(), *equation, *guard, l, m, a, n)
        }
        Call::NfEqual { lhs, rhs } => with_store!(labels_nf_equal, lhs.as_ptr(), lhs.len(), rhs.as_ptr(), rhs.len(), a, n),
        Call::NfEqualExplain { lhs, rhs } => with_store!(labels_nf_equal_explain, lhs.as_ptr(), lhs.len(), rhs.as_ptr(), rhs.len()),
        Call::EmptyParts { lhs, rhs } => {
            with_store!(labels_empty_parts, lhs.as_ptr(), lhs.len(), rhs.as_ptr(), rhs.len(), l, m, a, n)
        }
        Call::ForcedLength { lhs, rhs } => with_store!(labels_forced_length, lhs.as_ptr(), lhs.len(), rhs.as_ptr(), rhs.len(), a, n),
    }
}

/// None where the library does not have the call.
pub fn run(s: &Lent, request: &Request) -> Option<Outcome> {
    let mut store = [&s.state, &s.terms, &s.cells, &s.chars, &s.reasons, &s.keys].map(|w| Fenced::new(w));
    let mut list = Fenced::new(&vec![BLANK; request.list_room]);
    let mut answer = Fenced::new(&vec![BLANK; request.answer_room]);
    let code = raw(store.each_mut().map(|f| f.slice()), list.slice(), answer.slice(), &request.call);
    let [state, terms, cells, chars, reasons, keys] = store.map(Fenced::taken);
    let exit = Lent { state, terms, cells, chars, reasons, keys };
    (code != ABSENT).then(|| Outcome { code, answer: answer.taken(), list: list.taken(), exit })
}

fn raw_act(store: [&mut [u32]; 6], marks: &mut [u32], answer: &mut [u32], act: &Act) -> u32 {
    let (m, k) = (marks.as_mut_ptr(), marks.len());
    let (w, n) = (answer.as_mut_ptr(), answer.len());
    match *act {
        Act::Join { a, b, kind, number } => lent!(store, labels_join, m, k, a, b, kind, number, w, n),
        Act::SetMark => lent!(store, labels_set_mark, m, k, w, n),
        Act::GoBack { mark } => lent!(store, labels_go_back, m, k, mark),
    }
}

/// For calls that are timed: nothing is copied.
pub fn act(s: &mut Marked, answer: &mut [u32], act: &Act) -> u32 {
    let l = &mut s.store;
    raw_act([&mut l.state, &mut l.terms, &mut l.cells, &mut l.chars, &mut l.reasons, &mut l.keys], &mut s.marks, answer, act)
}

/// None where the library does not have the call.
pub fn run_act(s: &Marked, act: &Act, answer_room: usize) -> Option<Told> {
    let l = &s.store;
    let mut store = [&l.state, &l.terms, &l.cells, &l.chars, &l.reasons, &l.keys].map(|w| Fenced::new(w));
    let mut marks = Fenced::new(&s.marks);
    let mut answer = Fenced::new(&vec![BLANK; answer_room]);
    let code = raw_act(store.each_mut().map(|f| f.slice()), marks.slice(), answer.slice(), act);
    let [state, terms, cells, chars, reasons, keys] = store.map(Fenced::taken);
    let exit = Marked { store: Lent { state, terms, cells, chars, reasons, keys }, marks: marks.taken() };
    (code != ABSENT).then(|| Told { code, answer: answer.taken(), exit })
}
