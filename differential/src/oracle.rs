//! The unchanged Rust, answering in the terms of the port's C interface.
//!
//! Around it stand the audit, the argument checks and document 01's limits. The resolver is left by unwinding where it meets a
//! limit. The two departures are laid on top: each is found by the unchanged tests of steps 2 and 5 on the stripped lists.

use crate::{
    audit::{audit, is_char},
    call::*,
    lent::*,
};
use rustc_hash::FxHashSet;
use shinri_core::{refuse, BuiltinOp, ConstVal, Context, Left, Lit, Op, Refusal, TermId, TermNode};
use shinri_str::{
    normalize,
    wordeq::{self, StepResult},
};
use shinri_theory::{
    eq_engine::LentLabel,
    types::{count_reasons, leave_reasons, made, EqJust, EqLeaf, Made},
    EqualityEngine,
};
use std::panic::{catch_unwind, resume_unwind, AssertUnwindSafe};

/// How often a departure changed what the Rust said.
#[derive(Clone, Copy, PartialEq, Eq, Debug, Default)]
pub struct Departures {
    /// A, no two places: the Rust's Conflict in step 2 is none
    pub passed: u32,
    /// A, two places: the Conflict stands and explains the occurrence
    pub occurrence: u32,
    /// B: a Conflict of step 5 over two or more variable places explains the later ones
    pub forced: u32,
}

#[derive(Clone, Copy, PartialEq, Eq, Debug)]
pub enum Mode {
    /// as the Rust says
    Unchanged,
    /// with departures A and B
    Departing,
}

/// What it changes that a list takes each reason once.
#[derive(Clone, Copy, PartialEq, Eq, Debug, Default)]
pub struct Once {
    /// with its repetitions the list would have been full: refusal 7 without Note 4
    pub seven: bool,
    /// a Split is held back by a stripped match, and the list had all reasons of such matches
    pub held_back: bool,
}

#[derive(Clone, PartialEq, Eq, Debug)]
pub struct Answer {
    pub outcome: Outcome,
    pub departures: Departures,
    pub once: Once,
}

pub fn find(s: &Lent, t: u32) -> Answer {
    run(s, &Request::new(Call::Find { t }), Mode::Departing)
}

pub fn explain(s: &Lent, a: u32, b: u32) -> Answer {
    run(s, &Request::new(Call::Explain { a, b }), Mode::Departing)
}

pub fn normal_form(s: &Lent, known: &[u32], t: u32) -> Answer {
    run(s, &Request::new(Call::NormalForm { known: known.to_vec(), t }), Mode::Departing)
}

pub fn deep_normal_form(s: &Lent, known: &[u32], t: u32) -> Answer {
    run(s, &Request::new(Call::DeepNormalForm { known: known.to_vec(), t }), Mode::Departing)
}

pub fn resolve_equation(s: &Lent, lhs: &[u32], rhs: &[u32], guard: i32, mode: Mode) -> Answer {
    run(s, &Request::new(Call::ResolveEquation { lhs: lhs.to_vec(), rhs: rhs.to_vec(), guard }), mode)
}

pub fn step(s: &Lent, known: &[u32], equation: u32, guard: i32, mode: Mode) -> Answer {
    run(s, &Request::new(Call::Step { known: known.to_vec(), equation, guard }), mode)
}

pub fn nf_equal(s: &Lent, lhs: &[u32], rhs: &[u32]) -> Answer {
    run(s, &Request::new(Call::NfEqual { lhs: lhs.to_vec(), rhs: rhs.to_vec() }), Mode::Departing)
}

pub fn nf_equal_explain(s: &Lent, lhs: &[u32], rhs: &[u32]) -> Answer {
    run(s, &Request::new(Call::NfEqualExplain { lhs: lhs.to_vec(), rhs: rhs.to_vec() }), Mode::Departing)
}

/// The refusal of 1 to 5 or 12 that is due before any work, or 0.
pub fn refused_at_entry(s: &Lent, request: &Request) -> u32 {
    let call = &request.call;
    if call.answers_a_list() && request.list_room < LIST || call.has_answer_words() && request.answer_room < 8 {
        return 1;
    }
    match audit(s) {
        0 if *call == Call::Audit || arguments(s, call) => 0,
        0 => 5,
        k => k,
    }
}

fn arguments(s: &Lent, call: &Call) -> bool {
    let strings = |l: &[u32]| l.len() <= LIST && l.iter().all(|&t| s.is_string(t));
    let guarded = |g: i32| g != 0 && g != i32::MIN;
    match call {
        Call::Audit => true,
        Call::MakeConstant { text } => text.iter().all(|&c| is_char(c)),
        Call::MakeVariable { name } => !name.is_empty() && name.iter().all(|&c| is_char(c)),
        Call::MakeConcatenation { parts } => parts.len() >= 2 && strings(parts),
        Call::MakeLength { t } | Call::Find { t } => s.is_string(*t),
        Call::MakeEquation { t, u } => s.is_string(*t) && s.is_string(*u) || s.kind(*t) == LENGTH && s.kind(*u) == LENGTH,
        Call::Explain { a, b } => s.is_string(*a) && s.is_string(*b) && s.class_root(*a) == s.class_root(*b),
        Call::NormalForm { known, t } | Call::DeepNormalForm { known, t } => strings(known) && s.is_string(*t),
        Call::ResolveEquation { lhs, rhs, guard } => strings(lhs) && strings(rhs) && guarded(*guard),
        Call::Step { known, equation, guard } => {
            let e = *equation;
            strings(known) && s.kind(e) == EQUATION && s.is_string(s.term(e).first) && guarded(*guard)
        }
        Call::NfEqual { lhs, rhs } | Call::EmptyParts { lhs, rhs } | Call::ForcedLength { lhs, rhs } => strings(lhs) && strings(rhs),
        Call::NfEqualExplain { lhs, rhs } => strings(lhs) && strings(rhs) && lhs.len() == rhs.len(),
    }
}

pub fn run(s: &Lent, request: &Request, mode: Mode) -> Answer {
    let code = refused_at_entry(s, request);
    let idle = |code, departures, once| Answer { outcome: Outcome::idle(s, request, code), departures, once };
    if code != 0 || request.call == Call::Audit {
        return idle(code, Departures::default(), Once::default());
    }
    let mut world = World::load(s);
    let ran = catch_unwind(AssertUnwindSafe(|| work(&mut world, s, &request.call, mode)));
    let once = Once { seven: made().all > s.room()[3] - s.state[3] as usize, held_back: world.held_back };
    // a key is added before any term is made, so a key too many was met first
    if world.keys.len() > world.entry_keys.len() && s.state[4] as usize >= s.room()[4] {
        return idle(8, world.departures, once);
    }
    match ran {
        Ok((answer, list)) => {
            let mut outcome = Outcome::idle(s, request, 0);
            outcome.answer[..answer.len()].copy_from_slice(&answer);
            outcome.list[..list.len()].copy_from_slice(&list);
            world.unload(&mut outcome.exit);
            Answer { outcome, departures: world.departures, once }
        }
        Err(payload) => match payload.downcast::<Refusal>() {
            Ok(refusal) => idle(refusal.0, world.departures, once),
            Err(other) => resume_unwind(other),
        },
    }
}

/// The resolver's own structures, loaded from a lent store.
pub struct World {
    pub terms: Context,
    pub eq: EqualityEngine,
    pub reasons: Vec<EqLeaf>,
    pub keys: FxHashSet<(TermId, TermId)>,
    pub names: u32,
    entry_keys: FxHashSet<(TermId, TermId)>,
    departures: Departures,
    held_back: bool,
}

pub fn id(t: u32) -> TermId {
    TermId::new(t)
}

pub fn ids(l: &[u32]) -> Vec<TermId> {
    l.iter().map(|&t| id(t)).collect()
}

fn numbers(l: &[TermId]) -> Vec<u32> {
    l.iter().map(|t| t.number()).collect()
}

fn string(text: &[u32]) -> String {
    text.iter().map(|&c| char::from_u32(c).expect("a character")).collect()
}

const CONCAT: Op = Op::Builtin(BuiltinOp::StrConcat);
const LEN: Op = Op::Builtin(BuiltinOp::StrLen);
const EQ: Op = Op::Builtin(BuiltinOp::Eq);

impl World {
    /// Of an audited store.
    pub fn load(s: &Lent) -> Self {
        let room = s.room();
        let left = |i: usize| room[i] - s.state[i] as usize;
        let mut terms = Context::lent(Left { terms: left(0), cells: left(1), chars: left(2) });
        let mut eq = EqualityEngine::default();
        for t in 1..=s.count() {
            let r = s.term(t);
            match r.kind {
                CONSTANT => terms.lend_constant(&string(s.text(t))),
                VARIABLE => terms.lend_variable(&string(s.text(t))),
                CONCATENATION => terms.lend_app(CONCAT, &ids(&s.parts(t))),
                LENGTH => terms.lend_app(LEN, &[id(r.first)]),
                _ => terms.lend_app(EQ, &[id(r.first), id(r.second)]),
            }
            let label = match r.label_kind {
                1 => LentLabel::Asserted(r.label_value),
                2 => LentLabel::Interface(r.label_value),
                3 => LentLabel::Congruence(s.chain(r.label_value)),
                _ => LentLabel::Definitional,
            };
            eq.lend(r.class_parent, r.forest_parent, label);
        }
        let reasons: Vec<EqLeaf> = s.reason_list().into_iter().map(|(kind, number)| EqLeaf { kind, number }).collect();
        let keys: FxHashSet<_> = s.key_list().into_iter().map(|(a, b)| (id(a), id(b))).collect();
        count_reasons(&reasons, left(3));
        World { terms, eq, reasons, entry_keys: keys.clone(), keys, names: s.state[5], departures: Departures::default(), held_back: false }
    }

    /// One call of the unchanged Rust, and back to the store as it was lent: for timing. Refusals are not looked for.
    pub fn timed(&mut self, s: &Lent, call: &Call) {
        leave_reasons();
        let ran = catch_unwind(AssertUnwindSafe(|| std::hint::black_box(work(self, s, call, Mode::Unchanged))));
        drop(ran);
        let room = s.room();
        let left = |i: usize| room[i] - s.state[i] as usize;
        self.terms.back(s.count(), Left { terms: left(0), cells: left(1), chars: left(2) });
        self.eq.back(s.count());
        self.reasons.truncate(s.state[3] as usize);
        if self.keys.len() > self.entry_keys.len() {
            self.keys = self.entry_keys.clone();
        }
        self.names = s.state[5];
    }

    // what was added, written behind what was lent
    fn unload(&self, exit: &mut Lent) {
        for t in exit.count() + 1..=self.terms.count() {
            match self.terms.term_node(id(t)) {
                TermNode::Const { val: ConstVal::String(text) } => {
                    let text: Vec<u32> = text.chars().map(u32::from).collect();
                    let place = exit.add_text(&text);
                    exit.add_term(CONSTANT, place, text.len() as u32);
                }
                TermNode::App { op: Op::Uninterpreted(symbol), .. } => {
                    let name: Vec<u32> = self.terms.symbol_name(*symbol).chars().map(u32::from).collect();
                    let place = exit.add_text(&name);
                    exit.add_term(VARIABLE, place, name.len() as u32);
                }
                TermNode::App { op, args } => {
                    let l = numbers(self.terms.operands(*args));
                    if *op == CONCAT {
                        let values: Vec<Pair> = l.iter().map(|&t| (t, 0)).collect();
                        let first = exit.add_chain(&values);
                        exit.add_term(CONCATENATION, first, 0);
                    } else if *op == LEN {
                        exit.add_term(LENGTH, l[0], 0);
                    } else {
                        exit.add_term(EQUATION, l[0], l[1]);
                    }
                }
            }
        }
        // 'after dropping each reason that its list already held'; what came in stays as it is
        let (incoming, more) = self.reasons.split_at(exit.state[3] as usize);
        let mut held: FxHashSet<EqLeaf> = incoming.iter().copied().collect();
        for &r in more {
            if held.insert(r) {
                exit.add_reason((r.kind, r.number));
            }
        }
        // one call adds one key at most
        for k in self.keys.difference(&self.entry_keys) {
            exit.add_key((k.0.number(), k.1.number()));
        }
        exit.state[5] = self.names;
    }

    fn is_concat(&self, t: TermId) -> bool {
        matches!(self.terms.term_node(t), TermNode::App { op, .. } if *op == CONCAT)
    }

    fn is_constant(&self, t: TermId) -> bool {
        self.terms.string_const_value(t).is_some()
    }

    fn chars(&self, t: TermId) -> Vec<char> {
        self.terms.string_const_value(t).map_or_else(Vec::new, |s| s.chars().collect())
    }

    fn explain(&mut self, a: TermId, b: TermId) {
        let (a, b) = (self.eq.intern(a), self.eq.intern(b));
        self.eq.explain(a, b, &mut self.reasons);
    }
}

/// The answer's words and the list.
type Words = (Vec<u32>, Vec<u32>);

fn work(w: &mut World, s: &Lent, call: &Call, mode: Mode) -> Words {
    let made = |t: TermId| (vec![t.number()], vec![]);
    match call {
        Call::Audit => (vec![], vec![]),
        Call::MakeConstant { text } => made(w.terms.mk_string_const(&string(text))),
        Call::MakeVariable { name } => {
            let name = string(name);
            // no call of the resolver: any name is looked up
            match (1..=s.count()).find(|&t| s.kind(t) == VARIABLE && string(s.text(t)) == name) {
                Some(t) => made(id(t)),
                None => {
                    let sort = w.terms.string_sort();
                    let symbol = w.terms.declare_fun(&name, &[], sort);
                    made(w.terms.mk_app(Op::Uninterpreted(symbol), &[]).unwrap())
                }
            }
        }
        Call::MakeConcatenation { parts } => made(w.terms.mk_app(CONCAT, &ids(parts)).unwrap()),
        Call::MakeLength { t } => made(w.terms.mk_app(LEN, &[id(*t)]).unwrap()),
        Call::MakeEquation { t, u } => made(w.terms.mk_eq(id(*t), id(*u)).unwrap()),
        Call::Find { t } => {
            let n = w.eq.intern(id(*t));
            (vec![w.eq.find(n).index() as u32], vec![])
        }
        Call::Explain { a, b } => {
            w.explain(id(*a), id(*b));
            (vec![], vec![])
        }
        Call::NormalForm { known, t } => {
            let list = normalize::normal_form_with_reasons(&mut w.terms, &mut w.eq, &ids(known), id(*t), &mut w.reasons);
            (vec![1, list.len() as u32], numbers(&list))
        }
        Call::DeepNormalForm { known, t } => match deep(w, &ids(known), id(*t)) {
            Some(list) => (vec![1, list.len() as u32], numbers(&list)),
            None => (vec![0, 0], vec![]),
        },
        Call::ResolveEquation { lhs, rhs, guard } => {
            let incoming = w.reasons.len();
            answered(w, &ids(lhs), &ids(rhs), *guard, mode, incoming)
        }
        Call::Step { known, equation, guard } => {
            let entry = w.reasons.len();
            let known = ids(known);
            let e = s.term(*equation);
            let sides = match deep(w, &known, id(e.first)) {
                Some(l) => deep(w, &known, id(e.second)).map(|r| (l, r)),
                None => None,
            };
            let Some((l, r)) = sides else {
                w.reasons.truncate(entry);
                return (vec![UNEXPANDED], vec![]);
            };
            let words = answered(w, &l, &r, *guard, mode, w.reasons.len());
            if words.0[0] == DONE {
                w.reasons.truncate(entry);
            }
            words
        }
        Call::NfEqual { lhs, rhs } => (vec![wordeq::nf_equal(&mut w.terms, &mut w.eq, &ids(lhs), &ids(rhs)) as u32], vec![]),
        Call::NfEqualExplain { lhs, rhs } => {
            wordeq::nf_equal_explain(&mut w.terms, &mut w.eq, &ids(lhs), &ids(rhs), &mut w.reasons);
            (vec![], vec![])
        }
        Call::EmptyParts { lhs, rhs } => repeated(w, &ids(lhs), &ids(rhs)),
        Call::ForcedLength { lhs, rhs } => fitted(w, &ids(lhs), &ids(rhs)),
    }
}

fn deep(w: &mut World, known: &[TermId], t: TermId) -> Option<Vec<TermId>> {
    normalize::deep_normal_form_with_reasons(&mut w.terms, &mut w.eq, known, t, &mut w.reasons)
}

/// The Rust's Split has no number of terms made: it is how much its arena grew within the call, so that terms of the normal forms, which are made
/// before, are left out.
fn answered(w: &mut World, lhs: &[TermId], rhs: &[TermId], guard: i32, mode: Mode, incoming: usize) -> Words {
    let before = w.terms.count();
    let result = resolve(w, lhs, rhs, Lit::new(guard), mode);
    let mut list = vec![];
    let answer = match result {
        StepResult::Done => vec![DONE],
        StepResult::Saturated => vec![SATURATED],
        StepResult::Conflict(just) => {
            w.reasons = just;
            return (vec![CONFLICT], list);
        }
        StepResult::Propagate { var, word, just, link_len } => {
            w.reasons = just;
            return (vec![PROPAGATE, var.number(), word.number(), link_len as u32], list);
        }
        StepResult::Split { atoms, guard } => {
            list = numbers(&atoms);
            vec![SPLIT, atoms.len() as u32, guard.number() as u32, w.terms.count() - before]
        }
    };
    w.reasons.truncate(incoming);
    (answer, list)
}

/// Whether a list has a concatenation; refusal 6 where a flattened list has too many atoms.
fn flattens(w: &World, lhs: &[TermId], rhs: &[TermId]) -> bool {
    for side in [lhs, rhs] {
        if side.iter().map(|&t| w.terms.atoms(t) as u64).sum::<u64>() > shinri_core::LIST as u64 {
            refuse(6);
        }
    }
    lhs.iter().chain(rhs).any(|&t| w.is_concat(t))
}

/// Document 02's Note 3 by repetition: `resolve_equation` on the same two lists, and each Propagate's two terms merged in the engine before the
/// next call, up to a call that gives no Propagate. Lists of another form are not asked about: 'for other lists it only returns none'.
fn repeated(w: &mut World, lhs: &[TermId], rhs: &[TermId]) -> Words {
    flattens(w, lhs, rhs);
    if !is_label(w, lhs, rhs) {
        return (vec![0, 0, 0], vec![]);
    }
    let mut listed = vec![];
    while let StepResult::Propagate { var, word, just, link_len } = unchanged(w, lhs, rhs, Lit::new(1)) {
        // a call that propagates has made ""
        assert!(link_len && just == w.reasons && word == w.terms.mk_string_const(""), "a Propagate of another step");
        let (v, e) = (w.eq.intern(var), w.eq.intern(word));
        assert!(!w.eq.are_equal(v, e), "a Propagate of terms in one class");
        assert!(w.eq.merge(v, e, EqJust::Asserted(Lit::new(1))).is_ok(), "no disequality was asserted");
        listed.push(var);
    }
    // and so has one that finds them all there
    let count = w.terms.count();
    let empty = w.terms.mk_string_const("");
    assert_eq!(w.terms.count(), count, "an ordinary call that does not make \"\"");
    (vec![listed.len() as u32, empty.number(), !listed.is_empty() as u32], numbers(&listed))
}

/// 'one flattened list is empty and the other is two or more variables'
fn is_label(w: &World, lhs: &[TermId], rhs: &[TermId]) -> bool {
    let [l, r] = [lhs, rhs].map(|list| wordeq::flattened(&w.terms, list));
    let one_empty = l.is_empty() || r.is_empty();
    one_empty && l.len() + r.len() >= 2 && l.iter().chain(&r).all(|&t| !w.is_constant(t))
}

/// Document 02's Note 6 on the lists that the Rust's own tests flatten and strip; 11 where what is left has another form.
fn fitted(w: &mut World, lhs: &[TermId], rhs: &[TermId]) -> Words {
    flattens(w, lhs, rhs);
    let seen = look(w, lhs, rhs);
    let Some((word, side)) = [(&seen.lhs, &seen.rhs), (&seen.rhs, &seen.lhs)].into_iter().find(|(word, side)| one_class(w, word, side)) else {
        refuse(11)
    };
    let letters = |w: &World, l: &[TermId]| l.iter().map(|&t| w.chars(t).len() as u32).sum::<u32>();
    let (k, c, l) = (side.iter().filter(|&&t| !w.is_constant(t)).count() as u32, letters(w, side), letters(w, word));
    let span = if l < c { [1, c - l, 0] } else { [0, (l - c) / k, (l - c) % k] };
    (vec![span[0], k, c, l, span[1], span[2]], vec![])
}

/// Step 5's conditions: 'One side constant, the other holding one variable class'.
fn one_class(w: &mut World, word: &[TermId], side: &[TermId]) -> bool {
    let variables: Vec<TermId> = side.iter().copied().filter(|&t| !w.is_constant(t)).collect();
    word.iter().all(|&t| w.is_constant(t))
        && !variables.is_empty()
        && variables.iter().all(|&v| wordeq::atoms_same(&mut w.terms, &mut w.eq, v, variables[0]))
}

fn resolve(w: &mut World, lhs: &[TermId], rhs: &[TermId], guard: Lit, mode: Mode) -> StepResult {
    let flattens = flattens(w, lhs, rhs);
    if mode == Mode::Unchanged {
        return unchanged(w, lhs, rhs, guard);
    }
    let seen = look(w, lhs, rhs);
    let before = made();
    let reported = match &seen.step {
        Seen::OccursOnce => {
            w.departures.passed += 1;
            let result = passed(w, &seen, guard);
            w.held_back = held_back(w, &seen, &result, before);
            return result;
        }
        Seen::Occurs(pair) => {
            w.departures.occurrence += 1;
            vec![*pair]
        }
        Seen::Forced(pairs) => {
            w.departures.forced += (!pairs.is_empty()) as u32;
            pairs.clone()
        }
        Seen::OtherConflict => vec![],
        Seen::NoConflict => {
            let result = unchanged(w, lhs, rhs, guard);
            assert!(!matches!(result, StepResult::Conflict(_)), "a Conflict of no known step");
            w.held_back = held_back(w, &seen, &result, before);
            return result;
        }
    };
    match unchanged(w, lhs, rhs, guard) {
        StepResult::Conflict(just) => w.reasons = just,
        StepResult::Saturated if flattens => {}
        other => panic!("a Conflict expected: {other:?}"),
    }
    for (a, b) in reported {
        w.explain(a, b);
    }
    if flattens {
        StepResult::Saturated
    } else {
        StepResult::Conflict(w.reasons.clone())
    }
}

// the Rust's own list grew over step 1, so that no Split follows; one without repetitions did not grow, and the key is free
fn held_back(w: &World, seen: &Look, result: &StepResult, before: Made) -> bool {
    let after = made();
    let ([a, ..], [b, ..]) = (&seen.lhs[..], &seen.rhs[..]) else { return false };
    let key = (*a.min(b), *a.max(b));
    matches!(result, StepResult::Saturated) && after.all > before.all && after.new == before.new && !w.keys.contains(&key)
}

fn unchanged(w: &mut World, lhs: &[TermId], rhs: &[TermId], guard: Lit) -> StepResult {
    let just = w.reasons.clone();
    wordeq::resolve_equation(&mut w.terms, &mut w.eq, lhs, rhs, just, guard, &mut w.names, &mut w.keys)
}

/// Which step of the unchanged Rust gives Conflict, and what the port explains there.
enum Seen {
    /// step 2, and no occurrence has a non-empty constant at another place
    OccursOnce,
    /// step 2: the first occurrence that has one, and the lone atom
    Occurs((TermId, TermId)),
    /// step 5: each later variable with the first
    Forced(Vec<(TermId, TermId)>),
    /// step 3 or 6
    OtherConflict,
    NoConflict,
}

struct Look {
    lhs: Vec<TermId>,
    rhs: Vec<TermId>,
    // pairs that step 1 strips, in its order
    stripped: Vec<(TermId, TermId)>,
    step: Seen,
}

fn look(w: &mut World, lhs: &[TermId], rhs: &[TermId]) -> Look {
    let lhs = wordeq::flattened(&w.terms, lhs);
    let rhs = wordeq::flattened(&w.terms, rhs);
    let mut stripped = vec![];
    let (mut i, mut j, mut le, mut re) = (0, 0, lhs.len(), rhs.len());
    while i < le && j < re && wordeq::atoms_same(&mut w.terms, &mut w.eq, lhs[i], rhs[j]) {
        stripped.push((lhs[i], rhs[j]));
        i += 1;
        j += 1;
    }
    while i < le && j < re && wordeq::atoms_same(&mut w.terms, &mut w.eq, lhs[le - 1], rhs[re - 1]) {
        le -= 1;
        re -= 1;
        stripped.push((lhs[le], rhs[re]));
    }
    let (l, r) = (lhs[i..le].to_vec(), rhs[j..re].to_vec());
    let step = conflict_of(w, &l, &r);
    Look { lhs: l, rhs: r, stripped, step }
}

fn conflict_of(w: &mut World, l: &[TermId], r: &[TermId]) -> Seen {
    for (single, rest) in [(l, r), (r, l)] {
        if single.len() == 1 && !w.is_constant(single[0]) && wordeq::occurs_conflict(&mut w.terms, &mut w.eq, single[0], rest) {
            return occurrence(w, single[0], rest);
        }
    }
    if step_three(w, l, r) || step_three(w, r, l) {
        return Seen::OtherConflict;
    }
    if wordeq::forced_length_conflict(&mut w.terms, &mut w.eq, l, r) {
        let side = if l.iter().all(|&t| w.is_constant(t)) { r } else { l };
        let variables: Vec<TermId> = side.iter().copied().filter(|&t| !w.is_constant(t)).collect();
        return Seen::Forced(variables[1..].iter().map(|&v| (v, variables[0])).collect());
    }
    if !l.is_empty() && !r.is_empty() && w.is_constant(l[0]) && w.is_constant(r[0]) {
        let (a, b) = (w.chars(l[0]), w.chars(r[0]));
        if a.iter().zip(&b).any(|(x, y)| x != y) {
            return Seen::OtherConflict;
        }
    }
    Seen::NoConflict
}

fn occurrence(w: &mut World, lone: TermId, rest: &[TermId]) -> Seen {
    for (place, &a) in rest.iter().enumerate() {
        let (x, y) = (w.eq.intern(a), w.eq.intern(lone));
        let elsewhere = |i: usize| i != place && !w.chars(rest[i]).is_empty();
        if w.eq.are_equal(x, y) && (0..rest.len()).any(elsewhere) {
            return Seen::Occurs((a, lone));
        }
    }
    Seen::OccursOnce
}

// fixed: the side asked to be constant
fn step_three(w: &World, fixed: &[TermId], other: &[TermId]) -> bool {
    if !fixed.iter().all(|&t| w.is_constant(t)) {
        return false;
    }
    let word = |l: &[TermId]| -> Vec<char> { l.iter().flat_map(|&t| w.chars(t)).collect() };
    let (a, b) = (word(fixed), word(other));
    let both = other.iter().all(|&t| w.is_constant(t));
    let letters: FxHashSet<char> = a.iter().copied().collect();
    both && a != b || a.len() < b.len() || b.iter().any(|c| !letters.contains(c))
}

/// The steps after 2, for a lone variable whose occurrences are constants alone. No later step asks for a class: step 4's test against
/// "" is for an empty side, step 5 for a side of constants, and a lone variable against constants is Propagate before. So the rest is
/// the unchanged Rust on the stripped lists with every term in a class of its own, where step 2 finds nothing.
fn passed(w: &mut World, seen: &Look, guard: Lit) -> StepResult {
    let before = w.reasons.len();
    for &(a, b) in &seen.stripped {
        assert!(wordeq::strip_pair(&mut w.terms, &mut w.eq, a, b, &mut w.reasons));
    }
    let [lone, rest] = if seen.lhs.len() == 1 && !w.is_constant(seen.lhs[0]) { [&seen.lhs, &seen.rhs] } else { [&seen.rhs, &seen.lhs] };
    assert!(lone.len() == 1 && rest.len() >= 2);
    // step 7's first test is on what step 1 added
    if w.reasons.len() > before && !rest.iter().all(|&t| w.is_constant(t)) {
        return StepResult::Saturated;
    }
    let just = w.reasons.clone();
    let mut apart = EqualityEngine::default();
    let result = wordeq::resolve_stripped(&mut w.terms, &mut apart, &seen.lhs, &seen.rhs, just, guard, &mut w.names, &mut w.keys);
    assert!(!matches!(result, StepResult::Conflict(_)), "a Conflict after step 2");
    result
}
