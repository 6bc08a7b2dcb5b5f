//! Stand-ins for the engine's types.

use rustc_hash::FxHashSet;
use shinri_core::{refuse, Lit};
use std::cell::{Cell, RefCell};

#[derive(Clone, Copy, PartialEq, Eq, Hash, PartialOrd, Ord, Debug)]
pub struct ENodeId(u32);

impl ENodeId {
    #[inline]
    pub fn new(number: u32) -> Self {
        ENodeId(number)
    }

    #[inline]
    pub fn index(self) -> usize {
        self.0 as usize
    }
}

#[derive(Clone, Copy, PartialEq, Eq, Debug)]
pub struct InterfaceId(pub u32);

#[derive(Clone, Copy, PartialEq, Eq, Debug)]
pub struct CongRef {
    pub start: u32,
    pub len: u32,
}

#[derive(Clone, Copy, PartialEq, Eq, Debug)]
pub enum EqJust {
    Asserted(Lit),
    Interface(InterfaceId),
    Congruence(CongRef),
    Definitional,
}

pub struct EqConflict {
    pub a: ENodeId,
    pub b: ENodeId,
    pub diseq: EqJust,
    pub diseq_lhs: ENodeId,
    pub diseq_rhs: ENodeId,
}

pub struct MergeEvent {
    pub a: ENodeId,
    pub b: ENodeId,
}

/// A reason: its kind and its number. The two constructors are functions, so that refusal 7 is met when the reason is made.
#[derive(Clone, Copy, PartialEq, Eq, Hash, Debug)]
pub struct EqLeaf {
    pub kind: u32,
    pub number: u32,
}

/// Reasons made: with repetitions, and those that the list lacked.
#[derive(Clone, Copy, PartialEq, Eq, Debug, Default)]
pub struct Made {
    pub all: usize,
    pub new: usize,
}

// the list that a call adds to, each reason once, and how many more it holds
#[derive(Default)]
struct Listed {
    held: FxHashSet<EqLeaf>,
    left: usize,
    made: Made,
}

thread_local! {
    static COUNTING: Cell<bool> = const { Cell::new(false) };
    static LISTED: RefCell<Listed> = RefCell::default();
}

/// Refusal 7 is met from here on where a reason is made that the list lacks and `left` others were before it.
pub fn count_reasons(incoming: &[EqLeaf], left: usize) {
    COUNTING.set(true);
    LISTED.set(Listed { held: incoming.iter().copied().collect(), left, made: Made::default() });
}

/// For timing: reasons are made and not counted.
pub fn leave_reasons() {
    COUNTING.set(false);
}

pub fn made() -> Made {
    LISTED.with_borrow(|l| l.made)
}

impl Listed {
    // whether it is there or finds room
    fn take(&mut self, r: EqLeaf) -> bool {
        self.made.all += 1;
        if !self.held.insert(r) {
            return true;
        }
        self.made.new += 1;
        self.made.new <= self.left
    }
}

#[allow(non_snake_case)]
impl EqLeaf {
    #[inline]
    pub fn Asserted(l: Lit) -> Self {
        EqLeaf::counted(1, l.number() as u32)
    }

    #[inline]
    pub fn Interface(j: InterfaceId) -> Self {
        EqLeaf::counted(2, j.0)
    }

    #[inline]
    fn counted(kind: u32, number: u32) -> Self {
        let r = EqLeaf { kind, number };
        if COUNTING.get() && !LISTED.with_borrow_mut(|l| l.take(r)) {
            refuse(7);
        }
        r
    }
}
