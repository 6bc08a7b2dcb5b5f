//! Joining, marks and going back, written from document 02's Note 1 on plain vectors: the audit of lent marks, and the three calls as words.

use crate::{
    audit::{audit, is_number, table_passes},
    call::BLANK,
    lent::*,
};
use std::fmt;

/// 'At most 64 marks stand'
pub const STANDING: u32 = 64;
/// as many joins as 512 terms have room for
pub const JOINS: u32 = TERMS as u32 - 1;
/// The words lent for marks: a count of joins for each mark, then three words for each join.
pub const WORDS: usize = 64 + 3 * JOINS as usize;
/// The state's words: those of document 01, standing marks, recorded joins.
pub const STATE: usize = 8;

/// A lent store and the words lent for marks.
#[derive(Clone, PartialEq, Eq, Debug)]
pub struct Marked {
    pub store: Lent,
    pub marks: Vec<u32>,
}

#[derive(Clone, Copy, PartialEq, Eq, Debug)]
pub enum Act {
    Join { a: u32, b: u32, kind: u32, number: u32 },
    SetMark,
    GoBack { mark: u32 },
}

pub const ACTS: [&str; 3] = ["join", "set_mark", "go_back"];

impl Act {
    pub fn number(&self) -> usize {
        match self {
            Act::Join { .. } => 0,
            Act::SetMark => 1,
            Act::GoBack { .. } => 2,
        }
    }

    pub fn has_answer_words(&self) -> bool {
        !matches!(self, Act::GoBack { .. })
    }
}

/// What a call leaves: its result, the answer's words, and all that was lent.
#[derive(Clone, PartialEq, Eq, Debug)]
pub struct Told {
    pub code: u32,
    pub answer: Vec<u32>,
    pub exit: Marked,
}

impl Marked {
    /// A store with no mark standing. The words lent for marks are free.
    pub fn unmarked(mut store: Lent, marks: Vec<u32>) -> Self {
        store.state.truncate(6);
        store.state.extend([0, 0]);
        Marked { store, marks }
    }

    pub fn standing(&self) -> u32 {
        self.store.state[6]
    }

    pub fn joins(&self) -> u32 {
        self.store.state[7]
    }

    /// How many joins were recorded when the mark numbered so was set.
    pub fn joined_at(&self, mark: u32) -> u32 {
        self.marks[mark as usize - 1]
    }

    /// Of one recorded join, from 0: the child end of its edge, the old root of that tree, the class root that was put under.
    pub fn record(&self, join: u32) -> [u32; 3] {
        let at = 64 + 3 * join as usize;
        [self.marks[at], self.marks[at + 1], self.marks[at + 2]]
    }

    /// The table gone back to where so many joins were recorded; none where a record is no trace of a join.
    pub fn undone(&self, joins: u32) -> Option<Lent> {
        let mut s = self.store.clone();
        (joins..self.joins()).rev().all(|j| undo(&mut s, self.record(j))).then_some(s)
    }
}

fn hang(s: &mut Lent, t: u32, parent: u32, [kind, value, stamp]: [u32; 3]) {
    s.class_words(t)[1..].copy_from_slice(&[parent, kind, value, stamp]);
}

fn label(s: &Lent, t: u32) -> [u32; 3] {
    let r = s.term(t);
    [r.label_kind, r.label_value, r.stamp]
}

// every edge between t and its root turned round
fn reroot(s: &mut Lent, t: u32) {
    let way = s.ancestors(t);
    let labels: Vec<[u32; 3]> = way.iter().map(|&x| label(s, x)).collect();
    for i in 1..way.len() {
        hang(s, way[i], way[i - 1], labels[i - 1]);
    }
    hang(s, t, t, [0; 3]);
}

fn undo(s: &mut Lent, [child, old_root, class_root]: [u32; 3]) -> bool {
    if [child, old_root, class_root].iter().any(|&t| !s.is_term(t)) {
        return false;
    }
    if !s.is_edge(child) || s.term(class_root).class_parent == class_root {
        return false;
    }
    hang(s, child, child, [0; 3]);
    reroot(s, old_root);
    s.set_class_parent(class_root, class_root);
    true
}

/// The audit of store and marks: 0, or the first of refusals 1 to 4 and 12 that is due.
pub fn audit_marked(s: &Marked) -> u32 {
    let sizes = s.store.state.len() >= STATE && s.standing() <= STANDING && s.joins() <= JOINS && s.marks.len() >= WORDS;
    match audit(&s.store) {
        _ if !sizes => 1,
        k @ 1..=3 => k,
        _ if !traces(s) => 3,
        k => k,
    }
}

// joins are recorded since the first mark, counts of joins do not fall, and the table gone back to each mark passes 3 and 4
fn traces(s: &Marked) -> bool {
    let at_marks: Vec<u32> = (1..=s.standing()).map(|m| s.joined_at(m)).collect();
    let whole = [&[0], &at_marks[..], &[s.joins()]].concat();
    let from_none = at_marks.first().map_or(s.joins() == 0, |&n| n == 0);
    from_none && whole.windows(2).all(|w| w[0] <= w[1]) && at_marks.iter().all(|&n| s.undone(n).is_some_and(|table| table_passes(&table)))
}

/// The refusal that is due before any work, or 0.
pub fn refused(s: &Marked, act: &Act, answer_room: usize) -> u32 {
    if act.has_answer_words() && answer_room < 8 {
        return 1;
    }
    match (audit_marked(s), act) {
        (0, &Act::Join { a, b, kind, number }) => {
            let reason = (kind == 1 || kind == 2) && is_number(number);
            if reason && s.store.is_string(a) && s.store.is_string(b) {
                0
            } else {
                5
            }
        }
        (0, Act::SetMark) if s.standing() == STANDING => 10,
        (0, &Act::GoBack { mark }) if mark == 0 || mark > s.standing() => 10,
        (k, _) => k,
    }
}

/// One call.
pub fn run(s: &Marked, act: &Act, answer_room: usize) -> Told {
    let code = refused(s, act, answer_room);
    let mut told = Told { code, answer: vec![BLANK; answer_room], exit: s.clone() };
    if code != 0 {
        return told;
    }
    let exit = &mut told.exit;
    match *act {
        Act::Join { a, b, kind, number } => {
            let store = &mut exit.store;
            let (under, over) = (store.class_root(a), store.class_root(b));
            told.answer[0] = (under != over) as u32;
            if under == over {
                return told;
            }
            let old_root = *store.ancestors(a).last().unwrap();
            reroot(store, a);
            hang(store, a, b, [kind, number, 0]);
            store.set_class_parent(under, over);
            if store.state[6] > 0 {
                let at = 64 + 3 * store.state[7] as usize;
                exit.marks[at..at + 3].copy_from_slice(&[a, old_root, under]);
                store.state[7] += 1;
            }
        }
        Act::SetMark => {
            exit.marks[s.standing() as usize] = s.joins();
            exit.store.state[6] += 1;
            told.answer[0] = exit.standing();
        }
        Act::GoBack { mark } => {
            let joins = s.joined_at(mark);
            exit.store = s.undone(joins).expect("an audited trail");
            exit.store.state[6] = mark - 1;
            exit.store.state[7] = joins;
        }
    }
    told
}

impl fmt::Display for Marked {
    fn fmt(&self, f: &mut fmt::Formatter) -> fmt::Result {
        write!(f, "{}", self.store)?;
        if self.store.state.len() < STATE || self.marks.len() < WORDS {
            return write!(f, "\nmarks: {} words", self.marks.len());
        }
        let (marks, joins) = (self.standing().min(STANDING) as usize, self.joins().min(JOINS));
        write!(f, "\nmarks {:?} joins {:?}", &self.marks[..marks], (0..joins).map(|j| self.record(j)).collect::<Vec<_>>())
    }
}
