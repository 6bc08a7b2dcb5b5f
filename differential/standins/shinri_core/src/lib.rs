//! Stand-in for the term store, after document 01: 'making a term gives the lowest-numbered equal record, else appends one that is
//! its own class, .. unsimplified. `lookup_symbol` means a variable of that name exists.'
//!
//! The resolver has no limits. Where document 01 has one, the stand-in leaves the running call by unwinding with a `Refusal`.

use rustc_hash::FxHashMap;
use std::convert::Infallible;

/// A limit of document 01, met while working: 6 to 9.
pub struct Refusal(pub u32);

pub fn refuse(number: u32) -> ! {
    std::panic::resume_unwind(Box::new(Refusal(number)))
}

/// A flattened list holds at most this many atoms.
pub const LIST: u32 = 1024;

/// The number of a term record, from 1.
#[derive(Clone, Copy, PartialEq, Eq, Hash, PartialOrd, Ord, Debug)]
pub struct TermId(u32);

impl TermId {
    #[inline]
    pub fn new(number: u32) -> Self {
        TermId(number)
    }

    #[inline]
    pub fn number(self) -> u32 {
        self.0
    }

    #[inline]
    pub fn index(self) -> usize {
        self.0 as usize
    }
}

#[derive(Clone, Copy, PartialEq, Eq, Debug)]
pub struct Lit(i32);

impl Lit {
    pub fn new(number: i32) -> Self {
        Lit(number)
    }

    pub fn number(self) -> i32 {
        self.0
    }

    pub fn negate(self) -> Self {
        Lit(-self.0)
    }
}

#[derive(Clone, Copy, PartialEq, Eq, Hash, Debug)]
pub struct SortId;

#[derive(Clone, Copy, PartialEq, Eq, Hash, Debug)]
pub struct SymbolId(u32);

#[derive(Clone, Copy, PartialEq, Eq, Hash, Debug)]
pub enum BuiltinOp {
    StrConcat,
    StrLen,
    Eq,
    Distinct,
}

#[derive(Clone, Copy, PartialEq, Eq, Hash, Debug)]
pub enum Op {
    Builtin(BuiltinOp),
    Uninterpreted(SymbolId),
}

#[derive(Clone, PartialEq, Eq, Hash, Debug)]
pub enum ConstVal {
    String(String),
}

/// A span of operands.
#[derive(Clone, Copy, Debug)]
pub struct Args {
    start: u32,
    pub len: u32,
    // atoms of the flattened term, for refusal 6
    atoms: u32,
}

#[derive(Clone, Debug)]
pub enum TermNode {
    App { op: Op, args: Args },
    Const { val: ConstVal },
}

/// How many records more can be made.
#[derive(Clone, Copy, Default, Debug)]
pub struct Left {
    pub terms: usize,
    pub cells: usize,
    pub chars: usize,
}

#[derive(Default)]
pub struct Context {
    // node 0 is no term
    nodes: Vec<Option<TermNode>>,
    operands: Vec<TermId>,
    symbols: Vec<String>,
    constants: FxHashMap<String, TermId>,
    applications: FxHashMap<(Op, Vec<TermId>), TermId>,
    by_name: FxHashMap<String, SymbolId>,
    left: Left,
}

impl Context {
    // -- what a lent store is loaded with, record after record --

    pub fn lent(left: Left) -> Self {
        Context { nodes: vec![None], left, ..Context::default() }
    }

    pub fn lend_constant(&mut self, text: &str) {
        let t = self.push(TermNode::Const { val: ConstVal::String(text.to_owned()) });
        self.constants.entry(text.to_owned()).or_insert(t);
    }

    pub fn lend_variable(&mut self, name: &str) {
        let symbol = self.symbol(name);
        self.lend_app(Op::Uninterpreted(symbol), &[]);
    }

    pub fn lend_app(&mut self, op: Op, operands: &[TermId]) {
        let t = self.push_app(op, operands);
        self.applications.entry((op, operands.to_vec())).or_insert(t);
    }

    fn push(&mut self, node: TermNode) -> TermId {
        let t = TermId(self.nodes.len() as u32);
        self.nodes.push(Some(node));
        t
    }

    fn push_app(&mut self, op: Op, operands: &[TermId]) -> TermId {
        let atoms = match op {
            Op::Builtin(BuiltinOp::StrConcat) => operands.iter().fold(0u32, |n, &t| n.saturating_add(self.atoms(t))),
            _ => 1,
        };
        let args = Args { start: self.operands.len() as u32, len: operands.len() as u32, atoms };
        self.operands.extend_from_slice(operands);
        self.push(TermNode::App { op, args })
    }

    fn symbol(&mut self, name: &str) -> SymbolId {
        let symbol = SymbolId(self.symbols.len() as u32);
        self.symbols.push(name.to_owned());
        self.by_name.insert(name.to_owned(), symbol);
        symbol
    }

    /// How many atoms the flattened term has, up to `u32::MAX`.
    pub fn atoms(&self, t: TermId) -> u32 {
        match self.term_node(t) {
            TermNode::App { op: Op::Builtin(BuiltinOp::StrConcat), args } => args.atoms,
            _ => 1,
        }
    }

    /// The number of the last record.
    pub fn count(&self) -> u32 {
        self.nodes.len() as u32 - 1
    }

    pub fn left(&self) -> Left {
        self.left
    }

    /// Forgets the terms above a count, for runs that are repeated on one store.
    pub fn back(&mut self, count: u32, left: Left) {
        self.left = left;
        while self.count() > count {
            let t = TermId(self.count());
            match self.nodes.pop().unwrap().unwrap() {
                TermNode::Const { val: ConstVal::String(s) } => {
                    if self.constants.get(&s) == Some(&t) {
                        self.constants.remove(&s);
                    }
                }
                TermNode::App { op, args } => {
                    let operands = self.operands.split_off(args.start as usize);
                    let key = (op, operands);
                    if self.applications.get(&key) == Some(&t) {
                        self.applications.remove(&key);
                    }
                    if let Op::Uninterpreted(_) = op {
                        let name = self.symbols.pop().unwrap();
                        self.by_name.remove(&name);
                    }
                }
            }
        }
    }

    // -- what the resolver calls --

    pub fn term_node(&self, t: TermId) -> &TermNode {
        self.nodes[t.index()].as_ref().expect("a term")
    }

    /// The operands. Only flattening asks for those of a concatenation, so refusal 6 is met here, before anything is written.
    pub fn children(&self, args: Args) -> &[TermId] {
        if args.atoms > LIST {
            refuse(6);
        }
        self.operands(args)
    }

    pub fn operands(&self, args: Args) -> &[TermId] {
        &self.operands[args.start as usize..(args.start + args.len) as usize]
    }

    pub fn string_const_value(&self, t: TermId) -> Option<&str> {
        match self.term_node(t) {
            TermNode::Const { val: ConstVal::String(s) } => Some(s),
            _ => None,
        }
    }

    pub fn mk_string_const(&mut self, text: &str) -> TermId {
        if let Some(&t) = self.constants.get(text) {
            return t;
        }
        self.take_chars(text.chars().count());
        self.take_term();
        let t = self.push(TermNode::Const { val: ConstVal::String(text.to_owned()) });
        self.constants.insert(text.to_owned(), t);
        t
    }

    pub fn mk_app(&mut self, op: Op, operands: &[TermId]) -> Result<TermId, Infallible> {
        let key = (op, operands.to_vec());
        if let Some(&t) = self.applications.get(&key) {
            return Ok(t);
        }
        match op {
            Op::Builtin(BuiltinOp::StrConcat) => self.take_cells(operands.len()),
            Op::Uninterpreted(symbol) => self.take_chars(self.symbols[symbol.0 as usize].chars().count()),
            _ => {}
        }
        self.take_term();
        let t = self.push_app(op, operands);
        self.applications.insert(key, t);
        Ok(t)
    }

    pub fn mk_eq(&mut self, a: TermId, b: TermId) -> Result<TermId, Infallible> {
        self.mk_app(Op::Builtin(BuiltinOp::Eq), &[a, b])
    }

    pub fn string_sort(&self) -> SortId {
        SortId
    }

    /// The last name is never taken: the counter would have to rise above 4,294,967,295.
    pub fn lookup_symbol(&self, name: &str) -> Option<SymbolId> {
        if name == "!strk4294967295" {
            refuse(9);
        }
        self.by_name.get(name).copied()
    }

    pub fn declare_fun(&mut self, name: &str, _arguments: &[SortId], _sort: SortId) -> SymbolId {
        self.symbol(name)
    }

    pub fn reserve_symbol(&mut self, _symbol: SymbolId) {}

    pub fn symbol_name(&self, symbol: SymbolId) -> &str {
        &self.symbols[symbol.0 as usize]
    }

    // -- room --

    fn take_term(&mut self) {
        self.left.terms = self.left.terms.checked_sub(1).unwrap_or_else(|| refuse(8));
    }

    fn take_cells(&mut self, n: usize) {
        self.left.cells = self.left.cells.checked_sub(n).unwrap_or_else(|| refuse(8));
    }

    fn take_chars(&mut self, n: usize) {
        self.left.chars = self.left.chars.checked_sub(n).unwrap_or_else(|| refuse(8));
    }
}

/// Undo entries by level.
pub struct UndoLog<T> {
    entries: Vec<T>,
    levels: Vec<usize>,
}

impl<T> Default for UndoLog<T> {
    fn default() -> Self {
        UndoLog { entries: Vec::new(), levels: Vec::new() }
    }
}

impl<T> UndoLog<T> {
    pub fn record(&mut self, entry: T) {
        self.entries.push(entry);
    }

    pub fn level(&self) -> usize {
        self.levels.len()
    }

    pub fn push_level(&mut self) {
        self.levels.push(self.entries.len());
    }

    pub fn pop_to(&mut self, level: usize, mut undo: impl FnMut(T)) {
        while self.levels.len() > level {
            let start = self.levels.pop().unwrap();
            while self.entries.len() > start {
                undo(self.entries.pop().unwrap());
            }
        }
    }
}
