//! A lent store as commands of the program `answers`, and the line that it has to print for an outcome. The layout of both is that
//! program's, told at the top of its source; the values are those of the outcome handed in.

use crate::{call::*, lent::*};

/// The bytes that `answers` reads of its input.
pub const READ: usize = 65_536;

// 513 characters are counted from the start: the names that V gives stand at the places 1 to 512
const NAMED: usize = 513;

/// Commands, what is to be printed, and the store as the commands make it.
pub struct Script {
    pub commands: String,
    pub printed: String,
    pub store: Lent,
    list: Vec<u32>,
}

impl Script {
    /// No record counted, the slices as long as `answers` lends them.
    fn new() -> Self {
        let slice = |n: usize| vec![0; n];
        let [terms, cells, chars] = [term_place(TERMS as u32 + 1, 0), CELL_WIDTH * (CELLS + 1), CHARS + 2].map(slice);
        let [reasons, keys] = [REASONS, KEYS].map(|n| slice(2 * (n + 1)));
        let store = Lent { state: vec![0, 0, NAMED as u32, 0, 0, 0], terms, cells, chars, reasons, keys };
        Script { commands: "N\n".into(), printed: String::new(), store, list: vec![] }
    }

    /// A store that passes the audit. With sharing, characters and cells that stand already are used again.
    pub fn of(s: &Lent, sharing: bool) -> Self {
        let mut script = Script::new();
        for t in 1..=s.count() {
            script.term(s, t, sharing);
        }
        for t in 1..=s.count() {
            script.joined(s, t);
        }
        for (kind, number) in s.reason_list() {
            script.line('R', &[kind, number]);
            script.store.add_reason((kind, number));
        }
        for (a, b) in s.key_list() {
            script.keys(1, a, b);
        }
        if s.state[5] > 0 {
            script.names(s.state[5]);
        }
        script
    }

    fn line(&mut self, letter: char, numbers: &[u32]) {
        self.commands += &(command(letter, numbers) + "\n");
    }

    fn term(&mut self, s: &Lent, t: u32, sharing: bool) {
        let r = s.term(t);
        match r.kind {
            CONSTANT | VARIABLE => match self.place(s.text(t)).filter(|_| sharing) {
                Some(place) => self.words(r.kind, place, r.second),
                None => self.text(r.kind, s.text(t)),
            },
            CONCATENATION => match self.first(&s.chain(r.first)).filter(|_| sharing) {
                Some(first) => self.words(CONCATENATION, first, 0),
                None => {
                    self.line('P', &s.parts(t));
                    let first = self.store.add_chain(&s.chain(r.first));
                    self.store.add_term(CONCATENATION, first, 0);
                }
            },
            kind => self.words(kind, r.first, r.second),
        }
    }

    // where these characters stand
    fn place(&self, text: &[u32]) -> Option<u32> {
        let chars = &self.store.chars[NAMED..self.store.state[2] as usize];
        let at = if text.is_empty() { Some(chars.len() / 2) } else { chars.windows(text.len()).position(|w| w == text) };
        at.map(|i| (NAMED + i) as u32)
    }

    // where a chain of these values begins
    fn first(&self, values: &[Pair]) -> Option<u32> {
        (1..=self.store.state[1]).find(|&c| self.store.chain(c) == values)
    }

    fn words(&mut self, kind: u32, first: u32, second: u32) {
        self.line('X', &[kind, first, second]);
        self.store.add_term(kind, first, second);
    }

    // a text is written as it is where its characters can be seen, else by their numbers
    fn text(&mut self, kind: u32, text: &[u32]) {
        if !text.is_empty() && text.iter().all(|c| (32..127).contains(c)) {
            self.commands += &format!("{} {}\n", if kind == CONSTANT { 'K' } else { 'I' }, spelled(text));
        } else {
            self.line('S', text);
            if kind == VARIABLE {
                self.line('T', &[self.store.count() + 1, 0, VARIABLE]);
            }
        }
        let place = self.store.add_text(text);
        self.store.add_term(kind, place, text.len() as u32);
    }

    // the class parent, forest parent and label of t
    fn joined(&mut self, s: &Lent, t: u32) {
        let mut r = s.term(t);
        let p = r.forest_parent;
        let mut class = t;
        if r.label_kind == 3 {
            let pairs = s.chain(r.label_value);
            let numbers: Vec<u32> = pairs.iter().flat_map(|&(a, b)| [a, b]).collect();
            self.line('G', &[&[t, p, r.stamp][..], &numbers].concat());
            r.label_value = self.store.add_chain(&pairs);
            class = p;
        } else if s.is_edge(t) {
            class = if r.class_parent == p { p } else { t };
            self.line(if class == p { 'A' } else { 'F' }, &[t, p, r.label_kind, r.label_value, r.stamp]);
        }
        if r.class_parent != class {
            self.line('C', &[t, r.class_parent]);
        }
        let words = [r.class_parent, p, r.label_kind, r.label_value, r.stamp];
        self.store.class_words(t).copy_from_slice(&words);
    }

    pub fn keys(&mut self, n: u32, a: u32, b: u32) {
        self.line('k', &[n, a, b]);
        (0..n).for_each(|_| self.store.add_key((a, b)));
    }

    pub fn names(&mut self, n: u32) {
        self.line('i', &[n]);
        self.store.state[5] = n;
    }

    /// n variables more, each with one character as its name.
    pub fn variables(&mut self, n: u32) {
        self.line('V', &[n]);
        for _ in 0..n {
            let t = self.store.count() + 1;
            self.store.chars[t as usize] = 256 + t;
            self.store.add_term(VARIABLE, t, 1);
        }
    }

    /// A constant of n times one character.
    pub fn repeated(&mut self, n: u32, character: char) {
        self.line('O', &[n, character as u32]);
        let place = self.store.add_text(&vec![character as u32; n as usize]);
        self.store.add_term(CONSTANT, place, n);
    }

    /// n cells counted, the further ones outside every chain. `answers` clears no word, so the last one may have a next from before.
    pub fn cells(&mut self, n: u32) {
        self.line('c', &[n]);
        self.line('D', &[n, 2, 0]);
        self.store.state[1] = n;
    }

    /// n words lent for reasons.
    pub fn reason_words(&mut self, n: usize) {
        self.line('W', &[4, n as u32]);
        self.store.reasons.resize(n, 0);
    }

    /// A call with its outcome; where `kept`, what explain or resolve_equation added stays.
    pub fn ask(&mut self, call: &Call, o: &Outcome, kept: bool) {
        let list = call.clone().lists_mut().into_iter().fold(vec![], |l, m| [l, m.clone()].concat());
        if list != self.list {
            self.line('L', &list);
            self.list = list;
        }
        let line = asking(call, kept);
        self.printed += &format!("{line}{}\n", printed(&self.store, call, o));
        self.commands += &(line + "\n");
        if kept {
            self.store = o.exit.clone();
        }
    }
}

fn command(letter: char, numbers: &[u32]) -> String {
    // a line's numbers are read into 256 words, the first of which is not used
    assert!(numbers.len() < 256, "a line of {} numbers", numbers.len());
    numbers.iter().fold(String::from(letter), |line, n| format!("{line} {n}"))
}

fn asking(call: &Call, kept: bool) -> String {
    let either = |stays: char, goes: char| if kept { stays } else { goes };
    match call {
        Call::Find { t } => command('f', &[*t]),
        Call::Explain { a, b } => command(either('E', 'e'), &[*a, *b]),
        Call::NormalForm { t, .. } => command('n', &[*t]),
        Call::DeepNormalForm { t, .. } => command('d', &[*t]),
        Call::ResolveEquation { lhs, guard, .. } => command(either('B', 'r'), &[lhs.len() as u32, *guard as u32]),
        Call::Step { equation, guard, .. } => command('s', &[*equation, *guard as u32]),
        Call::NfEqual { lhs, .. } => command('q', &[lhs.len() as u32]),
        Call::NfEqualExplain { lhs, .. } => command('Q', &[lhs.len() as u32]),
        _ => panic!("`answers` has no command for {}", call.name()),
    }
}

// what `answers` prints behind the command
fn printed(entry: &Lent, call: &Call, o: &Outcome) -> String {
    if o.code != 0 {
        let counted = if matches!(call, Call::Explain { .. }) { format!(", {}", reasons(entry)) } else { String::new() };
        return format!(": refused {}{counted}", o.code);
    }
    let s = &o.exit;
    match call {
        Call::Find { .. } => format!(": {}", o.answer[0]),
        Call::Explain { .. } | Call::NfEqualExplain { .. } => format!(": {}", reasons(s)),
        Call::NfEqual { .. } => format!(": {}", o.answer[0] == 1),
        Call::NormalForm { .. } | Call::DeepNormalForm { .. } => {
            let list = if o.answer[0] == 0 { "none".into() } else { atoms(&o.list[..o.answer[1] as usize]) };
            format!(": {list}, {}, {} {}{}", reasons(s), s.state[0], s.state[2], made(entry, s))
        }
        _ => {
            let [terms, cells, chars, _, keys, names] = s.state[..] else { panic!("a state of six words") };
            let line = format!(": {}, {}, {terms} {cells} {chars} {keys} {names}{}", case(o), reasons(s), made(entry, s));
            // a line of its own
            if o.answer[0] == SPLIT {
                format!("{line}\n made {}", o.answer[3])
            } else {
                line
            }
        }
    }
}

fn case(o: &Outcome) -> String {
    let a = &o.answer;
    match a[0] {
        PROPAGATE => format!("propagate {} {}{}", a[1], a[2], if a[3] == 1 { " link" } else { "" }),
        SPLIT => format!("split {} {}", atoms(&o.list[..a[1] as usize]), a[2] as i32),
        other => CASES[other as usize].into(),
    }
}

/// The cases of wordeq and of the step by number.
pub const CASES: [&str; 6] = ["done", "saturated", "conflict", "propagate", "split", "unexpanded"];

// the count and the reasons, with a3-5 for a3 a4 a5
fn reasons(s: &Lent) -> String {
    let list = s.reason_list();
    let follows = |i: usize| 0 < i && i < list.len() && list[i] == (list[i - 1].0, list[i - 1].1 + 1);
    let mut line = list.len().to_string();
    for (i, &(kind, number)) in list.iter().enumerate() {
        if !follows(i) {
            line += &format!(" {}{number}", if kind == 1 { 'a' } else { 'i' });
        } else if !follows(i + 1) {
            line += &format!("-{number}");
        }
    }
    line
}

// the count and the atoms, with 7*3 for 7 7 7
fn atoms(list: &[u32]) -> String {
    let each = list.chunk_by(|a, b| a == b).map(|same| match same.len() {
        1 => format!(" {}", same[0]),
        n => format!(" {}*{n}", same[0]),
    });
    list.len().to_string() + &each.collect::<String>()
}

fn characters(text: &[u32]) -> String {
    let each = text.iter().map(|&c| if c < 127 { spelled(&[c]) } else { format!("<{c}>") });
    each.collect()
}

// the terms that were made
fn made(entry: &Lent, exit: &Lent) -> String {
    let each = (entry.count() + 1..=exit.count()).map(|t| {
        let r = exit.term(t);
        match r.kind {
            CONSTANT => format!(" \"{}\"", characters(exit.text(t))),
            VARIABLE => format!(" {}", characters(exit.text(t))),
            CONCATENATION => format!(" {}", exit.parts(t).iter().map(u32::to_string).collect::<Vec<_>>().join("+")),
            LENGTH => format!(" |{}|", r.first),
            _ => format!(" {}={}", r.first, r.second),
        }
    });
    each.collect()
}
