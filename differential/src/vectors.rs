//! Stored vectors: calls on audited stores with the answers of the unchanged Rust, each reason dropped that its list held, as input and output
//! of the program `answers`, so that the port can be held to the Rust where the Rust is not at hand.

use crate::{
    audit::audit,
    call::*,
    draft::{lay_out, Draft, Label, Spec},
    generate::{self, Profile},
    lent::*,
    oracle::{self, Answer, Departures, Mode},
    random::Random,
    script::{Script, CASES, READ},
};
use std::{collections::BTreeMap, fs, io, path::Path};

/// Input and output of `answers` under one name.
pub struct File {
    pub name: &'static str,
    pub commands: String,
    pub printed: String,
}

/// How many calls there are of each case, and how many were left out.
#[derive(Default)]
pub struct Tally {
    stores: u64,
    cases: BTreeMap<String, u64>,
    /// departure A or B applies
    departing: [u64; 2],
    /// refused for an argument before the Rust is asked
    arguments: u64,
    /// refused at a limit, which the Rust does not have; `limits` has such calls, the other files do not
    limited: u64,
}

impl Tally {
    /// Those of the cases due that no call has.
    pub fn missing(&self) -> Vec<&'static str> {
        DUE.into_iter().filter(|due| !self.cases.keys().any(|case| case.starts_with(due))).collect()
    }

    /// Each case with the number of its calls (of `kept`, of its pairs of calls).
    pub fn list(&self) -> String {
        self.cases.iter().map(|(case, n)| format!("{n} {case}\n")).collect()
    }

    pub fn summary(&self, files: &[File]) -> String {
        let calls: usize = files.iter().map(|f| f.printed.lines().filter(|line| !line.starts_with(['#', ' '])).count()).sum();
        format!(
            "{calls} calls on {} stores; left out: {} where departure A applies, {} where B does, {} refused for an argument, {} refused at a limit in a file that is not of limits",
            self.stores, self.departing[0], self.departing[1], self.arguments, self.limited
        )
    }
}

// stores drawn for each file, and calls drawn for each store
const STORES: u64 = 4_000;
const CALLS: usize = 3;

struct Drawing {
    file: File,
    stores: u64,
    tally: Tally,
}

/// Up to `count` calls of each case. The same seed and count give the same files.
pub fn draw(seed: u64, count: u64) -> (Vec<File>, Tally) {
    let mut tally = Tally::default();
    let mut files = vec![];
    for (number, name) in NAMES[6..=13].iter().copied().chain(["kept", "limits"]).enumerate() {
        let file = File { name, commands: String::new(), printed: String::new() };
        let mut drawing = Drawing { file, stores: 0, tally };
        for i in 0..STORES {
            let random = &mut Random::new(seed.wrapping_mul(1 << 40) ^ (number as u64) << 32 ^ i);
            match name {
                "kept" => drawing.kept(random),
                "limits" if i % 8 == 0 => drawing.at_bound(random, count),
                "limits" => drawing.at_limit(random, count),
                _ => drawing.of_kind(random, number + 6, count),
            }
        }
        assert!(drawing.file.commands.len() <= READ, "{name}: more than `answers` reads, the count is too high");
        files.push(drawing.file);
        tally = drawing.tally;
    }
    (files, tally)
}

/// Cases that are to be there, each as the start of a case's name.
const DUE: [&str; 80] = [
    "find: root, 0",
    "find: root, 1",
    "find: root, 3",
    "explain: explained, label 1",
    "explain: explained, label 2",
    "explain: explained, label 3",
    "explain: explained, label 4",
    "normal_form: empty",
    "normal_form: list",
    "deep_normal_form: empty",
    "deep_normal_form: list",
    "deep_normal_form: none",
    "resolve_equation: done",
    "resolve_equation: saturated",
    "resolve_equation: conflict",
    "resolve_equation: propagate,",
    "resolve_equation: propagate with the link flag",
    "resolve_equation: split of 2, 3 made",
    "resolve_equation: split of 2, 4 made",
    "resolve_equation: split of 2, 5 made",
    "resolve_equation: split of 2, 6 made",
    "resolve_equation: split of 3, 6 made",
    "resolve_equation: split of 3, 7 made",
    "resolve_equation: split of 3, 8 made",
    "resolve_equation: split of 3, 9 made",
    "step: done",
    "step: saturated",
    "step: conflict",
    "step: propagate,",
    "step: propagate with the link flag",
    "step: split of 2, 3 made",
    "step: split of 2, 4 made",
    "step: split of 2, 5 made",
    "step: split of 2, 6 made",
    "step: split of 3, 6 made",
    "step: split of 3, 7 made",
    "step: split of 3, 8 made",
    "step: split of 3, 9 made",
    "step: unexpanded",
    "nf_equal: true",
    "nf_equal: false",
    "nf_equal_explain: explained",
    "kept, resolve_equation: split of 2; resolve_equation: saturated",
    "limits, atoms: normal_form: refused 6",
    "limits, atoms: deep_normal_form: refused 6",
    "limits, atoms: resolve_equation: refused 6",
    "limits, atoms: step: refused 6",
    "limits, 256 atoms: deep_normal_form: list",
    "limits, 256 atoms: deep_normal_form: none",
    "limits, 64 expansions: deep_normal_form: list",
    "limits, 65 expansions: deep_normal_form: list",
    "limits, reasons: explain: refused 7",
    "limits, reasons: normal_form: refused 7",
    "limits, reasons: deep_normal_form: refused 7",
    "limits, reasons: resolve_equation: refused 7",
    "limits, reasons: step: refused 7",
    "limits, reasons: nf_equal_explain: refused 7",
    "limits, reasons: explain: room for each once",
    "limits, reasons: normal_form: room for each once",
    "limits, reasons: deep_normal_form: room for each once",
    "limits, reasons: step: room for each once",
    "limits, reasons: nf_equal_explain: room for each once",
    "limits, terms: normal_form: refused 8",
    "limits, terms: resolve_equation: refused 8",
    "limits, terms: step: refused 8",
    "limits, cells: resolve_equation: refused 8",
    "limits, cells: step: refused 8",
    "limits, characters: deep_normal_form: refused 8",
    "limits, characters: resolve_equation: refused 8",
    "limits, keys: resolve_equation: refused 8",
    "limits, keys: step: refused 8",
    "limits, names: resolve_equation: refused 9",
    "limits, terms: normal_form: the last taken",
    "limits, terms: resolve_equation: the last taken",
    "limits, cells: resolve_equation: the last taken",
    "limits, characters: normal_form: the last taken",
    "limits, reasons: explain: the last taken",
    "limits, keys: resolve_equation: the last taken",
    "limits, names: resolve_equation: the last taken",
    "limits, names: step: refused 9",
];

/// Writes NAME.in and NAME.out for each file, and which cases they have.
pub fn write(files: &[File], tally: &Tally, folder: &Path) -> io::Result<()> {
    fs::create_dir_all(folder)?;
    fs::write(folder.join("cases.txt"), tally.list())?;
    for f in files {
        fs::write(folder.join(f.name).with_extension("in"), &f.commands)?;
        fs::write(folder.join(f.name).with_extension("out"), &f.printed)?;
    }
    Ok(())
}

// characters that are not seen are left out, so that the files are text
fn seen(d: &Draft) -> bool {
    d.specs.iter().all(|s| match s {
        Spec::Constant(w) | Spec::Variable(w) => w.iter().all(|&c| c >= 32),
        _ => true,
    })
}

fn small(random: &mut Random) -> Script {
    small_with(random, |_, _| {})
}

// with terms that are laid behind those drawn
fn small_with(random: &mut Random, more: impl Fn(&mut Random, &mut Draft)) -> Script {
    let p =
        Profile { terms: random.between(2, 23), merges: random.below(14), letters: random.between(1, 3), longest: random.between(1, 4) };
    let mut d = generate::draft(random, p);
    while !seen(&d) {
        d = generate::draft(random, p);
    }
    more(random, &mut d);
    Script::of(&lay_out(&d), random.one_in(2))
}

/// A kind of call and what was answered.
fn answer(call: &Call, o: &Outcome) -> String {
    let word = |i: usize| o.answer[i];
    let answer = match call {
        _ if o.code != 0 => format!("refused {}", o.code),
        Call::Find { .. } => "root".into(),
        Call::Explain { .. } | Call::NfEqualExplain { .. } => "explained".into(),
        Call::NormalForm { .. } | Call::DeepNormalForm { .. } => match (word(0), word(1)) {
            (0, _) => "none".into(),
            (_, 0) => "empty".into(),
            _ => "list".into(),
        },
        Call::NfEqual { .. } => (word(0) == 1).to_string(),
        _ => match (CASES[word(0) as usize], word(0)) {
            (name, PROPAGATE) if word(3) == 1 => format!("{name} with the link flag"),
            (name, SPLIT) => format!("{name} of {}", word(1)),
            (name, _) => name.into(),
        },
    };
    format!("{}: {answer}", call.name())
}

/// The same with how many terms a Split made, what the call goes over, and whether reasons and terms were added.
fn case(s: &Lent, call: &Call, o: &Outcome) -> String {
    let over = match call {
        Call::Find { t } => format!(", {} up", class_path(s, *t).min(3)),
        Call::Explain { a, b } => labels(s, *a, *b),
        Call::NfEqual { lhs, rhs } if lhs.len() != rhs.len() => ", unequal lengths".into(),
        Call::NfEqual { lhs, .. } | Call::NfEqualExplain { lhs, .. } => format!(", {} atoms", lhs.len().min(4)),
        Call::ResolveEquation { lhs, rhs, .. } if lhs.iter().chain(rhs).any(|&t| s.kind(t) == CONCATENATION) => ", flattened".into(),
        _ => String::new(),
    };
    let made = match call {
        Call::ResolveEquation { .. } | Call::Step { .. } if o.answer[0] == SPLIT => format!(", {} made", o.answer[3]),
        _ => String::new(),
    };
    let added = |i: usize, what: &'static str| if o.exit.state[i] > s.state[i] { what } else { "" };
    format!("{}{made}{over}{}{}", answer(call, o), added(3, ", reasons"), added(0, ", terms"))
}

// class parents from t to its root
fn class_path(s: &Lent, t: u32) -> u32 {
    let parent = s.term(t).class_parent;
    if parent == t {
        0
    } else {
        1 + class_path(s, parent)
    }
}

// the kinds of label between two terms
fn labels(s: &Lent, a: u32, b: u32) -> String {
    let path = s.path(a, b).expect("one class");
    let has = |k: u32| path.iter().any(|&t| s.term(t).label_kind == k);
    (1..=4).filter(|&k| has(k)).map(|k| format!(", label {k}")).collect()
}

impl Drawing {
    /// The outcome of the unchanged Rust, but for the calls that are left out: where a departure applies, and where an argument is refused.
    fn answer(&mut self, s: &Lent, call: &Call) -> Option<Answer> {
        assert_eq!(audit(s), 0, "{}: a store that should pass", self.file.name);
        let r = Request::new(call.clone());
        let met = oracle::run(s, &r, Mode::Departing).departures;
        if met != Departures::default() {
            self.tally.departing[(met.forced > 0) as usize] += 1;
            return None;
        }
        let a = oracle::run(s, &r, Mode::Unchanged);
        self.tally.arguments += (a.outcome.code == 5) as u64;
        (a.outcome.code != 5).then_some(a)
    }

    // the same where the Rust's own run goes to its end
    fn finished(&mut self, s: &Lent, call: &Call) -> Option<Outcome> {
        let o = self.answer(s, call)?.outcome;
        self.tally.limited += (o.code != 0) as u64;
        (o.code == 0).then_some(o)
    }

    // whether one more of this case is to be kept, which is then counted
    fn wanted(&mut self, case: String, count: u64) -> bool {
        let n = self.tally.cases.entry(case).or_default();
        let wanted = *n < count;
        *n += wanted as u64;
        wanted
    }

    // a store's calls, if it has any
    fn finish(&mut self, script: Script) {
        if !script.printed.is_empty() {
            self.stores += 1;
            self.tally.stores += 1;
            let remark = format!("# store {}\n", self.stores);
            self.file.commands += &(remark.clone() + &script.commands);
            self.file.printed += &(remark + &script.printed);
        }
    }

    fn of_kind(&mut self, random: &mut Random, kind: usize, count: u64) {
        // calls that split: so that they make fewer terms too
        let mut script = if matches!(kind, 10 | 11) { small_with(random, generate::lay_ahead) } else { small(random) };
        for _ in 0..CALLS {
            let call = generate::call(random, &script.store, kind);
            let Some(o) = self.finished(&script.store, &call) else { continue };
            if call.number() == kind && self.wanted(case(&script.store, &call, &o), count) {
                script.ask(&call, &o, false);
            }
        }
        self.finish(script);
    }

    // two calls, the second on the store as the first one leaves it; often the same once more, which meets its own key
    fn kept(&mut self, random: &mut Random) {
        let mut script = small(random);
        let kind = if random.one_in(4) { 7 } else { 10 };
        let first = generate::call(random, &script.store, kind);
        let Some(o) = self.finished(&script.store, &first).filter(|o| o.exit.state != script.store.state) else { return };
        let before = answer(&first, &o);
        script.ask(&first, &o, true);
        let second = if random.one_in(2) { first } else { generate::call(random, &script.store, 10) };
        let Some(o) = self.finished(&script.store, &second) else { return };
        let after = answer(&second, &o);
        script.ask(&second, &o, true);
        if self.wanted(format!("kept, {before}; {after}"), 1) {
            self.finish(script);
        }
    }

    fn at_limit(&mut self, random: &mut Random, count: u64) {
        let (sort, mut script, calls) = limited(random);
        for call in calls {
            let Some(Answer { outcome: o, once, .. }) = self.answer(&script.store, &call) else { continue };
            let (answer, count) = match o.code {
                0 if once.seven => (format!("{}: room for each once", call.name()), count.div_ceil(2)),
                0 if o.exit.state == script.store.state => continue,
                0 if full(&o.exit, sort) && !full(&script.store, sort) => (format!("{}: the last taken", call.name()), count.div_ceil(2)),
                0 => (format!("{}: added to", call.name()), count.div_ceil(4)),
                _ => (answer(&call, &o), count.div_ceil(2)),
            };
            if self.wanted(format!("limits, {}: {answer}", SORTS[sort]), count) {
                script.ask(&call, &o, false);
            }
        }
        self.finish(script);
    }

    // deep forms about as long as can be, and about as many expansions
    fn at_bound(&mut self, random: &mut Random, count: u64) {
        let (bound, mut script, calls) = bounded(random);
        for call in calls {
            let Some(Answer { outcome: o, .. }) = self.answer(&script.store, &call) else { continue };
            if self.wanted(format!("limits, {bound}: {}", answer(&call, &o)), count.div_ceil(4)) {
                script.ask(&call, &o, false);
            }
        }
        self.finish(script);
    }
}

/// A store over whose last equation and the term on its left a form comes to a bound, and the calls. `doubled` and `chained` end with it.
fn bounded(random: &mut Random) -> (&'static str, Script, Vec<Call>) {
    let more = random.between(1, 2);
    let (bound, d) = match random.below(3) {
        0 => ("256 atoms", generate::doubled(random, 8, more)),
        1 => ("64 expansions", generate::chained(random, 64, Label::Asserted(5))),
        _ => ("65 expansions", generate::chained(random, 65, Label::Interface(7))),
    };
    let (known, equation) = (d.strings(), d.count());
    let Spec::Equation(left, right) = d.spec(equation) else { panic!("an equation stands last") };
    let deep = |t: u32| Call::DeepNormalForm { known: known.clone(), t };
    let calls = vec![deep(*left), deep(*right), Call::Step { known: known.clone(), equation, guard: 9 }];
    (bound, Script::of(&lay_out(&d), false), calls)
}

// what there may be little room for, in the state's order, and lists of atoms
const SORTS: [&str; 7] = ["terms", "cells", "characters", "reasons", "keys", "names", "atoms"];

fn full(s: &Lent, sort: usize) -> bool {
    match sort {
        0..=4 => s.state[sort] as usize == s.room()[sort],
        5 => s.state[5] == u32::MAX,
        _ => false,
    }
}

/// A store with little room of one sort left, and calls that were drawn before it was filled. find and nf_equal add nothing.
fn limited(random: &mut Random) -> (usize, Script, Vec<Call>) {
    let sort = random.below(SORTS.len());
    let mut script = if sort == 6 {
        let (height, more) = (random.between(10, 11), random.below(4));
        Script::of(&lay_out(&generate::doubled(random, height, more)), false)
    } else {
        small(random)
    };
    let calls = (0..CALLS).map(|_| {
        let kind = *random.pick(&[7, 8, 9, 10, 10, 11, 11, 13]);
        generate::call(random, &script.store, kind)
    });
    let calls = calls.collect();
    fill(random, &mut script, sort);
    (sort, script, calls)
}

fn fill(random: &mut Random, script: &mut Script, sort: usize) {
    let counts = script.store.state.clone();
    match sort {
        0 => script.variables((TERMS - random.below(12)) as u32 - counts[0]),
        1 => script.cells((CELLS - random.below(6)) as u32),
        2 => script.repeated((CHARS - random.below(18)) as u32 - counts[2], 'q'),
        3 => script.reason_words(2 * (counts[3] as usize + random.below(4)) + random.below(2)),
        4 => {
            let strings: Vec<u32> = (1..=counts[0]).filter(|&t| script.store.is_string(t)).collect();
            if let [a, b, ..] = strings[..] {
                script.keys((KEYS - random.below(2)) as u32 - counts[4], a, b);
            }
        }
        5 => script.names(u32::MAX - random.below(3) as u32),
        _ => {}
    }
}
