//! The driver: see README.md.

use differential::{
    audit::audit,
    call::*,
    claim::{answered, try_out, Tried},
    compare::difference,
    damage,
    draft::{lay_out, Draft},
    empties, fields, generate, index, indexes, lengths,
    lent::Lent,
    lists,
    marks::{self, Act, Marked, Told},
    model,
    oracle::{self, Answer, Mode},
    random::Random,
    renamed, shrink, speed, trails, vectors,
};
use std::{env, path::PathBuf, process::exit, thread};

/// Who answers.
#[derive(Clone, Copy, PartialEq, Debug)]
enum Subject {
    #[cfg(feature = "port")]
    Port,
    Model,
    Rust,
}

impl Subject {
    #[cfg(feature = "port")]
    const USUAL: Subject = Subject::Port;
    #[cfg(not(feature = "port"))]
    const USUAL: Subject = Subject::Model;

    fn run(self, s: &Lent, r: &Request) -> Option<Outcome> {
        match self {
            #[cfg(feature = "port")]
            Subject::Port => differential::port::run(s, r),
            Subject::Model => Some(model::run(s, r)),
            Subject::Rust => Some(oracle::run(s, r, Mode::Unchanged).outcome),
        }
    }

    // the Rust has no words lent for marks: it is compared within the lists
    fn act(self, s: &Marked, act: &Act, answer_room: usize) -> Option<Told> {
        match self {
            #[cfg(feature = "port")]
            Subject::Port => differential::port::run_act(s, act, answer_room),
            Subject::Model => Some(marks::run(s, act, answer_room)),
            Subject::Rust => usage(),
        }
    }
}

#[derive(Clone)]
struct Options {
    seed: u64,
    count: u64,
    from: u64,
    threads: u64,
    kinds: Vec<usize>,
    of: Subject,
    out: PathBuf,
}

fn usage() -> ! {
    eprintln!(
        "differential compare|renamed|damaged|indexes|claims|fields|lists|trails|empties|lengths|faults|vectors|speed|count|pace|pace-count|worst|stack [--seed S] [--count N] [--from ROUND] [--threads T] [--kinds A,B] [--of port|model|rust] [--out FOLDER]"
    );
    exit(2);
}

fn options(arguments: &[String]) -> Options {
    let mut o = Options {
        seed: 1,
        count: 10_000,
        from: 0,
        threads: 1,
        kinds: (0..NAMES.len()).collect(),
        of: Subject::USUAL,
        out: "../vectors".into(),
    };
    let mut rest = arguments.iter();
    while let Some(name) = rest.next() {
        let Some(value) = rest.next() else { usage() };
        let number = || value.parse().unwrap_or_else(|_| usage());
        match name.as_str() {
            "--seed" => o.seed = number(),
            "--count" => o.count = number(),
            "--from" => o.from = number(),
            "--threads" => o.threads = number().max(1),
            "--out" => o.out = value.into(),
            "--kinds" => o.kinds = value.split(',').map(|k| NAMES.iter().position(|n| *n == k).unwrap_or_else(|| usage())).collect(),
            "--of" => {
                o.of = match value.as_str() {
                    #[cfg(feature = "port")]
                    "port" => Subject::Port,
                    "model" => Subject::Model,
                    "rust" => Subject::Rust,
                    _ => usage(),
                }
            }
            _ => usage(),
        }
    }
    o
}

/// What was met.
#[derive(Clone, Default)]
struct Tally {
    calls: [u64; NAMES.len()],
    absent: [u64; NAMES.len()],
    /// by result
    codes: [u64; 16],
    /// by case of wordeq and of the step
    cases: [u64; 6],
    none: u64,
    passed: u64,
    occurrence: u64,
    forced: u64,
    /// by call: answered, and refused under 7 if reasons were repeated
    seven: [u64; NAMES.len()],
    /// the same, but refused under another number
    seven_otherwise: u64,
    held_back: u64,
    /// Splits over a character and over two heads, by how many terms they made
    made: [[u64; 10]; 2],
    /// Splits of a step whose normal forms made terms too
    forms_made: u64,
    stood: u64,
    untried: u64,
    differences: u64,
}

impl Tally {
    fn add(&mut self, other: &Tally) {
        let sum = |a: &mut [u64], b: &[u64]| a.iter_mut().zip(b).for_each(|(x, y)| *x += y);
        sum(&mut self.calls, &other.calls);
        sum(&mut self.absent, &other.absent);
        sum(&mut self.codes, &other.codes);
        sum(&mut self.cases, &other.cases);
        self.none += other.none;
        self.passed += other.passed;
        self.occurrence += other.occurrence;
        self.forced += other.forced;
        sum(&mut self.seven, &other.seven);
        self.seven_otherwise += other.seven_otherwise;
        self.held_back += other.held_back;
        self.made.iter_mut().zip(&other.made).for_each(|(a, b)| sum(a, b));
        self.forms_made += other.forms_made;
        self.stood += other.stood;
        self.untried += other.untried;
        self.differences += other.differences;
    }

    fn met(&mut self, call: &Call, outcome: &Outcome) {
        self.calls[call.number()] += 1;
        self.codes[outcome.code as usize] += 1;
        if outcome.code == 0 {
            match call {
                Call::ResolveEquation { .. } | Call::Step { .. } => self.cases[outcome.answer[0] as usize] += 1,
                Call::DeepNormalForm { .. } if outcome.answer[0] == 0 => self.none += 1,
                _ => {}
            }
        }
    }

    fn met_once(&mut self, call: &Call, a: &Answer) {
        if a.once.seven {
            match a.outcome.code {
                0 => self.seven[call.number()] += 1,
                7 => {}
                _ => self.seven_otherwise += 1,
            }
        }
        self.held_back += a.once.held_back as u64;
    }

    fn met_split(&mut self, s: &Lent, call: &Call, outcome: &Outcome) {
        let split = matches!(call, Call::ResolveEquation { .. } | Call::Step { .. }) && outcome.code == 0 && outcome.answer[0] == SPLIT;
        if split {
            let made = outcome.answer[3];
            self.made[(outcome.answer[1] == 3) as usize][made as usize] += 1;
            self.forms_made += (outcome.exit.state[0] - s.state[0] > made) as u64;
        }
    }

    fn print_made(&self) {
        let each =
            |n: &[u64; 10]| n.iter().enumerate().filter(|x| *x.1 > 0).map(|(i, n)| format!("{i}: {n}")).collect::<Vec<_>>().join(" ");
        let [character, heads] = self.made.each_ref().map(each);
        println!(
            "Splits by the terms that they made, over a character {character}, over two heads {heads}; {} of steps whose forms made terms too",
            self.forms_made
        );
    }

    fn print_once(&self) {
        let each: Vec<String> = NAMES.iter().zip(self.seven).filter(|x| x.1 > 0).map(|(name, n)| format!("{name} {n}")).collect();
        println!(
            "refused under 7 if reasons were repeated: {} answered ({}), {} refused under another number; {} Splits held back by reasons that were listed already",
            self.seven.iter().sum::<u64>(),
            each.join(" "),
            self.seven_otherwise,
            self.held_back
        );
    }

    fn print_calls(&self) {
        for (i, name) in NAMES.iter().enumerate() {
            match (self.calls[i], self.absent[i]) {
                (0, 0) => {}
                (n, 0) => println!("{name}: {n}"),
                (n, absent) => println!("{name}: {n}, and {absent} that the port does not have yet"),
            }
        }
        let c = &self.cases;
        println!(
            "done {} saturated {} conflict {} propagate {} split {} unexpanded {}, deep forms of none {}",
            c[0], c[1], c[2], c[3], c[4], c[5], self.none
        );
    }
}

/// Rounds shared among threads; each round has its own seed, so that any can be run alone.
fn rounds<T: Default + Send>(o: &Options, add: impl Fn(&mut T, &T), round: impl Fn(u64, &mut Random, &mut T) + Sync) -> T {
    let mut total = T::default();
    let parts: Vec<T> = thread::scope(|scope| {
        let running: Vec<_> = (0..o.threads)
            .map(|k| {
                let round = &round;
                scope.spawn(move || {
                    let mut tally = T::default();
                    let mut i = o.from + k;
                    while i < o.from + o.count {
                        round(i, &mut Random::new(o.seed.wrapping_mul(1 << 40) ^ i), &mut tally);
                        i += o.threads;
                    }
                    tally
                })
            })
            .collect();
        running.into_iter().map(|t| t.join().expect("a round failed")).collect()
    });
    parts.iter().for_each(|p| add(&mut total, p));
    total
}

fn draft(i: u64, random: &mut Random) -> Draft {
    if i % 40 == 39 {
        generate::at_limits(random)
    } else {
        let p = generate::profile(random);
        let mut d = generate::draft(random, p);
        generate::hand_in(random, &mut d);
        generate::lay_ahead(random, &mut d);
        d
    }
}

fn request(i: u64, random: &mut Random, s: &Lent, kind: usize) -> Request {
    if i % 40 == 39 && random.one_in(3) {
        generate::long_request(random, s, kind)
    } else {
        generate::request(random, s, kind)
    }
}

// the subject beside the unchanged Rust with the departures laid on top
fn differs(of: Subject, s: &Lent, r: &Request) -> Option<String> {
    let expected = oracle::run(s, r, Mode::Departing).outcome;
    difference(s, r, &expected, &of.run(s, r)?)
}

// differences printed at most, by each thread
const PRINTED: u64 = 5;

fn report(o: &Options, round: u64, d: &Draft, r: &Request, what: &str) {
    println!("round {round}: {what}");
    let plain = *r == Request::new(r.call.clone());
    let (e, call) = if plain {
        shrink::shrink(d.clone(), r.call.clone(), |d, c| differs(o.of, &lay_out(d), &Request::new(c.clone())).is_some())
    } else {
        (d.clone(), r.call.clone())
    };
    let s = lay_out(&e);
    let small = if plain { Request::new(call) } else { r.clone() };
    println!("{}\n{:?}\n{s}", differs(o.of, &s, &small).unwrap_or_default(), small);
    println!("expected {}", oracle::run(&s, &small, Mode::Departing).outcome);
    if let Some(got) = o.of.run(&s, &small) {
        println!("given {got}");
    }
}

fn compare(o: &Options) -> Tally {
    let tally = rounds(o, Tally::add, |i, random, tally| {
        let d = draft(i, random);
        let s = lay_out(&d);
        assert_eq!(audit(&s), 0, "round {i}: a store that should pass");
        for &kind in &o.kinds {
            let r = request(i, random, &s, kind);
            let a = oracle::run(&s, &r, Mode::Departing);
            let Some(got) = o.of.run(&s, &r) else {
                tally.absent[r.call.number()] += 1;
                continue;
            };
            tally.met(&r.call, &a.outcome);
            tally.passed += a.departures.passed as u64;
            tally.occurrence += a.departures.occurrence as u64;
            tally.forced += a.departures.forced as u64;
            tally.met_once(&r.call, &a);
            tally.met_split(&s, &r.call, &a.outcome);
            if let Some(what) = difference(&s, &r, &a.outcome, &got) {
                tally.differences += 1;
                if tally.differences <= PRINTED {
                    report(o, i, &d, &r, &what);
                }
            }
        }
    });
    tally.print_calls();
    tally.print_once();
    tally.print_made();
    let c = &tally.codes;
    println!(
        "{} calls compared, {} that the port lacks; refused before work: {} {} {} {} {} (1 to 5); departures met: {} (A: {} no Conflict, {} occurrence explained; B: {}); limits met: {} ({} {} {} {}, 6 to 9); another form: {} (11); {} differences",
        tally.calls.iter().sum::<u64>(),
        tally.absent.iter().sum::<u64>(),
        c[1], c[2], c[3], c[4], c[5],
        tally.passed + tally.occurrence + tally.forced,
        tally.passed, tally.occurrence, tally.forced,
        c[6..10].iter().sum::<u64>(),
        c[6], c[7], c[8], c[9],
        c[11],
        tally.differences
    );
    tally
}

// stores whose characters are renamed into the standard's range
fn characters(o: &Options) -> renamed::Tally {
    let of = o.of;
    let by = lists::Answering { call: &move |s, r| of.run(s, r), act: &move |s, a, n| of.act(s, a, n) };
    let tally = rounds(o, renamed::Tally::add, |i, random, tally| {
        let s = lay_out(&draft(i, random));
        let mut calls: Vec<Result<(), String>> = vec![];
        for &kind in &o.kinds {
            let r = request(i, random, &s, kind);
            calls.push(renamed::one(random, &by, &s, &r, tally));
        }
        calls.push(renamed::acts(random, &by, &s, tally));
        for what in calls.into_iter().filter_map(Result::err) {
            tally.differences += 1;
            if tally.differences <= PRINTED {
                println!("round {i}: {what}");
            }
        }
    });
    tally.print();
    tally
}

// damaged stores: the subject alone against the audit written anew
fn damaged(o: &Options) -> Tally {
    let rules = damage::rules();
    let tally = rounds(o, Tally::add, |i, random, tally| {
        let d = draft(i, random);
        let s = lay_out(&d);
        let mut stores: Vec<Lent> = rules.iter().filter_map(|rule| damage::broken(&s, rule, random)).collect();
        stores.extend((0..20).map(|_| damage::scrambled(&s, random)));
        stores.push(damage::noise(random));
        for bad in &stores {
            let kind = if random.one_in(2) { 0 } else { *random.pick(&o.kinds) };
            let r = request(i, random, &s, kind);
            let due = oracle::refused_at_entry(bad, &r);
            if due == 0 && r.call != Call::Audit {
                // still a good store
                continue;
            }
            let Some(got) = o.of.run(bad, &r) else {
                tally.absent[r.call.number()] += 1;
                continue;
            };
            let expected = Outcome::idle(bad, &r, due);
            tally.met(&r.call, &expected);
            let what =
                if due == 0 { (got != expected).then(|| "the audit wrote a word".into()) } else { difference(bad, &r, &expected, &got) };
            if let Some(what) = what {
                tally.differences += 1;
                if tally.differences <= PRINTED {
                    println!("round {i}: {what}\n{r:?}\n{bad:?}");
                }
            }
        }
    });
    tally.print_calls();
    let c = &tally.codes;
    println!(
        "{} calls on damaged stores compared, {} that the port lacks; answers 0 to 5: {} {} {} {} {} {}, 12: {}; {} differences",
        tally.calls.iter().sum::<u64>(),
        tally.absent.iter().sum::<u64>(),
        c[0],
        c[1],
        c[2],
        c[3],
        c[4],
        c[5],
        c[12],
        tally.differences
    );
    tally
}

// damaged heads and ninth words, first on the small stores that are listed without gaps
fn damaged_indexes(o: &Options) -> indexes::Tally {
    let of = o.of;
    let by = lists::Answering { call: &move |s, r| of.run(s, r), act: &move |s, a, n| of.act(s, a, n) };
    let small = indexes::small();
    println!("{} small stores to list without gaps", small.len());
    let tally = rounds(o, indexes::Tally::add, |i, random, tally| {
        if let Err(what) = indexes::round(i, &small, random, &by, tally) {
            tally.differences += 1;
            if tally.differences <= PRINTED {
                println!("round {i}: {what}");
            }
        }
    });
    tally.print();
    tally
}

fn small_draft(random: &mut Random) -> Draft {
    let p = generate::Profile { terms: random.between(3, 9), merges: random.between(2, 12), letters: 2, longest: 2 };
    let mut d = generate::draft(random, p);
    generate::hand_in(random, &mut d);
    d
}

// demand 3 by trying
fn claims(o: &Options) -> Tally {
    let tally = rounds(o, Tally::add, |i, random, tally| {
        let s = lay_out(&small_draft(random));
        for kind in 7..=11 {
            let r = generate::request(random, &s, kind);
            let Some(got) = o.of.run(&s, &r) else {
                tally.absent[r.call.number()] += 1;
                continue;
            };
            tally.met(&r.call, &got);
            if let Some(what) = index::amiss(&s, got.code, &got.exit) {
                tally.differences += 1;
                if tally.differences <= PRINTED {
                    println!("round {i}: {what}\n{r:?}\n{s}\ngiven {got}");
                }
                continue;
            }
            let Some(a) = answered(&s, &r.call, &got) else { continue };
            match try_out(&a) {
                Tried::Stands(0) => tally.untried += 1,
                Tried::Stands(_) => tally.stood += 1,
                Tried::Untried => tally.untried += 1,
                Tried::Refuted(words) => {
                    tally.differences += 1;
                    let met = oracle::run(&s, &r, Mode::Departing).departures;
                    tally.passed += (met.passed > 0) as u64;
                    tally.occurrence += (met.occurrence > 0) as u64;
                    tally.forced += (met.forced > 0) as u64;
                    if tally.differences <= PRINTED {
                        println!("round {i}: refuted by {words:?}\n{r:?}\n{s}\ngiven {got}");
                    }
                }
            }
        }
    });
    tally.print_calls();
    println!(
        "{} answers tried: {} stand, {} with no assignment to try; refuted where a departure applies: {} {} (A: one constant, reasons) {} (B); {} differences",
        tally.stood + tally.untried + tally.differences,
        tally.stood, tally.untried, tally.passed, tally.occurrence, tally.forced, tally.differences
    );
    tally
}

// one repeated field: the first `--count` labels of each store, the shorter first
fn repeated(o: &Options) -> fields::Tally {
    let of = o.of;
    let (shelves, words) = (fields::shelves(), fields::words());
    let labels: Vec<Vec<Vec<u32>>> = shelves.iter().map(fields::labels).collect();
    let most = labels.iter().map(Vec::len).max().unwrap_or(0) as u64;
    println!("{most} labels of up to four entries in a store, {} stores", shelves.len());
    let tally = rounds(&Options { count: o.count.min(most), ..o.clone() }, fields::Tally::add, |i, _, tally| {
        for (shelf, labels) in shelves.iter().zip(&labels) {
            let Some(label) = labels.get(i as usize) else { continue };
            if let Err(what) = fields::round(shelf, label, &words, &move |s, r| of.run(s, r), tally) {
                tally.differences += 1;
                if tally.differences <= PRINTED {
                    println!("round {i}: {what}");
                }
            }
        }
    });
    tally.print();
    tally
}

// lists of calls that make terms, join them, set marks and go back
fn listed(o: &Options) -> lists::Tally {
    let of = o.of;
    let by = lists::Answering { call: &move |s, r| of.run(s, r), act: &move |s, a, n| of.act(s, a, n) };
    let tally = rounds(o, lists::Tally::add, |i, random, tally| {
        if let Err(what) = lists::list(random, &by, tally) {
            tally.differences += 1;
            if tally.differences <= PRINTED {
                println!("round {i}: {what}");
            }
        }
    });
    tally.print();
    tally
}

// damaged trails, first those that are listed without gaps
fn damaged_trails(o: &Options) -> trails::Tally {
    let of = o.of;
    let by = lists::Answering { call: &move |s, r| of.run(s, r), act: &move |s, a, n| of.act(s, a, n) };
    let bases = trails::bases();
    println!("{} trails to list without gaps", bases.len());
    let tally = rounds(o, trails::Tally::add, |i, random, tally| {
        if let Err(what) = trails::round(i, &bases, random, &by, tally) {
            tally.differences += 1;
            if tally.differences <= PRINTED {
                println!("round {i}: {what}");
            }
        }
    });
    tally.print();
    tally
}

// every empty part in one call, first on the small stores that are listed without gaps
fn empty_parts(o: &Options) -> empties::Tally {
    let of = o.of;
    let by = lists::Answering { call: &move |s, r| of.run(s, r), act: &move |s, a, n| of.act(s, a, n) };
    let small = empties::small();
    println!("{} small stores to list without gaps", small.len());
    let tally = rounds(o, empties::Tally::add, |i, random, tally| {
        if let Err(what) = empties::round(i, &small, random, &by, tally) {
            tally.differences += 1;
            if tally.differences <= PRINTED {
                println!("round {i}: {what}");
            }
        }
    });
    tally.print();
    tally
}

// the forced length, first on the small stores that are listed without gaps
fn forced_lengths(o: &Options) -> lengths::Tally {
    let of = o.of;
    let call = move |s: &Lent, r: &Request| of.run(s, r);
    let small = lengths::small();
    println!("{} small stores to list without gaps", small.len());
    let tally = rounds(o, lengths::Tally::add, |i, random, tally| {
        if let Err(what) = lengths::round(i, &small, random, &call, tally) {
            tally.differences += 1;
            if tally.differences <= PRINTED {
                println!("round {i}: {what}");
            }
        }
    });
    tally.print();
    tally
}

// the smallest inputs on which the unchanged Rust gives an answer that fails demand 3
fn faults(o: &Options) {
    let mut smallest: [Option<(usize, Draft, Call)>; 3] = [None, None, None];
    for i in o.from..o.from + o.count {
        let random = &mut Random::new(o.seed.wrapping_mul(1 << 40) ^ i);
        let d = small_draft(random);
        let kind = random.between(10, 11);
        let call = generate::call(random, &lay_out(&d), kind);
        for which in 0..3 {
            let found = |d: &Draft, c: &Call| {
                let (s, r) = (lay_out(d), Request::new(c.clone()));
                let met = oracle::run(&s, &r, Mode::Departing).departures;
                let outcome = oracle::run(&s, &r, Mode::Unchanged).outcome;
                [met.passed, met.occurrence, met.forced][which] > 0
                    && answered(&s, c, &outcome).is_some_and(|a| matches!(try_out(&a), Tried::Refuted(_)))
            };
            if found(&d, &call) {
                let (e, c) = shrink::shrink(d.clone(), call.clone(), found);
                let size = shrink::size(&e, &c);
                if smallest[which].as_ref().is_none_or(|x| size < x.0) {
                    smallest[which] = Some((size, e, c));
                }
            }
        }
    }
    let names = ["A: one constant is both", "A: the occurrence's reasons are missing", "B: the later variables' reasons are missing"];
    for (name, found) in names.iter().zip(smallest) {
        println!("{name}");
        let Some((_, d, call)) = found else { continue };
        let s = lay_out(&d);
        let outcome = oracle::run(&s, &Request::new(call.clone()), Mode::Unchanged).outcome;
        println!("{call:?}\n{s}\nthe Rust answers {:?} with reasons {:?}", &outcome.answer[..1], outcome.exit.reason_list());
        if let Tried::Refuted(words) = try_out(&answered(&s, &call, &outcome).unwrap()) {
            println!("refuted by {words:?}");
        }
    }
}

// answers of the unchanged Rust as input and output of the program `answers`; `--count` calls of each case
fn stored(o: &Options) {
    let (files, tally) = vectors::draw(o.seed, o.count);
    if let Err(e) = vectors::write(&files, &tally, &o.out) {
        eprintln!("{}: {e}", o.out.display());
        exit(1);
    }
    println!("{}", tally.summary(&files));
    if !tally.missing().is_empty() {
        println!("no call of these cases: {}", tally.missing().join("; "));
        exit(1);
    }
}

fn main() {
    let arguments: Vec<String> = env::args().skip(1).collect();
    let Some((command, rest)) = arguments.split_first() else { usage() };
    let o = options(rest);
    let differences = match command.as_str() {
        "compare" => compare(&o).differences,
        "renamed" => {
            let t = characters(&o);
            t.differences + t.absent
        }
        "damaged" => damaged(&o).differences,
        "indexes" => {
            let t = damaged_indexes(&o);
            t.differences + t.absent
        }
        "claims" => claims(&o).differences,
        // nothing is compared where a call is not there
        "fields" => {
            let t = repeated(&o);
            t.differences + t.absent
        }
        "lists" => {
            let t = listed(&o);
            t.differences + t.absent
        }
        "trails" => {
            let t = damaged_trails(&o);
            t.differences + t.absent
        }
        "empties" => {
            let t = empty_parts(&o);
            t.differences + t.absent
        }
        "lengths" => {
            let t = forced_lengths(&o);
            t.differences + t.absent
        }
        "faults" => return faults(&o),
        "vectors" => return stored(&o),
        "speed" => return speed::table(o.seed),
        "worst" => return speed::worst(),
        #[cfg(feature = "port")]
        "stack" => return differential::stack::table(),
        #[cfg(feature = "port")]
        "pace" => return differential::pace::table(o.seed),
        #[cfg(feature = "port")]
        "pace-count" => return differential::pace::counts(o.seed, "target/count"),
        #[cfg(feature = "port")]
        "count" => return differential::count::table(o.seed, &o.kinds, "target/count"),
        _ => usage(),
    };
    if differences > 0 {
        exit(1);
    }
}
