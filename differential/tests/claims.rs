//! Demand 3 by trying: it finds the faults of the unchanged Rust in steps 2 and 5, and none once the departures are laid on top.

use differential::{
    call::*,
    claim::{answered, try_out, Tried},
    draft::*,
    generate,
    lent::Lent,
    model,
    oracle::{self, Departures, Mode},
    random::Random,
};

fn resolve(lhs: &[u32], rhs: &[u32]) -> Request {
    Request::new(Call::ResolveEquation { lhs: lhs.to_vec(), rhs: rhs.to_vec(), guard: 9 })
}

fn tried(s: &Lent, r: &Request, outcome: &Outcome) -> Option<Tried> {
    answered(s, &r.call, outcome).map(|a| try_out(&a))
}

fn is_refuted(s: &Lent, r: &Request, mode: Mode) -> bool {
    matches!(tried(s, r, &oracle::run(s, r, mode).outcome), Some(Tried::Refuted(_)))
}

// refuted as the Rust gives it, and not with the departures; departures met
fn fault(d: &Draft, r: &Request) -> Departures {
    let s = lay_out(d);
    assert_eq!(oracle::run(&s, r, Mode::Unchanged).outcome.answer[0], CONFLICT);
    assert!(is_refuted(&s, r, Mode::Unchanged), "{s}");
    assert!(!is_refuted(&s, r, Mode::Departing), "{s}");
    oracle::run(&s, r, Mode::Departing).departures
}

// [v] = ["", "a", ""], v and "a" merged: v = "a" makes the sides equal
#[test]
fn one_constant_as_occurrence_and_constant() {
    for label in [Label::Asserted(1), Label::Interface(1), Label::Definitional] {
        let mut d = Draft::default();
        let (v, e, a) = (d.variable("v"), d.constant(""), d.constant("a"));
        d.merge(v, a, label);
        assert_eq!(fault(&d, &resolve(&[v], &[e, a, e])).passed, 1);
        assert_eq!(fault(&d, &resolve(&[e, a, e], &[v])).passed, 1);
    }
}

// [v] = ["a", u, "a"], u and v merged by a1, which the Rust does not name: v = "aa", u = "" makes the sides equal
#[test]
fn reason_of_the_occurrence() {
    let mut d = Draft::default();
    let (u, v, a) = (d.variable("u"), d.variable("v"), d.constant("a"));
    d.merge(u, v, Label::Asserted(1));
    let r = resolve(&[v], &[a, u, a]);
    assert_eq!(fault(&d, &r).occurrence, 1);
    let s = lay_out(&d);
    let a = oracle::run(&s, &r, Mode::Departing).outcome;
    assert_eq!((a.answer[0], a.exit.reason_list()), (CONFLICT, vec![(1, 1)]));
}

// [u, v] = ["a"], u and v merged by a1, which the Rust does not name: u = "", v = "a" makes the sides equal
#[test]
fn reasons_of_merged_variables() {
    let mut d = Draft::default();
    let (u, v, a) = (d.variable("u"), d.variable("v"), d.constant("a"));
    d.merge(u, v, Label::Asserted(1));
    let r = resolve(&[u, v], &[a]);
    assert_eq!(fault(&d, &r).forced, 1);
    let s = lay_out(&d);
    let a = oracle::run(&s, &r, Mode::Departing).outcome;
    assert_eq!((a.answer[0], a.exit.reason_list()), (CONFLICT, vec![(1, 1)]));
}

// a merge that is definitional, or named by an incoming reason, needs no naming
#[test]
fn no_fault_where_the_merge_holds() {
    for label in [Label::Asserted(1), Label::Definitional] {
        let mut d = Draft::default();
        let (u, v, a) = (d.variable("u"), d.variable("v"), d.constant("a"));
        d.merge(u, v, label);
        if label != Label::Definitional {
            d.reasons.push((1, 1));
        }
        let s = lay_out(&d);
        for r in [resolve(&[u, v], &[a]), resolve(&[v], &[a, u, a])] {
            assert!(!is_refuted(&s, &r, Mode::Unchanged));
        }
    }
}

// answers that are wrong in ways that document 01 warns of are refuted
#[test]
fn wrong_answers_are_refuted() {
    let mut d = Draft::default();
    let (x, y, u, a) = (d.variable("x"), d.variable("y"), d.variable("u"), d.constant("a"));
    d.merge(x, y, Label::Asserted(9));
    let s = lay_out(&d);
    // [x, u] = [y, "a"]: Propagate u "a", a9
    let r = resolve(&[x, u], &[y, a]);
    let right = oracle::run(&s, &r, Mode::Departing).outcome;
    assert_eq!((&right.answer[..4], right.exit.reason_list()), (&[PROPAGATE, u, a, 0][..], vec![(1, 9)]));
    assert!(matches!(tried(&s, &r, &right), Some(Tried::Stands(n)) if n > 0));
    // a count one too low
    let mut low = right.clone();
    low.exit.state[3] -= 1;
    assert!(matches!(tried(&s, &r, &low), Some(Tried::Refuted(_))));
    // the other variable
    let mut other = right.clone();
    other.answer[1] = x;
    assert!(matches!(tried(&s, &r, &other), Some(Tried::Refuted(_))));
    // Conflict for an equation that has a solution
    let mut conflict = right;
    conflict.answer[0] = CONFLICT;
    assert!(matches!(tried(&s, &r, &conflict), Some(Tried::Refuted(_))));
    // an explanation cut short
    let r = Request::new(Call::Explain { a: x, b: y });
    let mut short = oracle::run(&s, &r, Mode::Departing).outcome;
    assert!(matches!(tried(&s, &r, &short), Some(Tried::Stands(n)) if n > 0));
    short.exit.state[3] -= 1;
    assert!(matches!(tried(&s, &r, &short), Some(Tried::Refuted(_))));
    // a Split that leaves a case out
    let r = resolve(&[u, x], &[a, u]);
    let split = oracle::run(&s, &r, Mode::Departing).outcome;
    assert_eq!(split.answer[0], SPLIT);
    assert!(matches!(tried(&s, &r, &split), Some(Tried::Stands(n)) if n > 0));
    for left_out in 0..2 {
        let mut fewer = split.clone();
        fewer.answer[1] = 1;
        fewer.list[0] = split.list[1 - left_out];
        assert!(matches!(tried(&s, &r, &fewer), Some(Tried::Refuted(_))), "without {left_out}");
    }
}

// random small stores: every refuted answer of the Rust is one that a departure mends
#[test]
fn random_small_stores() {
    let mut random = Random::new(5);
    let (mut stand, mut faults) = (0, [0; 3]);
    for i in 0..6_000 {
        let p = generate::Profile { terms: random.between(3, 9), merges: 8, letters: 2, longest: 2 };
        let d = generate::draft(&mut random, p);
        let s = lay_out(&d);
        for kind in if i % 8 == 0 { 7..=11 } else { 10..=11 } {
            let r = generate::request(&mut random, &s, kind);
            let a = oracle::run(&s, &r, Mode::Departing);
            for outcome in [&a.outcome, &model::run(&s, &r)] {
                match tried(&s, &r, outcome) {
                    Some(Tried::Refuted(w)) => panic!("{r:?}\n{s}\n{outcome}\n{w:?}"),
                    Some(Tried::Stands(n)) if n > 0 => stand += 1,
                    _ => {}
                }
            }
            if is_refuted(&s, &r, Mode::Unchanged) {
                let met = a.departures;
                assert_ne!(met, Departures::default(), "{r:?}\n{s}");
                faults[0] += met.passed;
                faults[1] += met.occurrence;
                faults[2] += met.forced;
            }
        }
    }
    assert!(stand > 1_000 && faults.iter().all(|&n| n > 0), "{stand} {faults:?}");
}
