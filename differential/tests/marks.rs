//! Joining, marks and going back: small cases of document 02's Note 1 by hand, and that lists and damaged trails find planted faults.

use differential::{
    audit::{audit, table_passes},
    draft::*,
    lent::Lent,
    lists::{self, Answering},
    marks::{audit_marked, run, Act, Marked, Told, STANDING, WORDS},
    model,
    random::Random,
    trails,
};

fn variables(names: &[&str]) -> Marked {
    let mut d = Draft::default();
    for name in names {
        d.variable(name);
    }
    Marked::unmarked(lay_out(&d), vec![7; WORDS])
}

fn told(s: &Marked, act: Act) -> Told {
    let t = run(s, &act, 8);
    #[cfg(feature = "port")]
    if let Some(by_port) = differential::port::run_act(s, &act, 8) {
        assert_eq!(t, by_port, "{act:?} on {s}");
    }
    t
}

fn after(s: &Marked, acts: &[Act]) -> Marked {
    acts.iter().fold(s.clone(), |s, &a| {
        let t = told(&s, a);
        assert_eq!(t.code, 0, "{a:?} on {s}");
        t.exit
    })
}

fn join(a: u32, b: u32) -> Act {
    Act::Join { a, b, kind: 1, number: 5 }
}

fn back(mark: u32) -> Act {
    Act::GoBack { mark }
}

fn classes(s: &Marked) -> Vec<u32> {
    (1..=s.store.count()).map(|t| s.store.class_root(t)).collect()
}

// 1 and 2 joined, a mark, 2 and 3 joined: 2's tree hangs under 3, and going back leaves 1 under 2
#[test]
fn going_back_restores_words() {
    let s = variables(&["x", "y", "z"]);
    let marked = after(&s, &[join(1, 2), Act::SetMark]);
    let joined = after(&marked, &[join(1, 3)]);
    assert_eq!(&joined.store.words(1)[3..], &[2, 3, 1, 5, 0]);
    assert_eq!(&joined.store.words(2)[3..], &[3, 1, 1, 5, 0]);
    assert_eq!((joined.record(0), joined.joins(), joined.marks[0]), ([1, 2, 2], 1, 0));
    let gone = after(&joined, &[back(1)]);
    assert_eq!(gone.store, Lent { state: s.store.state.clone(), ..marked.store });
    assert_eq!(gone.marks, joined.marks);
}

#[test]
fn marks_are_numbered_by_position() {
    let s = variables(&["x", "y"]);
    let two = after(&s, &[Act::SetMark, Act::SetMark]);
    assert_eq!(told(&two, Act::SetMark).answer[0], 3);
    assert_eq!(told(&after(&two, &[back(1)]), Act::SetMark).answer[0], 1);
    for mark in [0, 3, 64, u32::MAX] {
        assert_eq!(told(&two, back(mark)).code, 10);
    }
    let full = after(&s, &vec![Act::SetMark; STANDING as usize]);
    assert_eq!(told(&full, Act::SetMark).code, 10);
    assert_eq!(told(&full, back(64)).code, 0);
}

#[test]
fn joins_that_change_nothing_and_that_are_refused() {
    let s = after(&variables(&["x", "y"]), &[Act::SetMark, join(1, 2)]);
    for act in [join(1, 2), join(2, 1), join(1, 1)] {
        let t = told(&s, act);
        assert_eq!((t.code, t.answer[0], t.exit), (0, 0, s.clone()));
    }
    for (kind, number) in [(0, 1), (3, 1), (4, 0), (1, 1 << 31), (2, u32::MAX)] {
        assert_eq!(told(&s, Act::Join { a: 1, b: 1, kind, number }).code, 5);
    }
    assert_eq!(told(&s, join(0, 1)).code, 5);
    assert_eq!(told(&s, join(1, 3)).code, 5);
    assert_eq!(told(&s, Act::Join { a: 1, b: 1, kind: 2, number: (1 << 31) - 1 }).code, 0);
}

// x, u, xx, uu: x and u joined, xx and uu congruent
fn congruent() -> Marked {
    let mut d = Draft::default();
    let (x, u) = (d.variable("x"), d.variable("u"));
    let (xx, uu) = (d.concat(&[x, x]), d.concat(&[u, u]));
    d.variable("v");
    d.merge(x, u, Label::Asserted(1));
    d.edges.push(Edge { a: xx, b: uu, label: Label::Congruence, stamp: 1 });
    Marked::unmarked(lay_out(&d), vec![0; WORDS])
}

#[test]
fn the_audit_of_marks_goes_by_number() {
    let s = after(&congruent(), &[Act::SetMark, join(1, 5), Act::SetMark]);
    let due = |change: &dyn Fn(&mut Marked)| {
        let mut bad = s.clone();
        change(&mut bad);
        let code = told(&bad, back(0)).code;
        assert_eq!(code, if audit_marked(&bad) == 0 { 10 } else { audit_marked(&bad) });
        code
    };
    assert_eq!(due(&|_| ()), 10);
    // 1: sizes and counts
    assert_eq!(due(&|s| s.marks.truncate(WORDS - 1)), 1);
    assert_eq!(due(&|s| s.store.state.truncate(7)), 1);
    assert_eq!(due(&|s| s.store.state[6] = 65), 1);
    assert_eq!(due(&|s| s.store.state[7] = 512), 1);
    // 3: a first mark above 0, counts that fall, joins where no mark stands
    assert_eq!(due(&|s| s.marks[0] = 1), 3);
    assert_eq!(due(&|s| s.marks[1] = 2), 3);
    assert_eq!(due(&|s| s.store.state[6] = 0), 3);
    // no trace of a join: no term, a root of its tree, a class root that is its own parent
    let root = s.store.class_root(1);
    let top = *s.store.ancestors(1).last().unwrap();
    assert_eq!(due(&|s| s.marks[64] = 0), 3);
    assert_eq!(due(&|s| s.marks[65] = 6), 3);
    assert_eq!(due(&|s| s.marks[64] = top), 3);
    assert_eq!(due(&|s| s.marks[66] = root), 3);
    // the congruence's stamp falls to that of its pairs' path: 4 of the table, but 3 while a mark's table has it too
    let stamped = |s: &mut Marked| {
        let xx = if s.store.is_edge(3) { 3 } else { 4 };
        s.store.class_words(xx)[4] = 0;
    };
    assert_eq!(due(&stamped), 3);
    let mut bare = congruent();
    stamped(&mut bare);
    assert_eq!(told(&bare, back(0)).code, 4);
    // the edge of the pairs' path cut by going back: 3, with a table that passes
    let mut cut = after(&congruent(), &[Act::SetMark]);
    let child = if cut.store.is_edge(1) { 1 } else { 2 };
    let under = if cut.store.term(1).class_parent == 1 { 2 } else { 1 };
    cut.marks[64..67].copy_from_slice(&[child, child, under]);
    cut.store.state[7] = 1;
    assert_eq!(audit(&cut.store), 0);
    assert!(cut.undone(0).is_some_and(|table| !table_passes(&table)));
    assert_eq!(told(&cut, back(0)).code, 3);
}

#[test]
fn later_terms_stay_alone() {
    let s = after(&variables(&["x", "y"]), &[Act::SetMark, join(1, 2)]);
    let mut more = s.clone();
    let place = more.store.add_text(&text("w"));
    more.store.add_term(2, place, 1);
    let gone = after(&more, &[join(2, 3), back(1)]);
    assert_eq!((gone.store.count(), classes(&gone)), (3, vec![1, 2, 3]));
}

type Calls = fn(&Marked, &Act, usize) -> Told;

fn found_by_lists(act: Calls) -> bool {
    let by = Answering { call: &|s, r| Some(model::run(s, r)), act: &|s, a, n| Some(act(s, a, n)) };
    (0..200).any(|i| lists::list(&mut Random::new(i), &by, &mut lists::Tally::default()).is_err())
}

fn found_by_trails(act: Calls) -> bool {
    let by = Answering { call: &|s, r| Some(model::run(s, r)), act: &|s, a, n| Some(act(s, a, n)) };
    let bases = trails::bases();
    (0..1000).any(|i| trails::round(i, &bases, &mut Random::new(i), &by, &mut trails::Tally::default()).is_err())
}

#[test]
fn planted_faults_are_found() {
    // a mark more than 64
    let marks: Calls = |s, a, n| {
        let mut t = run(s, a, n);
        if t.code == 10 && *a == Act::SetMark {
            t.code = 0;
        }
        t
    };
    assert!(found_by_lists(marks));
    // a class parent that is not given back
    let parents: Calls = |s, a, n| {
        let mut t = run(s, a, n);
        if matches!(a, Act::GoBack { .. }) && t.code == 0 && s.joins() > 0 {
            let under = s.record(s.joins() - 1)[2];
            t.exit.store.set_class_parent(under, s.store.term(under).class_parent);
        }
        t
    };
    assert!(found_by_lists(parents) && found_by_trails(parents));
    // an edge that is not turned back
    let turned: Calls = |s, a, n| {
        let mut t = run(s, a, n);
        if matches!(a, Act::GoBack { .. }) && t.code == 0 && s.joins() > 0 {
            let old = s.record(s.joins() - 1)[1];
            t.exit.store.class_words(old)[1..].copy_from_slice(&s.store.words(old)[4..]);
        }
        t
    };
    assert!(found_by_lists(turned) && found_by_trails(turned));
    // a path made shorter on the way, as `find` might
    let shorter: Calls = |s, a, n| {
        let mut t = run(s, a, n);
        if let (0, Act::Join { a, .. }) = (t.code, a) {
            let root = t.exit.store.class_root(*a);
            t.exit.store.set_class_parent(*a, root);
        }
        t
    };
    assert!(found_by_lists(shorter));
    // an audit that does not hold the marks' tables to 4
    let lax: Calls = |s, a, n| {
        let mut t = run(s, a, n);
        if t.code == 3 && audit(&s.store) == 4 {
            t.code = 4;
        }
        t
    };
    assert!(found_by_trails(lax));
    // refusals that write
    let writes: Calls = |s, a, n| {
        let mut t = run(s, a, n);
        if t.code == 5 {
            t.answer[0] = 0;
        }
        t
    };
    assert!(found_by_lists(writes));
}
