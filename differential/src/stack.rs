//! How deep the port's calls go: the stack below a call is painted first, and what it wrote over is counted after.

use crate::{
    audit::audit,
    call::{Call, Request},
    draft::{lay_out, Draft, Edge, Label, Spec},
    generate,
    lent::{Lent, TERMS},
    marks::{Act, Marked, WORDS},
    port,
    random::Random,
};
use std::{ptr, thread};

const PAINT: u64 = 0x5A5A_C3C3_9696_F0F0;
const PAINTED: usize = 2 << 20;
// for the painting's own frames
const OWN: usize = 4096;

#[inline(never)]
fn paint(top: usize) {
    (top - PAINTED..top - OWN).step_by(8).for_each(|p| unsafe { ptr::write_volatile(p as *mut u64, PAINT) });
}

#[inline(never)]
fn written(top: usize) -> usize {
    let painted = |p: &usize| unsafe { ptr::read_volatile(*p as *const u64) } == PAINT;
    top - (top - PAINTED..top - OWN).step_by(8).find(|p| !painted(p)).unwrap_or(top - OWN)
}

// in bytes, from the caller of the exported function down; a call that stays within the painting's own frames counts as those
fn below(call: impl FnOnce() + Send + 'static) -> usize {
    let run = move || {
        let here = 0_u64;
        let top = ptr::from_ref(&here) as usize & !7;
        paint(top);
        call();
        written(top)
    };
    thread::Builder::new().stack_size(2 * PAINTED).spawn(run).unwrap().join().unwrap()
}

fn depth(mut store: Lent, call: Call) -> usize {
    let (mut list, mut answer) = (vec![0; 1024], vec![0; 8]);
    below(move || {
        port::call(&mut port::Lending { store: &mut store, list: &mut list, answer: &mut answer }, &call);
    })
}

// 512 terms in one line under 64 marks, and under none
fn on_marks() {
    let mut d = Draft { layout: 0, spare: [0; 5], ..Draft::default() };
    for t in 0..TERMS {
        d.variable(&format!("x{t}"));
    }
    let none = Marked::unmarked(lay_out(&d), vec![0; WORDS]);
    let mut s = none.clone();
    for t in 1..TERMS as u32 {
        if t % 8 == 1 {
            port::act(&mut s, &mut [0; 8], &Act::SetMark);
        }
        port::act(&mut s, &mut [0; 8], &Act::Join { a: t, b: t + 1, kind: 1, number: 1 });
    }
    for (name, s, act) in [
        ("join with no mark", &none, Act::Join { a: 1, b: 2, kind: 1, number: 1 }),
        ("join under 64 marks", &s, Act::Join { a: 1, b: 2, kind: 1, number: 1 }),
        ("set_mark with no mark", &none, Act::SetMark),
        ("go_back to the first of 64 marks", &s, Act::GoBack { mark: 1 }),
    ] {
        let mut s = s.clone();
        let bytes = below(move || assert_eq!(port::act(&mut s, &mut [0; 8], &act), 0));
        println!("{bytes:8}  {name}: 512 terms");
    }
}

// variables u and v of one class, their path through a tower of congruences
fn under_a_tower(height: usize) -> (Lent, [u32; 3]) {
    let mut d = generate::tower(&mut Random::new(1), height, Label::Asserted(5));
    let (a, b) = (d.count() - 2, d.count() - 1);
    let (u, v) = (d.variable("u"), d.variable("v"));
    d.merge(u, a, Label::Asserted(6));
    d.merge(v, b, Label::Asserted(7));
    let e = d.add(Spec::Equation(u, v));
    d.spare = [4, 8, 40, 2000, 8];
    (lay_out(&d), [u, v, e])
}

// the same through a tower of 506 congruences, one term to a level: x is x ++ z, and each further t ++ z is congruent to t
fn under_a_slim_tower() -> (Lent, [u32; 3]) {
    let mut d = Draft { layout: 0, spare: [0, 8, 40, 2000, 8], ..Draft::default() };
    let [x, z, u, v] = ["x", "z", "u", "v"].map(|n| d.variable(n));
    let (mut below, mut top) = (x, d.concat(&[x, z]));
    d.merge(x, top, Label::Asserted(1));
    for stamp in 1..=506 {
        let next = d.concat(&[top, z]);
        d.edges.push(Edge { a: next, b: top, label: Label::Congruence, stamp });
        (below, top) = (top, next);
    }
    d.merge(u, top, Label::Asserted(6));
    d.merge(v, below, Label::Asserted(7));
    let e = d.add(Spec::Equation(u, v));
    // a layout that leaves few cells between the chains
    d.layout = (0..200).find(|&layout| audit(&lay_out(&Draft { layout, ..d.clone() })) == 0).expect("a layout that fits");
    (lay_out(&d), [u, v, e])
}

// concatenations within each other
fn nested(height: usize) -> (Lent, u32) {
    let mut d = Draft { layout: 0, spare: [4, 8, 40, 2000, 8], ..Draft::default() };
    let x = d.variable("x");
    let t = (0..height).fold(x, |t, _| d.concat(&[t, x]));
    (lay_out(&d), t)
}

pub fn table() {
    println!("   bytes  call");
    let tell = |name: &str, store: &Lent, call: Call| {
        assert_eq!(audit(store), 0, "{name}");
        println!("{:8}  {}: {name}", depth(store.clone(), call.clone()), Request::new(call).call.name());
    };
    for (name, store, call) in generate::worst() {
        tell(name, &store, call);
    }
    let (store, [u, v, e]) = under_a_slim_tower();
    let slim = "through a tower of 506 congruences, one term to a level";
    tell(slim, &store, Call::Explain { a: u, b: v });
    tell(slim, &store, Call::Step { known: vec![u], equation: e, guard: 1 });
    let (store, [u, v, e]) = under_a_tower(250);
    let tower = "through a tower of 250 congruences";
    tell(tower, &store, Call::Explain { a: u, b: v });
    tell(tower, &store, Call::NormalForm { known: vec![u], t: v });
    tell(tower, &store, Call::DeepNormalForm { known: vec![u], t: v });
    tell(tower, &store, Call::ResolveEquation { lhs: vec![u, u], rhs: vec![v, v], guard: 1 });
    tell(tower, &store, Call::Step { known: vec![], equation: e, guard: 1 });
    tell(tower, &store, Call::Step { known: vec![u], equation: e, guard: 1 });
    tell(tower, &store, Call::NfEqualExplain { lhs: vec![u], rhs: vec![v] });
    let (store, t) = nested(508);
    tell("508 concatenations within each other", &store, Call::NormalForm { known: vec![], t });
    tell("508 concatenations within each other", &store, Call::DeepNormalForm { known: vec![], t });
    tell("508 concatenations within each other", &store, Call::ResolveEquation { lhs: vec![t], rhs: vec![t - 1], guard: 1 });
    on_marks();
}
