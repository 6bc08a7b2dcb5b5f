//! A draft and a call made smaller while what was found in them stays.

use crate::{audit::audit, call::*, draft::*};

fn smaller_drafts(d: &Draft, call: &Call) -> Vec<(Draft, Call)> {
    let mut list = vec![];
    let same = |d: Draft| (d, call.clone());
    if d.layout != 0 {
        list.push(same(Draft { layout: 0, ..d.clone() }));
    }
    for i in 0..d.edges.len() {
        let mut e = d.clone();
        e.edges.remove(i);
        list.push(same(e));
    }
    for t in (1..=d.count()).rev() {
        let mut smaller = call.clone();
        let uses = |c: &mut Call| c.terms_mut().iter().any(|x| **x == t) || c.lists_mut().iter().any(|l| l.contains(&t));
        if uses(&mut smaller) {
            continue;
        }
        if let Some(e) = d.without(t) {
            let down = |x: &mut u32| *x -= (*x > t) as u32;
            smaller.terms_mut().into_iter().for_each(down);
            smaller.lists_mut().into_iter().for_each(|l| l.iter_mut().for_each(down));
            list.push((e, smaller));
        }
    }
    for i in 0..d.specs.len() {
        if let Spec::Constant(w) = &d.specs[i] {
            if !w.is_empty() {
                let mut e = d.clone();
                e.specs[i] = Spec::Constant(w[1..].to_vec());
                list.push(same(e));
            }
        }
        if let Spec::Concat(parts) = &d.specs[i] {
            if parts.len() > 2 {
                for at in 0..parts.len() {
                    let mut e = d.clone();
                    let mut fewer = parts.clone();
                    fewer.remove(at);
                    e.specs[i] = Spec::Concat(fewer);
                    list.push(same(e));
                }
            }
        }
    }
    if !d.reasons.is_empty() {
        list.push(same(Draft { reasons: vec![], ..d.clone() }));
        // halves of a long list, one less of a short one
        let n = d.reasons.len();
        let part = n.div_ceil(if n > 16 { 2 } else { n });
        for i in (0..n).step_by(part) {
            let reasons = [&d.reasons[..i], &d.reasons[(i + part).min(n)..]].concat();
            list.push(same(Draft { reasons, ..d.clone() }));
        }
    }
    if !d.keys.is_empty() {
        list.push(same(Draft { keys: vec![], ..d.clone() }));
    }
    if d.names != 0 {
        list.push(same(Draft { names: 0, ..d.clone() }));
    }
    if d.spare != Draft::default().spare {
        list.push(same(Draft { spare: Draft::default().spare, ..d.clone() }));
    }
    for i in 0..d.edges.len() {
        if !matches!(d.edges[i].label, Label::Asserted(1) | Label::Definitional) {
            let mut e = d.clone();
            e.edges[i].label = Label::Asserted(1);
            list.push(same(e));
        }
    }
    list
}

fn smaller_calls(call: &Call) -> Vec<Call> {
    let mut list = vec![];
    let lists: Vec<Vec<u32>> = call.clone().lists_mut().into_iter().map(|l| l.clone()).collect();
    for (i, l) in lists.iter().enumerate() {
        for at in 0..l.len() {
            let mut c = call.clone();
            c.lists_mut()[i].remove(at);
            list.push(c);
        }
    }
    list
}

/// The smallest that the steps reach. `found` is asked only of drafts whose store passes the audit.
pub fn shrink(d: Draft, call: Call, found: impl Fn(&Draft, &Call) -> bool) -> (Draft, Call) {
    let (mut d, mut call) = (d, call);
    'again: loop {
        let calls = smaller_calls(&call).into_iter().map(|c| (d.clone(), c));
        for (e, c) in calls.chain(smaller_drafts(&d, &call)) {
            if sound(&e) && audit(&lay_out(&e)) == 0 && found(&e, &c) {
                (d, call) = (e, c);
                continue 'again;
            }
        }
        return (d, call);
    }
}

// a congruence's pairs must still be joined, and parts be alike in number
fn sound(d: &Draft) -> bool {
    d.edges
        .iter()
        .filter(|e| e.label == Label::Congruence)
        .all(|e| matches!((d.parts(e.a), d.parts(e.b)), (Some(x), Some(y)) if x.len() == y.len()))
}

/// How large: terms, merges, and what the call lists.
pub fn size(d: &Draft, call: &Call) -> usize {
    let listed: usize = call.clone().lists_mut().iter().map(|l| l.len()).sum();
    let characters: usize = d.specs.iter().map(|s| if let Spec::Constant(w) = s { w.len() } else { 0 }).sum();
    10 * d.specs.len() + 5 * d.edges.len() + 2 * listed + characters
}
