//! Two outcomes of one call, compared as far as the documents say what they are.

use crate::{
    call::{Outcome, Request},
    index,
    lent::Lent,
};

/// What differs, if anything; at last the index that was left, from that of the records.
pub fn difference(entry: &Lent, request: &Request, expected: &Outcome, got: &Outcome) -> Option<String> {
    outcomes(entry, request, expected, got).or_else(|| index::amiss(entry, got.code, &got.exit))
}

fn outcomes(entry: &Lent, request: &Request, expected: &Outcome, got: &Outcome) -> Option<String> {
    if expected.code != got.code {
        return Some(format!("result {} expected, {} given", expected.code, got.code));
    }
    match expected.code {
        0 => answered(request, expected, got),
        // 'Refusals 1 to 5 write nothing', 'Refusals added from here on write nothing'
        1..=5 | 10.. => {
            let idle = Outcome::idle(entry, request, expected.code);
            (*got != idle).then(|| "a refused call wrote a word".into())
        }
        // 'return the counts and the name counter of entry; records below those counts keep their contents'
        _ => {
            if got.exit.state != entry.state {
                return Some("counts changed by a refused call".into());
            }
            (got.exit.counted() != entry.counted()).then(|| "counted words changed by a refused call".into())
        }
    }
}

fn answered(request: &Request, expected: &Outcome, got: &Outcome) -> Option<String> {
    let (words, list) = expected.meant(&request.call);
    if expected.answer[..words] != got.answer[..words] {
        return Some(format!("answer {:?} expected, {:?} given", &expected.answer[..words], &got.answer[..words]));
    }
    if expected.list[..list] != got.list[..list] {
        return Some(format!("list {:?} expected, {:?} given", &expected.list[..list], &got.list[..list]));
    }
    if expected.exit.state != got.exit.state {
        return Some(format!("state {:?} expected, {:?} given", expected.exit.state, got.exit.state));
    }
    let names = ["state", "terms", "cells", "characters", "reasons", "keys", "heads"];
    let (a, b) = (expected.exit.counted(), got.exit.counted());
    (0..names.len()).find(|&i| a[i] != b[i]).map(|i| format!("{} differ: {:?} expected, {:?} given", names[i], a[i], b[i]))
}
