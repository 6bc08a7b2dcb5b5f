//! One repeated field: the trying by hand, on the shortest labels, and that it finds planted faults.

use differential::{
    call::*,
    draft::*,
    fields::{labels, lists, round, shelves, some_word, words, Shelf, Tally},
    lent::Lent,
    model,
};

fn all_of(call: &dyn Fn(&Lent, &Request) -> Option<Outcome>, longest: usize) -> Result<Tally, String> {
    let (words, mut tally) = (words(), Tally::default());
    for shelf in shelves() {
        for label in labels(&shelf).iter().filter(|l| l.len() <= longest) {
            round(&shelf, label, &words, call, &mut tally)?;
        }
    }
    Ok(tally)
}

// [x, "-", x] against "7-7", "7-" and "7-8": a word, none by length, none by a character
#[test]
fn three_labels() {
    let mut d = Draft::default();
    let (x, dash) = (d.variable("x"), d.constant("-"));
    let codes = ["7-7", "7-", "7-8"].map(|w| d.constant(w));
    let s = lay_out(&d);
    let words = lists(&text("7-8"), 3);
    let found = codes.map(|c| some_word(&s, &[c], &[x, dash, x], x, &words));
    assert_eq!(found, [Some(text("7")), None, None]);
    for (c, word) in codes.iter().zip(found) {
        let r = Request::new(Call::ResolveEquation { lhs: vec![x, dash, x], rhs: vec![*c], guard: 9 });
        assert_eq!(model::run(&s, &r).answer[0] == CONFLICT, word.is_none());
    }
}

// the word tried is as long as the side at most, and all such words are
#[test]
fn words_are_all() {
    let all = words();
    assert_eq!(all.len(), (0..=8).map(|n| 3usize.pow(n)).sum());
    assert!(all.windows(2).all(|p| p[0].len() <= p[1].len()));
}

// labels of up to two entries, on every store: answers of each case are met, and refusals 8 and 9 where a word exists
#[test]
fn short_labels() {
    let t = all_of(&|s, r| Some(model::run(s, r)), 2).unwrap();
    assert!(t.conflicts > 0 && [0, 3, 4].iter().all(|&i| t.cases[i] > 0) && t.codes[8] > 0 && t.codes[9] > 0);
    #[cfg(feature = "port")]
    assert_eq!(all_of(&differential::port::run, 2).unwrap().calls, t.calls);
}

fn sides(r: &Request) -> (&[u32], &[u32]) {
    let Call::ResolveEquation { lhs, rhs, .. } = &r.call else { unreachable!("another call") };
    (lhs, rhs)
}

// a call that leaves the last entry of a label of three out of the comparison, and one that takes an empty constant for the variable
#[test]
fn planted_faults() {
    let field = |s: &Shelf| s.field;
    assert!(shelves().iter().all(|s| field(s) == 1));
    let last = |s: &Lent, r: &Request| {
        let mut got = model::run(s, r);
        let (l, r) = sides(r);
        if got.code == 0 && got.answer[0] == CONFLICT && l.len() == 3 && r.len() == 1 && l[2] == 1 {
            got.answer[0] = DONE;
        }
        Some(got)
    };
    assert!(all_of(&last, 3).is_err());
    let counted = |s: &Lent, r: &Request| {
        let (l, rest) = sides(r);
        let taken: Vec<u32> = l.iter().map(|&t| if l.contains(&1) && s.text(t).is_empty() { 1 } else { t }).collect();
        Some(model::run(s, &Request::new(Call::ResolveEquation { lhs: taken, rhs: rest.to_vec(), guard: 9 })))
    };
    assert!(all_of(&counted, 2).is_err());
}
