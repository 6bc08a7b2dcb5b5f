use labels::{term_place, Answer, Form, Reason, Refusal, Store, Term, CELL_WIDTH, REASONS};
use std::collections::HashSet;

/// x ++ "a" = y ++ "b" with x and y of one class by a7, and the string terms.
fn clash() -> (Store, Term, Vec<Term>) {
    let mut s = Store::new();
    let (x, y) = (s.variable("x").unwrap(), s.variable("y").unwrap());
    let (a, b) = (s.constant("a").unwrap(), s.constant("b").unwrap());
    let (lhs, rhs) = (s.concatenation(&[x, a]).unwrap(), s.concatenation(&[y, b]).unwrap());
    let e = s.equation(lhs, rhs).unwrap();
    s.join(x, y, Reason::Asserted(7)).unwrap();
    (s, e, vec![x, y, a, b, lhs, rhs])
}

/// However often it is asked, an answer names its own reasons and no others, and the room for reasons does not run out.
#[test]
fn a_question_begins_with_no_reasons() {
    let (mut s, e, known) = clash();
    for _ in 0..REASONS + 1 {
        assert_eq!(s.step(&known, e, 1), Ok(Answer::Conflict { reasons: vec![Reason::Asserted(7)] }));
    }
    for _ in 0..REASONS + 1 {
        assert_eq!(s.explain(known[0], known[1]), Ok(vec![Reason::Asserted(7)]));
    }
    // words that its user counted are not handed in either
    s.reasons[..4].copy_from_slice(&[1, 1, 1, 2]);
    s.state[3] = 2;
    assert_eq!(s.nf_equal_explain(&known[..1], &known[1..2]), Ok(vec![Reason::Asserted(7)]));
    assert_eq!(s.reason_list(), [Reason::Asserted(7)]);
}

/// A reason that the list has is not named again, and what is handed in stays as it is.
#[test]
fn each_reason_is_named_once() {
    let (mut s, e, known) = clash();
    let (x, y) = (known[0], known[1]);
    let (a7, i7) = (Reason::Asserted(7), Reason::Interface(7));
    assert_eq!(s.nf_equal_explain(&[x, y, x], &[y, x, y]), Ok(vec![a7]));
    for handed in [vec![a7], vec![a7, a7], vec![i7, a7]] {
        assert_eq!(s.with_reasons(&handed).unwrap().explain(x, y), Ok(handed.clone()));
        assert_eq!(s.with_reasons(&handed).unwrap().step(&known, e, 1), Ok(Answer::Conflict { reasons: handed }));
    }
    assert_eq!(s.with_reasons(&[i7]).unwrap().explain(x, y), Ok(vec![i7, a7]));
    // room for one
    s.reasons.truncate(2);
    assert_eq!(s.nf_equal_explain(&[x, x], &[y, y]), Ok(vec![a7]));
    assert_eq!(s.with_reasons(&[a7]).unwrap().explain(x, y), Ok(vec![a7]));
    assert_eq!(s.with_reasons(&[i7]).unwrap().explain(x, y), Err(Refusal::Reasons));
}

#[test]
fn reasons_are_handed_in() {
    let (mut s, e, known) = clash();
    let handed = [Reason::Interface(4), Reason::Asserted(5)];
    let all = vec![Reason::Interface(4), Reason::Asserted(5), Reason::Asserted(7)];
    assert_eq!(s.with_reasons(&handed).unwrap().step(&known, e, 1), Ok(Answer::Conflict { reasons: all.clone() }));
    assert_eq!(s.with_reasons(&handed).unwrap().explain(known[0], known[1]), Ok(all.clone()));
    assert_eq!(s.with_reasons(&handed).unwrap().nf_equal_explain(&known[..1], &known[1..2]), Ok(all.clone()));
    let form = s.with_reasons(&handed).unwrap().normal_form(&known[..1], known[1]).unwrap();
    assert_eq!(form, Form { atoms: vec![known[0]], reasons: all.clone() });
    assert_eq!(s.with_reasons(&handed).unwrap().deep_normal_form(&known[..1], known[1]), Ok(Some(form)));
    let answer = s.with_reasons(&handed).unwrap().resolve_equation(&known[..1], &known[1..2], 1);
    assert_eq!(answer, Ok(Answer::Done));
    let answer = s.with_reasons(&handed).unwrap().resolve_equation(&[known[0], known[2]], &[known[1], known[3]], 1);
    assert_eq!(answer, Ok(Answer::Conflict { reasons: all }));
}

/// What cannot be handed in is refused before a word is written.
#[test]
fn reasons_that_cannot_be_handed_in() {
    let (mut s, e, known) = clash();
    let answer = s.step(&known, e, 1);
    assert_eq!(s.with_reasons(&[Reason::Interface(1 << 31)]).unwrap_err(), Refusal::Argument);
    assert_eq!(s.with_reasons(&[Reason::Asserted(1); REASONS + 1]).unwrap_err(), Refusal::Reasons);
    assert_eq!(s.reason_list(), [Reason::Asserted(7)]);
    // there is room for these, and none for the next
    assert_eq!(s.with_reasons(&[Reason::Asserted(1); REASONS]).unwrap().step(&known, e, 1), Err(Refusal::Reasons));
    assert_eq!(s.step(&known, e, 1), answer);
    s.reasons.truncate(3);
    assert_eq!(s.with_reasons(&[Reason::Asserted(1); 2]).unwrap_err(), Refusal::Reasons);
    assert_eq!(s.step(&known, e, 1), answer);
}

/// A Split and a Saturated of the step rest on the reasons of the normal forms, and a Propagate on its own.
#[test]
fn every_answer_carries_its_reasons() {
    let mut s = Store::new();
    let [x, y, u, w] = ["x", "y", "u", "w"].map(|name| s.variable(name).unwrap());
    let (lhs, rhs) = (s.concatenation(&[x, u, w]).unwrap(), s.concatenation(&[y, w, u]).unwrap());
    let e = s.equation(lhs, rhs).unwrap();
    s.join(x, y, Reason::Asserted(9)).unwrap();
    let known = [x, y, u, w, lhs, rhs];
    let split = s.step(&known, e, 2).unwrap();
    assert!(matches!(&split, Answer::Split { atoms, guard: -2, terms_made: 9, .. } if atoms.len() == 3));
    assert_eq!(split.reasons(), [Reason::Asserted(9)]);
    let saturated = s.step(&known, e, 2).unwrap();
    assert_eq!(saturated, Answer::Saturated { reasons: vec![Reason::Asserted(9)] });
    let (a, b) = (s.constant("a").unwrap(), s.constant("b").unwrap());
    let ux = s.concatenation(&[u, x]).unwrap();
    let e = s.equation(ux, b).unwrap();
    s.join(x, b, Reason::Interface(1)).unwrap();
    let propagate = s.step(&[a, b], e, 1).unwrap();
    assert!(matches!(propagate, Answer::Propagate { variable, .. } if variable == u), "{propagate:?}");
    assert_eq!(propagate.reasons(), [Reason::Interface(1)]);
    assert_eq!((Answer::Done.reasons(), Answer::Unexpanded.reasons()), (&[][..], &[][..]));
}

/// The rules that rest on a reason are looked up by it when it is undone.
#[test]
fn reasons_are_keys_of_a_map() {
    let (mut s, e, known) = clash();
    let named: HashSet<Reason> = s.step(&known, e, 1).unwrap().reasons().iter().copied().collect();
    assert!(named.contains(&Reason::Asserted(7)) && !named.contains(&Reason::Interface(7)));
    assert!(Reason::Asserted(9) < Reason::Interface(1));
}

#[test]
fn refusals_are_errors() {
    fn labelled() -> Result<Term, Box<dyn std::error::Error>> {
        Ok(Store::new().variable("")?)
    }
    assert_eq!(labelled().unwrap_err().to_string(), "a wrong argument");
}

#[test]
fn a_store_is_debugged_by_its_counts() {
    let (mut s, _, known) = clash();
    assert_eq!(s.explain(known[0], known[1]).unwrap().len(), 1);
    let counts = "Store { terms: 7, cells: 4, chars: 4, reasons: 1, keys: 0, names: 0, marks: 0, joins: 0 }";
    assert_eq!(format!("{s:?}"), counts);
}

#[test]
fn terms_are_printed() {
    let (mut s, e, known) = clash();
    let shown = |s: &Store, t| s.display(t).to_string();
    assert_eq!(shown(&s, e), r#"x ++ "a" = y ++ "b""#);
    let n = s.length(known[4]).unwrap();
    assert_eq!(shown(&s, n), r#"len(x ++ "a")"#);
    let nested = s.concatenation(&[known[4], known[0]]).unwrap();
    assert_eq!(shown(&s, nested), r#"(x ++ "a") ++ x"#);
    let odd = s.constant("\"λ\u{0}\n").unwrap();
    assert_eq!(shown(&s, odd), r#""\"λ\0\n""#);
    let tab = s.variable("a\tb").unwrap();
    assert_eq!(shown(&s, tab), r"a\tb");
    assert_eq!((shown(&s, 0), shown(&s, tab + 1), shown(&s, u32::MAX)), ("?".into(), "?".into(), "?".into()));
}

/// A term of 2^200 parts is cut, and a store that breaks every rule is printed to an end.
#[test]
fn printing_ends() {
    let mut s = Store::new();
    let mut t = s.variable("x").unwrap();
    for _ in 0..200 {
        t = s.concatenation(&[t, t]).unwrap();
    }
    let shown = s.display(t).to_string();
    assert_eq!(shown.matches("..").count(), 1);
    assert!(shown.len() < 8 * 1024, "{}", shown.len());
    // the last concatenation's first part is itself, then a chain that does not end
    let cell = s.terms[term_place(t, 1)] as usize;
    s.cells[CELL_WIDTH * cell] = t;
    assert!(s.display(t).to_string().starts_with("? ++ "));
    s.cells[CELL_WIDTH * cell + 2] = cell as u32;
    assert_eq!(s.display(t).to_string(), "?");
    s.terms.fill(u32::MAX);
    assert_eq!(s.display(t).to_string(), "?");
    s.terms[term_place(1, 0)..term_place(1, 3)].copy_from_slice(&[1, u32::MAX, u32::MAX]);
    assert_eq!(s.display(1).to_string(), "?");
    s.terms.clear();
    assert_eq!(s.display(1).to_string(), "?");
}

/// Characters as words: all that a constant may have, and the others refused.
#[test]
fn characters_as_words() {
    let mut s = Store::new();
    let edges = [0, 0xD7FF, 0xE000, 0x2FFFF];
    let t = s.constant_chars(&edges).unwrap();
    assert_eq!(s.constant("\u{0}\u{D7FF}\u{E000}\u{2FFFF}"), Ok(t));
    let v = s.variable_chars(&edges).unwrap();
    assert_eq!(s.variable("\u{0}\u{D7FF}\u{E000}\u{2FFFF}"), Ok(v));
    for c in [0x30000, 0x10FFFF, 0x110000, u32::MAX] {
        assert_eq!((s.constant_chars(&[c]), s.variable_chars(&[c])), (Err(Refusal::Argument), Err(Refusal::Argument)));
    }
    assert_eq!((s.constant("\u{30000}"), s.variable("\u{10FFFF}")), (Err(Refusal::Argument), Err(Refusal::Argument)));
    assert_eq!((s.constant_chars(&[]), s.variable_chars(&[])), (Ok(v + 1), Err(Refusal::Argument)));
}

/// Surrogates in constants and names: each is a character, is compared as one, and is printed as an escape.
#[test]
fn surrogates() {
    let mut s = Store::new();
    let (high, low, both) =
        (s.constant_chars(&[0xD83D]).unwrap(), s.constant_chars(&[0xDE42]).unwrap(), s.constant_chars(&[0xD83D, 0xDE42]).unwrap());
    let one = s.constant("\u{1F642}").unwrap();
    let x = s.variable_chars(&[0xDFFF]).unwrap();
    let whole = s.concatenation(&[high, low]).unwrap();
    let shown = |s: &Store, t| s.display(t).to_string();
    assert_eq!((shown(&s, whole), shown(&s, x)), (r#""\u{d83d}" ++ "\u{de42}""#.into(), r"\u{dfff}".into()));
    assert_eq!(s.resolve_equation(&[high, low], &[both], 1), Ok(Answer::Done));
    assert!(matches!(s.resolve_equation(&[high, low], &[one], 1), Ok(Answer::Conflict { .. })));
    assert!(matches!(s.resolve_equation(&[x], &[high, low], 1), Ok(Answer::Propagate { word, .. }) if word == both));
    // escapes beside quotes and backslashes, so that a word of the same letters prints otherwise
    let odd = s.constant_chars(&[0x22, 0xD800, 0x22, 0x5C]).unwrap();
    let letters = s.constant(r"\u{d800}").unwrap();
    assert_eq!((shown(&s, odd), shown(&s, letters)), (r#""\"\u{d800}\"\\""#.into(), r#""\\u{d800}""#.into()));
    // above the alphabet nothing is printed as a character
    s.chars[0] = 0x30000;
    assert_eq!((shown(&s, high), s.audit()), ("?".into(), Err(Refusal::Records)));
}

/// A store goes to another thread.
#[test]
fn a_store_is_sent() {
    let (mut s, e, known) = clash();
    let answer = std::thread::spawn(move || s.step(&known, e, 1)).join().unwrap();
    assert_eq!(answer.unwrap().reasons(), [Reason::Asserted(7)]);
}
