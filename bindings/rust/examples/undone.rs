//! The undone merge of the manual: site and "B" are joined for the reason a3, `site ++ batch = "A7"` is asked, the join is undone, and it is
//! asked again.

use labels::{Answer, Reason, Refusal, Store, Term};

/// Asks a question, and prints the answer's case with the reasons that it names.
fn ask(store: &mut Store, known: &[Term], equation: Term) -> Result<(), Refusal> {
    let answer = store.step(known, equation, 1)?;
    print!("{}", if matches!(answer, Answer::Conflict { .. }) { "conflict" } else { "no conflict" });
    for reason in answer.reasons() {
        print!(" {reason}");
    }
    println!();
    Ok(())
}

fn main() -> Result<(), Refusal> {
    let mut store = Store::new();
    let (site, batch) = (store.variable("site")?, store.variable("batch")?);
    let (b, code) = (store.constant("B")?, store.constant("A7")?);
    let whole = store.concatenation(&[site, batch])?;
    let equation = store.equation(whole, code)?;
    let known = [site, batch, b, code, whole];

    // manual:
    let mark = store.set_mark()?;
    store.join(site, b, Reason::Asserted(3))?;
    ask(&mut store, &known, equation)?; // conflict a3: keep the rule 'not a3' with the dropped branch
    store.go_back(mark)?;
    ask(&mut store, &known, equation)?; // no conflict: the rule named a3, so it went with the join
                                        // :manual
    Ok(())
}
