//! A label equation: `name = "a" ++ part ++ "b"` where name and part were found equal. It cannot be, and the answer says why. Once that
//! equality is undone, it can.

use labels::{Answer, Reason, Refusal, Store, Term};

/// Asks a question, and prints the answer in words with the reasons that it rests on.
fn ask(store: &mut Store, lhs: &[Term], rhs: &[Term]) -> Result<(), Refusal> {
    let answer = store.resolve_equation(lhs, rhs, 1)?;
    match &answer {
        Answer::Conflict { .. } => print!("conflict"),
        Answer::Propagate { variable, word, .. } => print!("{} = {}", store.display(*variable), store.display(*word)),
        Answer::Split { atoms, .. } => {
            let atoms: Vec<String> = atoms.iter().map(|&atom| store.display(atom).to_string()).collect();
            print!("{}", atoms.join(" or "));
        }
        other => print!("{other:?}"),
    }
    println!(", because of {:?}", answer.reasons());
    Ok(())
}

fn main() -> Result<(), Refusal> {
    let mut store = Store::new();
    let (name, part) = (store.variable("name")?, store.variable("part")?);
    let (a, b) = (store.constant("a")?, store.constant("b")?);
    let mark = store.set_mark()?;
    store.join(part, name, Reason::Asserted(5))?;
    ask(&mut store, &[name], &[a, part, b])?;
    store.go_back(mark)?;
    ask(&mut store, &[name], &[a, part, b])
}
