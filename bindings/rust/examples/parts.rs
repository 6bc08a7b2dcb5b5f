//! A label of eight optional parts against an empty code. Hall and site are of one class for the reason a1. One call lists what must still
//! become "", each of these is joined with it, and the call is made again.

use labels::{EmptyParts, Reason, Refusal, Store};

/// Prints how many variables are listed, and their names.
fn print_listed(store: &Store, parts: &EmptyParts) {
    print!("{}:", parts.variables.len());
    for &variable in &parts.variables {
        print!(" {}", store.display(variable));
    }
    println!();
}

fn main() -> Result<(), Refusal> {
    let mut store = Store::new();
    let mut label = vec![];
    for name in ["site", "hall", "aisle", "shelf", "bin", "batch", "serial", "check"] {
        label.push(store.variable(name)?);
    }
    store.join(label[1], label[0], Reason::Asserted(1))?;

    // manual:
    let parts = store.empty_parts(&[], &label)?;
    print_listed(&store, &parts); // 7: site aisle shelf bin batch serial check; hall is of the class of site and follows it
    if let Some(empty) = parts.empty {
        for variable in parts.variables {
            store.join(variable, empty, Reason::Interface(9))?; // i9 stands for the equation
        }
    }
    let parts = store.empty_parts(&[], &label)?;
    print_listed(&store, &parts); // 0: every part is "" now
                                  // :manual
    Ok(())
}
