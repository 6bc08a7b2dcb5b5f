//! The stored vectors are what the unchanged Rust says today, and have every case that is due.

use differential::vectors::draw;
use std::{fs, path::Path};

#[test]
fn stored() {
    let folder = Path::new(env!("CARGO_MANIFEST_DIR")).join("../vectors");
    let (files, tally) = draw(1, 4);
    assert_eq!(tally.missing(), Vec::<&str>::new());
    let read = |name: &str, end: &str| fs::read_to_string(folder.join(name).with_extension(end)).unwrap();
    assert!(tally.list() == read("cases", "txt"), "cases.txt differs");
    for f in files {
        assert!(f.commands == read(f.name, "in"), "{}.in differs", f.name);
        assert!(f.printed == read(f.name, "out"), "{}.out differs", f.name);
    }
}
