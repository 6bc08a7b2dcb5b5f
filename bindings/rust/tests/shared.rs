//! What the crate shares with `labels.h` and the changelog: the version, the sizes and the texts of refusals.

use labels::{
    term_place, Refusal, BUCKETS, CELLS, CELL_WIDTH, CHARS, KEYS, LIST, MARKS, MAX_CHARACTER, PAIR_WIDTH, REASONS, SPLIT_TERMS, STATE,
    TERMS, TERM_WIDTH, VERSION,
};
use std::fs;

fn file(path: &str) -> String {
    fs::read_to_string(format!("{}/{path}", env!("CARGO_MANIFEST_DIR"))).unwrap()
}

#[test]
fn one_version() {
    let header = file("../labels.h");
    assert!(header.contains(&format!("#define LABELS_VERSION \"{VERSION}\"\n")));
    for (name, number) in ["MAJOR", "MINOR", "PATCH"].into_iter().zip(VERSION.split('.')) {
        assert!(header.contains(&format!("#define LABELS_VERSION_{name} {number}\n")), "{name}");
    }
    let changelog = file("../../CHANGELOG.md");
    let newest = changelog.lines().find_map(|line| line.strip_prefix("## ")).unwrap();
    assert_eq!(newest, VERSION);
}

#[test]
fn the_same_sizes() {
    let header = file("../labels.h");
    let sizes = [("MAX_TERMS", TERMS), ("MAX_CELLS", CELLS), ("MAX_CHARS", CHARS), ("MAX_REASONS", REASONS), ("MAX_KEYS", KEYS)];
    let words = [("STATE_WORDS", STATE), ("LIST_WORDS", LIST), ("MARK_WORDS", MARKS)];
    let widths = [("TERM_WIDTH", TERM_WIDTH), ("CELL_WIDTH", CELL_WIDTH), ("PAIR_WIDTH", PAIR_WIDTH), ("BUCKETS", BUCKETS)];
    for (name, size) in sizes.into_iter().chain(words).chain(widths).chain([("MAX_SPLIT_TERMS", SPLIT_TERMS)]) {
        assert!(header.contains(&format!("#define LABELS_{name} {size}\n")), "{name}");
    }
    assert!(header.contains("((size_t)LABELS_BUCKETS + (size_t)LABELS_TERM_WIDTH * (size_t)(t) + (size_t)(word))\n"));
    assert_eq!((term_place(0, 0), term_place(1, 8)), (BUCKETS, BUCKETS + 2 * TERM_WIDTH - 1));
    assert!(header.contains(&format!("#define LABELS_MAX_CHARACTER {MAX_CHARACTER:#X}\n")));
}

#[test]
fn the_same_texts() {
    let header = file("../labels.h");
    let refusals = [
        ("SIZES", Refusal::Sizes),
        ("RECORDS", Refusal::Records),
        ("CLASSES", Refusal::Classes),
        ("CONGRUENCES", Refusal::Congruences),
        ("ARGUMENT", Refusal::Argument),
        ("LIST", Refusal::List),
        ("REASONS", Refusal::Reasons),
        ("ROOM", Refusal::Room),
        ("NAMES", Refusal::Names),
        ("MARK", Refusal::Mark),
        ("FORM", Refusal::Form),
        ("INDEX", Refusal::Index),
    ];
    for (name, refusal) in refusals {
        assert!(header.contains(&format!("LABELS_REFUSED_{name} = {}", refusal.number().unwrap())), "{name}");
        assert!(header.contains(&format!("case LABELS_REFUSED_{name}:\n        return \"{refusal}\";\n")), "{name}");
    }
}
