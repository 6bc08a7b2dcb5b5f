include!("../sources.rs");

fn main() {
    take("eq_engine", "crates/shinri-theory/src/eq_engine.rs", "src/after_eq_engine.rs");
}
