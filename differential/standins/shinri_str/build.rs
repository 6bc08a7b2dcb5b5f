include!("../sources.rs");

fn main() {
    take("normalize", "crates/shinri-str/src/normalize.rs", "src/after_normalize.rs");
    take("wordeq", "crates/shinri-str/src/wordeq.rs", "src/after_wordeq.rs");
}
