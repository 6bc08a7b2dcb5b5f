//! With the feature `port`: where the port's static library stands, and which calls it has so far.

use std::{env, fs, path::PathBuf};

const CALLS: [&str; 19] = [
    "labels_audit",
    "labels_make_constant",
    "labels_make_variable",
    "labels_make_concatenation",
    "labels_make_length",
    "labels_make_equation",
    "labels_find",
    "labels_explain",
    "labels_normal_form",
    "labels_deep_normal_form",
    "labels_resolve_equation",
    "labels_step",
    "labels_nf_equal",
    "labels_nf_equal_explain",
    "labels_empty_parts",
    "labels_forced_length",
    "labels_join",
    "labels_set_mark",
    "labels_go_back",
];

fn main() {
    println!("cargo:rerun-if-changed=build.rs");
    println!("cargo:rustc-check-cfg=cfg(exports, values(\"{}\"))", CALLS.join("\", \""));
    if env::var_os("CARGO_FEATURE_PORT").is_none() {
        return;
    }
    let package = PathBuf::from(env::var_os("CARGO_MANIFEST_DIR").unwrap());
    let folder = package.join("../crates/capi/out");
    let library = folder.join("libcapi.a");
    println!("cargo:rerun-if-changed={}", library.display());
    let Ok(archive) = fs::read(&library) else {
        eprintln!("the port's library is not at {}: make it with `rt lib` in crates/capi", library.display());
        std::process::exit(1);
    };
    for call in CALLS {
        // a symbol's name ends with a zero; what stands before it is a zero, an offset or the name of its section up to a dot
        let name = [call.as_bytes(), b"\0"].concat();
        let part_of_name = |b: u8| b.is_ascii_alphanumeric() || b == b'_';
        if archive.windows(name.len() + 1).any(|w| w[1..] == name && !part_of_name(w[0])) {
            println!("cargo:rustc-cfg=exports=\"{call}\"");
        }
    }
    println!("cargo:rustc-link-search=native={}", folder.display());
    println!("cargo:rustc-link-lib=static=capi");
}
