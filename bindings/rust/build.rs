//! Where the proved library stands: ../../crates/capi/out, made by `rt lib` in crates/capi, or the folder that `LABELS_LIBRARY` names.

use std::{env, path::PathBuf, process};

fn main() {
    println!("cargo:rerun-if-env-changed=LABELS_LIBRARY");
    let package = PathBuf::from(env::var_os("CARGO_MANIFEST_DIR").unwrap());
    let folder = env::var_os("LABELS_LIBRARY").map_or(package.join("../../crates/capi/out"), PathBuf::from);
    let library = folder.join("libcapi.a");
    println!("cargo:rerun-if-changed={}", library.display());
    if !library.is_file() {
        eprintln!("error: there is no {}", library.display());
        eprintln!("Make it with `rt lib` in the repository's folder crates/capi, or name the folder that has it: LABELS_LIBRARY=/that/folder");
        process::exit(1);
    }
    println!("cargo:rustc-link-search=native={}", folder.display());
    println!("cargo:rustc-link-lib=static=capi");
}
