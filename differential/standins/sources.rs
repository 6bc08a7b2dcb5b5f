// Shared by the build scripts: takes a file of the resolver as it stands, and writes it, with what is to follow it in the same
// module, to the build's own folder.

use std::{
    env, fs,
    path::{Path, PathBuf},
    process::exit,
};

const VARIABLE: &str = "KAWHINERU_SOURCES";

fn folder() -> PathBuf {
    println!("cargo:rerun-if-env-changed={VARIABLE}");
    let package = PathBuf::from(env::var_os("CARGO_MANIFEST_DIR").unwrap());
    let repository = package.join("../../..");
    match env::var_os(VARIABLE) {
        // an absolute path stands for itself, a relative one starts at the repository's root
        Some(named) => repository.join(named),
        None => repository.join("../shared/docs"),
    }
}

// `crates/shinri-str/src/wordeq.rs`, or the same with `--` for `/` and `.txt` behind it
fn find(folder: &Path, path: &str) -> PathBuf {
    let plain = folder.join(path);
    if plain.is_file() {
        return plain;
    }
    let flat = folder.join(format!("src--{}.txt", path.replace('/', "--")));
    if flat.is_file() {
        return flat;
    }
    eprintln!("{path} of rahulmutt/shinri b07f8cb0b1 is not in {}: name the folder that has it in {VARIABLE}", folder.display());
    exit(1);
}

// The module `name` is the file at `path`, unchanged, followed by `after` (a file of this package).
fn take(name: &str, path: &str, after: &str) {
    let out = PathBuf::from(env::var_os("OUT_DIR").unwrap());
    let package = PathBuf::from(env::var_os("CARGO_MANIFEST_DIR").unwrap());
    let source = find(&folder(), path);
    let added = package.join(after);
    println!("cargo:rerun-if-changed={}", source.display());
    println!("cargo:rerun-if-changed={}", added.display());
    println!("cargo:rerun-if-changed=build.rs");
    println!("cargo:rerun-if-changed=../sources.rs");
    let mut text = fs::read_to_string(&source).unwrap();
    text.push('\n');
    text.push_str(&fs::read_to_string(&added).unwrap());
    let module = out.join(format!("{name}.rs"));
    fs::write(&module, text).unwrap();
    fs::write(out.join(format!("{name}_module.rs")), format!("#[path = {:?}]\npub mod {name};\n", module)).unwrap();
}
