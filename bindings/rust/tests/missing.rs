//! A missing library is told with the command that makes it.

use std::{env, fs, process::Command};

#[test]
fn a_missing_library_is_told() {
    let folder = env::temp_dir().join(format!("labels-missing-{}", std::process::id()));
    fs::create_dir_all(&folder).unwrap();
    let manifest = concat!(env!("CARGO_MANIFEST_DIR"), "/Cargo.toml");
    let mut build = Command::new(env!("CARGO"));
    build.args(["check", "--offline", "--manifest-path", manifest, "--target-dir"]).arg(folder.join("target"));
    let output = build.env("LABELS_LIBRARY", &folder).output().unwrap();
    let told = String::from_utf8_lossy(&output.stderr).into_owned();
    fs::remove_dir_all(&folder).unwrap();
    assert!(!output.status.success());
    assert!(told.contains(&format!("there is no {}", folder.join("libcapi.a").display())), "{told}");
    assert!(told.contains("rt lib") && told.contains("LABELS_LIBRARY"), "{told}");
}
