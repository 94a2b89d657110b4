//! Links the engine, libbukzarn.a. It stands in the folder that `BUKZARN_LIBRARY` names, or where `rt lib` in crates/bukzarn
//! writes it, in the repository's crates/bukzarn/out.
use std::env;
use std::path::{Path, PathBuf};

fn folder() -> PathBuf {
    match env::var_os("BUKZARN_LIBRARY") {
        Some(folder) => PathBuf::from(folder),
        None => Path::new(&env::var_os("CARGO_MANIFEST_DIR").unwrap()).join("../../crates/bukzarn/out"),
    }
}

fn main() {
    println!("cargo:rerun-if-env-changed=BUKZARN_LIBRARY");
    let folder = folder();
    let archive = folder.join("libbukzarn.a");
    assert!(
        archive.exists(),
        "{} is missing: run `(cd crates/bukzarn && rt lib)` in the repository's root, or name its folder in BUKZARN_LIBRARY",
        archive.display()
    );
    println!("cargo:rerun-if-changed={}", archive.display());
    println!("cargo:rustc-link-search=native={}", folder.display());
    println!("cargo:rustc-link-lib=static=bukzarn");
}
