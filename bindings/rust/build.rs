//! Finds the static library that `bindings/build` writes: in the folder RELAYMARTEN_LIB_DIR (absolute, or from this
//! crate's own folder), without it in `target/staticlib` of the repository.
use std::env;
use std::path::PathBuf;

const FOLDER: &str = "RELAYMARTEN_LIB_DIR";
const LIBRARY: &str = "librelaymarten.a";

/// The folder without links, where it exists. The crate's own is asked for at run time: a built script may run for another path.
fn folder() -> PathBuf {
    let own = PathBuf::from(env::var_os("CARGO_MANIFEST_DIR").unwrap_or_default());
    let folder = match env::var_os(FOLDER) {
        Some(given) if !given.is_empty() => own.join(given),
        _ => own.join("../../target/staticlib"),
    };
    folder.canonicalize().unwrap_or(folder)
}

fn main() {
    let folder = folder();
    let library = folder.join(LIBRARY);
    println!("cargo::rerun-if-env-changed={FOLDER}");
    println!("cargo::rerun-if-changed={}", library.display());
    println!("cargo::rustc-link-search=native={}", folder.display());
    if !library.is_file() {
        println!(
            "cargo::error={} is missing: run `bindings/build` at the root of the repository, \
             or set {FOLDER} to the folder of {LIBRARY}",
            library.display()
        );
    }
}
