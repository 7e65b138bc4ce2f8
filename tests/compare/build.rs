//! With the feature `engine`: links the engine's static library.

use std::path::Path;

/// The folder of `libengine.a`, if it isn't `target/staticlib` of this repository.
const FOLDER: &str = "MATGRAVEL_LIB";

fn main() {
    println!("cargo:rerun-if-env-changed={FOLDER}");
    if std::env::var_os("CARGO_FEATURE_ENGINE").is_none() {
        return;
    }
    let here = std::env::var("CARGO_MANIFEST_DIR").expect("cargo names the package's folder");
    let folder = std::env::var(FOLDER).unwrap_or(format!("{here}/../../target/staticlib"));
    let library = Path::new(&folder).join("libengine.a");
    println!("cargo:rerun-if-changed={}", library.display());
    if !library.exists() {
        eprintln!("There is no {}.", library.display());
        eprintln!(
            "Run `tools/build.sh engine` in the repository's folder first, or set {FOLDER} to the library's folder."
        );
        std::process::exit(1);
    }
    println!("cargo:rustc-link-search=native={folder}");
    println!("cargo:rustc-link-lib=static=engine");
    println!("cargo:rustc-env=MATGRAVEL_LIBRARY={}", library.display());
}
