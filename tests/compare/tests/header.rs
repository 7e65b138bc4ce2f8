//! The header and the C example by themselves: they compile, as C and as C++, and the lengths are
//! those of the second engine.

use std::path::{Path, PathBuf};
use std::process::Command;

/// Lengths of buffers that the header has once the library has their calls.
const OFFERED: &[(&str, usize)] = if cfg!(feature = "engine") { &[("SEARCH", second::SEARCH)] } else { &[] };

fn repository() -> PathBuf {
    Path::new(env!("CARGO_MANIFEST_DIR")).join("../..")
}

#[test]
fn the_header_and_the_example_compile() {
    let (include, example) = (repository().join("include"), repository().join("examples/run.c"));
    for (language, file) in
        [("c", &example), ("c", &include.join("matgravel.h")), ("c++", &include.join("matgravel.h"))]
    {
        let status = Command::new("gcc")
            .args(["-fsyntax-only", "-Wall", "-Wextra", "-Wpedantic", "-Werror", "-x", language, "-I"])
            .arg(&include)
            .arg(file)
            .status()
            .expect("gcc starts");
        assert!(status.success(), "{language} {}", file.display());
    }
}

#[test]
fn the_lengths_are_those_of_the_second_engine() {
    let header = std::fs::read_to_string(repository().join("include/matgravel.h")).expect("the header is there");
    let lengths = [
        ("MODEL", second::MODEL),
        ("STATE", second::STATE),
        ("LISTING", second::LISTING),
        ("ENTRIES", second::listing::ENTRIES),
        ("ENTRY", second::listing::FIELDS),
        ("EVENT", second::ran::EVENT),
        ("REPORT", second::REPORT),
        ("SAVES", second::SAVES),
    ];
    for (name, length) in lengths.iter().chain(OFFERED) {
        let line = format!("#define MATGRAVEL_{name} {length}");
        assert!(header.lines().any(|one| one == line), "{line}");
    }
}
