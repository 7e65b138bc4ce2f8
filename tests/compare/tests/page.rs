//! What docs/USING.md shows is what the second engine prints.

use compare::specimens::SHEET;
use second::generate::SECOND;
use second::script::{self, Form};
use second::sheet;
use std::path::Path;

fn file(name: &str) -> String {
    let repository = Path::new(env!("CARGO_MANIFEST_DIR")).join("../..");
    std::fs::read_to_string(repository.join(name)).expect("a file of the repository")
}

/// The blocks of indented lines, without their indentation.
fn blocks(page: &str) -> Vec<String> {
    let mut blocks = vec![String::new()];
    for line in page.lines() {
        match (line.strip_prefix("    "), blocks.last_mut()) {
            (Some(shown), Some(block)) => *block += &format!("{shown}\n"),
            _ => blocks.push(String::new()),
        }
    }
    blocks.retain(|block| !block.is_empty());
    blocks
}

#[test]
fn the_bench_sheet() {
    let blocks = blocks(&file("docs/USING.md"));
    for text in [SHEET, &file("models/sheet.bc")] {
        assert!(blocks.contains(&sheet::sheet(text.as_bytes())));
    }
    // The model on the page, after its comment.
    assert!(blocks.iter().any(|block| block.ends_with(SHEET)));
}

#[test]
fn the_script() {
    let blocks = blocks(&file("docs/USING.md"));
    let first = blocks.iter().position(|block| block.starts_with("open ")).expect("a script");
    let printed = script::print(&SECOND, blocks[first].as_bytes(), Form::Plain);
    // The last line is the state.
    assert!(printed.starts_with(&blocks[first + 1]), "{printed}");
    assert_eq!(printed.lines().count(), blocks[first + 1].lines().count() + 1);
}

#[test]
fn the_search_in_pieces() {
    let blocks = blocks(&file("docs/USING.md"));
    let script = blocks.iter().position(|block| block.contains("\ncarry ")).expect("a script");
    assert_eq!(script::print(&SECOND, blocks[script].as_bytes(), Form::Plain), blocks[script + 1]);
}

#[test]
fn the_refused_text() {
    let text = "A[]={go,1}.(B[];B[]={go,1};A[];";
    assert!(file("docs/USING.md").contains(&format!("`{text}` is refused with 5 at 15")));
    assert_eq!(sheet::sheet(text.as_bytes()), "refused,5,15\n");
}
