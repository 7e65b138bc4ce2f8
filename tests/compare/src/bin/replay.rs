//! Runs a script from standard input, lines with `!` too, and prints what the program `calls`
//! prints, by the second engine, or with the feature `engine` and the word `engine` by the library.

use second::script::{self, Form};
use std::io::{self, Read};

fn main() -> io::Result<()> {
    let mut script = Vec::new();
    io::stdin().read_to_end(&mut script)?;
    let engine = chosen();
    print!("{}", compare::with_stack(move || script::print(&engine, &script, Form::Marked)));
    Ok(())
}

#[cfg(feature = "engine")]
fn chosen() -> second::generate::Engine {
    match std::env::args().nth(1).as_deref() {
        Some("engine") => compare::linked::ENGINE,
        _ => second::generate::SECOND,
    }
}

#[cfg(not(feature = "engine"))]
fn chosen() -> second::generate::Engine {
    second::generate::SECOND
}
