//! Reads a model on standard input and prints the bench sheet.

use std::io::{self, Read};

fn main() -> io::Result<()> {
    let mut text = Vec::new();
    io::stdin().take(second::sheet::READ).read_to_end(&mut text)?;
    print!("{}", second::sheet::sheet(&text));
    Ok(())
}
