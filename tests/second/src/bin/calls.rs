//! Runs a script of calls from standard input, or from each file named after a line `== ` and its
//! name, each on a fresh engine. `script.rs` says what a script is and what is printed.

use second::generate::SECOND;
use second::script::{self, Form};
use std::io::{self, Read};

fn main() -> io::Result<()> {
    let files: Vec<String> = std::env::args().skip(1).collect();
    if files.is_empty() {
        let mut script = Vec::new();
        io::stdin().read_to_end(&mut script)?;
        print!("{}", script::print(&SECOND, &script, Form::Plain));
    }
    for file in files {
        println!("== {file}");
        print!("{}", script::print(&SECOND, &std::fs::read(&file)?, Form::Plain));
    }
    Ok(())
}
