//! Prints a script for `calls` that runs a model: `sample MODEL SEED STEPS`. After each step it
//! asks for the state. It ends where no step can be taken.

use compare::with_stack;
use second::generate::{Buffers, Call, Draw, Random, RIGHT, SECOND};
use second::script;
use std::io::{self, Write};
use std::process::ExitCode;

fn main() -> ExitCode {
    let words: Vec<String> = std::env::args().skip(1).collect();
    let [file, seed, steps] = &words[..] else {
        eprintln!("sample MODEL SEED STEPS");
        return ExitCode::FAILURE;
    };
    let (Ok(text), Ok(seed), Ok(steps)) = (std::fs::read(file), seed.parse(), steps.parse()) else {
        eprintln!("no such file, or not a number: {words:?}");
        return ExitCode::FAILURE;
    };
    let script = with_stack(move || run(text, seed, steps));
    match io::stdout().write_all(&script) {
        Ok(()) => ExitCode::SUCCESS,
        Err(_) => ExitCode::FAILURE,
    }
}

fn run(text: Vec<u8>, seed: u64, steps: usize) -> Vec<u8> {
    let mut random = Random::new(seed);
    let mut buffers = Buffers::default();
    let mut out = Vec::new();
    let mut next = Call::Open { text, lengths: RIGHT };
    for _ in 0..=steps {
        let call = buffers.exact(&next);
        let number = buffers.make(&SECOND, &call).map_or(0, |given| given.number());
        if number != 0 && !matches!(call, Call::Open { .. }) {
            break;
        }
        out.extend(script::write(&[call]));
        out.extend(b"state\n");
        next = Call::Step { lengths: RIGHT, draw: Draw::Inside(random.number()) };
    }
    out
}
