//! The programs `enabled` and `calls`, which `tools/build.sh enabled calls` builds, print what the second
//! engine does for the same input.
#![cfg(feature = "engine")]

use compare::{lists, with_stack};
use second::generate::{self, Buffers, Call, Random, SECOND};
use second::script::{self, Form, Line};
use second::sheet;
use std::io::Write;
use std::path::{Path, PathBuf};
use std::process::{Command, Stdio};

/// How many scripts and how many sheets are compared.
const SCRIPTS: u64 = 60;
const SHEETS: u64 = 60;

fn repository() -> PathBuf {
    Path::new(env!("CARGO_MANIFEST_DIR")).join("../..")
}

/// What a program prints for this input.
fn printed(name: &str, input: &[u8]) -> String {
    let program = repository().join("target/bin").join(name);
    assert!(program.exists(), "{} isn't there: run `tools/build.sh {name}` first", program.display());
    let mut child =
        Command::new(program).stdin(Stdio::piped()).stdout(Stdio::piped()).spawn().expect("the program starts");
    let mut pipe = child.stdin.take().expect("a pipe");
    let input = input.to_vec();
    // A program may stop reading before the end.
    let writer = std::thread::spawn(move || drop(pipe.write_all(&input)));
    let output = child.wait_with_output().expect("the program ends");
    writer.join().expect("the writer ends");
    assert!(output.status.success(), "{name}: {}", output.status);
    String::from_utf8(output.stdout).expect("text")
}

/// The script of a seed's calls, those that `calls` knows, with state, clock and a question about two entries here and there.
fn script_of(seed: u64) -> Vec<u8> {
    let mut script = Vec::new();
    let mut buffers = Buffers::default();
    for (number, call) in lists::of_seed(seed).iter().enumerate() {
        if script::is_plain(std::slice::from_ref(call)) {
            let call = buffers.exact(call);
            buffers.make(&SECOND, &call);
            script.extend(script::write(&[call]));
            if number % 7 == 0 {
                script.extend(b"state\nclock\n");
            }
            if number % 5 == 1 {
                script.extend(format!("independent {} {}\n", number % 3, seed % 11).as_bytes());
            }
        }
    }
    script
}

#[test]
fn calls_prints_what_the_second_engine_does() {
    with_stack(|| {
        for seed in 0..SCRIPTS {
            let script = script_of(seed);
            assert!(printed("calls", &script) == script::print(&SECOND, &script, Form::Plain), "seed {seed}");
        }
    });
}

/// Does a script search where very many runs are walked, as one with another depth may?
fn walks_many(script: &[u8]) -> bool {
    let mut buffers = Buffers::default();
    script::read(script, Form::Plain).0.iter().any(|line| match line {
        Line::Call(call) if buffers.walks_many(call) => true,
        Line::Call(call) => {
            buffers.make(&SECOND, call);
            false
        }
        _ => false,
    })
}

/// Lines of other forms, of which nothing may be guessed.
#[test]
fn calls_ends_at_a_line_of_another_form() {
    with_stack(|| {
        let mut random = Random::new(1);
        let mut ended = 0;
        for seed in 0..SCRIPTS {
            let calls: Vec<Call> = lists::of_seed(seed).into_iter().take(6).collect();
            if !script::is_plain(&calls) {
                continue;
            }
            let mut buffers = Buffers::default();
            let exact: Vec<Call> = calls
                .iter()
                .map(|call| {
                    let call = buffers.exact(call);
                    buffers.make(&SECOND, &call);
                    call
                })
                .collect();
            let script = generate::damaged(&mut random, &script::write(&exact));
            if walks_many(&script) {
                continue;
            }
            let expected = script::print(&SECOND, &script, Form::Plain);
            ended += u32::from(expected.contains("bad,"));
            assert_eq!(printed("calls", &script), expected, "{:?}", String::from_utf8_lossy(&script));
        }
        assert!(ended > 10, "{ended}");
    });
}

#[test]
fn enabled_prints_what_the_second_engine_does() {
    with_stack(|| {
        let mut texts: Vec<Vec<u8>> = ["sheet", "chromosome", "crowd", "kinesin"]
            .map(|model| std::fs::read(repository().join(format!("models/{model}.bc"))).expect("a model"))
            .to_vec();
        let mut random = Random::new(2);
        texts.extend((0..SHEETS).map(|_| generate::some_text(&mut random)));
        texts.push(vec![b' '; 300_000]);
        for text in texts {
            let read = &text[..text.len().min(sheet::READ as usize)];
            assert_eq!(printed("enabled", &text), sheet::sheet(read), "{:?}", String::from_utf8_lossy(&text));
        }
    });
}
