//! The library's engine against the second engine on the fixed seeds; the C example against what
//! the second engine makes of the same calls; the stack that the header names.
#![cfg(feature = "engine")]

use compare::linked::ENGINE;
use compare::met::Met;
use compare::orders::{self, Tried};
use compare::{lists, specimens, texts, with_stack};
use second::generate::{Buffers, Call, Depth, Random, RIGHT, SECOND};
use second::script::{self, Form};
use second::{mazes, walks, Running, LISTING, MODEL, REPORT, SAVES, SEARCH, STATE};
use std::path::{Path, PathBuf};
use std::process::{Command, Stdio};

#[test]
fn both_engines_agree_on_the_fixed_seeds() {
    let met = with_stack(|| {
        let mut met = Met::default();
        if let Err(report) = lists::run(&ENGINE, &SECOND, 0..lists::LISTS, &mut met) {
            let file = Path::new(env!("CARGO_TARGET_TMPDIR")).join("difference.script");
            std::fs::write(&file, &report.script).expect("the script is written");
            panic!("{report}\nIt is also in {}.", file.display());
        }
        met
    });
    println!("{met}");
    assert_eq!(met.missing(&specimens::names()), Vec::<String>::new());
    assert!(met.calls >= lists::LEAST_CALLS);
}

#[test]
fn independent_entries_end_alike_in_both_orders() {
    let met = with_stack(|| {
        let mut met = Tried::default();
        orders::run(&ENGINE, 0..orders::SEEDS, &mut met).unwrap();
        met
    });
    println!("{met}");
    assert_eq!(met.missing(), Vec::<String>::new());
}

fn repository() -> PathBuf {
    Path::new(env!("CARGO_MANIFEST_DIR")).join("../..")
}

/// What a command prints, given this input. It must end well.
fn printed(command: &mut Command, input: &[u8]) -> String {
    use std::io::Write;
    let mut child = command.stdin(Stdio::piped()).stdout(Stdio::piped()).spawn().expect("the command starts");
    let mut pipe = child.stdin.take().expect("a pipe");
    let input = input.to_vec();
    let writer = std::thread::spawn(move || pipe.write_all(&input));
    let output = child.wait_with_output().expect("the command ends");
    writer.join().expect("the writer ends").expect("the command reads its input");
    assert!(output.status.success(), "{command:?}: {}", output.status);
    String::from_utf8(output.stdout).expect("text")
}

/// Compiles a C program against the header and the library.
fn compiled(source: &Path, name: &str) -> PathBuf {
    let program = Path::new(env!("CARGO_TARGET_TMPDIR")).join(name);
    let built = Command::new("gcc")
        .args(["-std=c11", "-O2", "-Wall", "-Wextra", "-Wpedantic", "-Werror", "-I"])
        .arg(repository().join("include"))
        .arg(source)
        .arg(env!("MATGRAVEL_LIBRARY"))
        .arg("-o")
        .arg(&program)
        .status()
        .expect("gcc starts");
    assert!(built.success(), "{}", source.display());
    program
}

/// A number that the header defines.
fn defined(name: &str) -> usize {
    let header = std::fs::read_to_string(repository().join("include/matgravel.h")).expect("the header is there");
    let line = header.lines().find_map(|line| line.strip_prefix(&format!("#define MATGRAVEL_{name} ")));
    line.and_then(|number| number.parse().ok()).expect("a number")
}

/// Makes every call on the longest texts, on a thread with the stack that the header names. A
/// call that needs more ends the test by a signal.
#[test]
fn the_stack_that_the_header_names_is_enough() {
    for which in 0..texts::LONG {
        let calls = move || {
            let text = texts::longest(which);
            let (mut buffers, opened) = Buffers::opened(&ENGINE, &text);
            let depth = buffers.depth(Depth::Within(8, 60));
            let (model, state) = (&mut buffers.model[..MODEL], &mut buffers.state[..STATE]);
            let (saves, clock) = (&mut buffers.saves[..SAVES], &mut buffers.clock);
            // The text in the buffer, though it may be none that opens.
            model[..2].copy_from_slice(&(text.len() as u16).to_le_bytes());
            model[2..2 + text.len()].copy_from_slice(&text);
            let listing = &mut buffers.listing[..LISTING];
            let listed = (ENGINE.list)(model, state, listing);
            let reported = (ENGINE.report)(model, state, &mut buffers.report[..REPORT]);
            assert_eq!(reported, listed);
            let saved = (ENGINE.save)(model, state, saves, b"a", *clock);
            let returned = (ENGINE.return_to)(model, state, saves, b"a", clock);
            let forgotten = (ENGINE.forget)(model, state, saves, b"a");
            assert!([saved, returned, forgotten].iter().all(|answer| [0, 11].contains(&answer.number)));
            let steady = Buffers::default().make(&ENGINE, &Call::Steady { text: text.clone(), lengths: RIGHT });
            assert!(steady.is_some_and(|given| [opened.number, 29].contains(&given.number())));
            let found = (ENGINE.search)(model, state, b"a", depth);
            assert!([0, 11, 27].contains(&found.number));
            let (later, time, events) = (&mut state.to_vec(), &mut clock.clone(), &mut buffers.events[..16]);
            let lent = Running { state: later, words: &[0, 0], waiting: &[7; 4], events, limit: 2, clock: time };
            let ran = (ENGINE.run)(model, lent);
            assert!(ran.number == 0 || ran.number >= 11);
            let search = &mut buffers.search[..SEARCH];
            let begun = (ENGINE.begin)(model, state, search, b"a", 1);
            let carried = (ENGINE.carry_on)(model, state, search, 2);
            assert!([0, 11].contains(&begun.number) && [0, 11, 27].contains(&carried.number));
            let timed = (ENGINE.timed_step)(model, state, listing, &[7, 7], 0, clock);
            assert!(timed.number == 0 || timed.number >= 11);
            let stepped = (ENGINE.step)(model, state, listing, 0);
            [opened, listed, stepped].map(|answer| answer.number)
        };
        let thread = std::thread::Builder::new().stack_size(defined("STACK")).spawn(calls).expect("a thread");
        let [opened, listed, _] = thread.join().expect("no panic");
        assert!((opened == 0 || opened >= 5) && (listed == 0 || listed >= 11), "{which}: {opened} {listed}");
    }
}

/// Searches of mazes, many of them eight entries deep, on a thread with that stack.
#[test]
fn a_search_needs_no_more_stack() {
    let searches = || {
        for seed in 0..40 {
            let mut buffers = Buffers::default();
            for call in mazes::searches(&mut Random::new(seed)) {
                let call = buffers.exact(&call);
                let mut second = buffers.clone();
                assert_eq!(buffers.make(&ENGINE, &call), second.make(&SECOND, &call), "seed {seed}");
            }
        }
    };
    let thread = std::thread::Builder::new().stack_size(defined("STACK")).spawn(searches).expect("a thread");
    thread.join().expect("no panic");
}

/// Searches of mazes in pieces, damaged ones too, on a thread with that stack.
#[test]
fn a_search_in_pieces_needs_no_more_stack() {
    let searches = || {
        for seed in 0..40 {
            let mut buffers = Buffers::default();
            for call in mazes::in_pieces(&mut Random::new(seed)) {
                let call = buffers.exact(&call);
                if !buffers.walks_many(&call) {
                    buffers.make(&ENGINE, &call);
                }
            }
        }
    };
    let thread = std::thread::Builder::new().stack_size(defined("STACK")).spawn(searches).expect("a thread");
    thread.join().expect("no panic");
}

/// Runs through small models, on a thread with that stack.
#[test]
fn a_run_needs_no_more_stack() {
    let runs = || {
        for seed in 0..40 {
            let mut buffers = Buffers::default();
            for call in walks::walks(&mut Random::new(seed), seed as usize) {
                let call = buffers.exact(&call);
                let mut second = buffers.clone();
                assert_eq!(buffers.make(&ENGINE, &call), second.make(&SECOND, &call), "seed {seed}");
            }
        }
    };
    let thread = std::thread::Builder::new().stack_size(defined("STACK")).spawn(runs).expect("a thread");
    thread.join().expect("no panic");
}

/// The example's script is one that the second engine accepts to its end.
#[test]
fn the_c_example_runs_as_the_second_engine_does() {
    let program = compiled(&repository().join("examples/run.c"), "run");
    for (model, least) in [("sheet", 2), ("chromosome", 300), ("kinesin", 500)] {
        let file = repository().join(format!("models/{model}.bc"));
        let run = printed(Command::new(&program).arg(&file).args(["1", "500"]), b"");
        let (lines, bad) = script::read(run.as_bytes(), Form::Plain);
        assert_eq!(bad, None, "{run}");
        assert!(lines.len() > least, "{model}: {} lines", lines.len());
        let answers = script::print(&SECOND, run.as_bytes(), Form::Plain);
        let mut answers = answers.lines().filter(|line| !line.starts_with("  "));
        assert!(answers.all(|line| line.split(' ').count() != 6 || line.starts_with("0 ")), "{model}");
    }
}

/// The program in docs/USING.md compiles and ends as its comment says.
#[test]
fn the_program_of_the_users_page_runs() {
    let page = std::fs::read_to_string(repository().join("docs/USING.md")).expect("the page is there");
    let (_, rest) = page.split_once("```c\n").expect("a C program");
    let (program, _) = rest.split_once("```").expect("its end");
    let source = Path::new(env!("CARGO_TARGET_TMPDIR")).join("using.c");
    std::fs::write(&source, program).expect("the source is written");
    let run = printed(&mut Command::new(compiled(&source, "using")), b"");
    assert_eq!(run.lines().count(), 7, "{run}");
    assert_eq!(run.lines().last(), Some("ended with 15"));
}
