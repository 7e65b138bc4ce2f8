//! tools/draw_run.py on a run of models/chromosome.bc: a picture with every bin lit to the end.

use compare::with_stack;
use second::generate::SECOND;
use second::script::{self, Form};
use std::io::Write;
use std::path::{Path, PathBuf};
use std::process::{Command, Stdio};

/// Bins 0 to 203.
const BINS: usize = 204;

fn repository() -> PathBuf {
    Path::new(env!("CARGO_MANIFEST_DIR")).join("../..")
}

/// What the tool draws of this output of `calls`.
fn drawn(printed: String) -> std::process::Output {
    let mut tool = Command::new("python3")
        .arg(repository().join("tools/draw_run.py"))
        .args(["--forks", "2-5", "--channel", "name:0"])
        .stdin(Stdio::piped())
        .stdout(Stdio::piped())
        .stderr(Stdio::piped())
        .spawn()
        .expect("python3 starts");
    let mut pipe = tool.stdin.take().expect("a pipe");
    let writer = std::thread::spawn(move || pipe.write_all(printed.as_bytes()));
    let output = tool.wait_with_output().expect("the tool ends");
    // A tool that stops early closes the pipe.
    let _ = writer.join().expect("the writer ends");
    output
}

#[test]
fn a_run_is_drawn() {
    let model = repository().join("models/chromosome.bc");
    let sample =
        Command::new(env!("CARGO_BIN_EXE_sample")).arg(model).args(["1", "5000"]).output().expect("sample runs");
    assert!(sample.status.success());
    let output = drawn(with_stack(move || script::print(&SECOND, &sample.stdout, Form::Plain)));
    assert!(output.status.success(), "{}", String::from_utf8_lossy(&output.stderr));
    let picture = String::from_utf8(output.stdout).expect("text");
    assert!(picture.starts_with("<svg ") && picture.ends_with("</svg>\n"));
    // The paper, two frames, and one bar for each bin, which is never put out.
    assert_eq!(picture.matches("<rect ").count(), 1 + 2 + BINS);
}

#[test]
fn positions_at_both_ends_of_the_range_are_drawn() {
    let text = "A[]={c![1099511627775],1}.{c![-1099511627775],1};A[];";
    let script = format!("open {}\n{text}\nstate\nstep 0\nstate\nstep 0\nstate\n", text.len());
    let output = drawn(script::print(&SECOND, script.as_bytes(), Form::Plain));
    assert!(output.status.success(), "{}", String::from_utf8_lossy(&output.stderr));
    assert_eq!(String::from_utf8_lossy(&output.stdout).matches("<rect ").count(), 1 + 2 + 2);
}

#[test]
fn what_is_no_output_of_calls_is_refused() {
    for given in ["1 2 3\n", "bad,2\n", ""] {
        assert!(!drawn(given.to_string()).status.success(), "{given:?}");
    }
}
