//! Runs the command and keeps what it printed.
#![allow(dead_code)] // Each test file uses a part of this.

use std::io::Write;
use std::path::{Path, PathBuf};
use std::process::{Command, Output, Stdio};

pub struct Ran {
    pub status: i32,
    pub out: String,
    pub err: String,
}

impl Ran {
    pub fn from(output: Output) -> Ran {
        Ran {
            status: output.status.code().expect("it ended by itself"),
            out: String::from_utf8(output.stdout).expect("text"),
            err: String::from_utf8(output.stderr).expect("text"),
        }
    }
}

pub fn repository() -> PathBuf {
    Path::new(env!("CARGO_MANIFEST_DIR")).join("..").canonicalize().expect("a folder")
}

pub fn model(name: &str) -> String {
    repository().join("models").join(name).display().to_string()
}

/// The command's file.
pub fn command() -> &'static str {
    env!("CARGO_BIN_EXE_matgravel")
}

pub fn matgravel() -> Command {
    Command::new(command())
}

pub fn run(words: &[&str]) -> Ran {
    Ran::from(matgravel().args(words).stdin(Stdio::null()).output().expect("it starts"))
}

/// Runs a program with bytes as its standard input.
pub fn fed(program: &mut Command, input: &[u8]) -> Ran {
    let mut child =
        program.stdin(Stdio::piped()).stdout(Stdio::piped()).stderr(Stdio::piped()).spawn().expect("it starts");
    let (mut pipe, input) = (child.stdin.take().expect("a pipe"), input.to_vec());
    let writer = std::thread::spawn(move || pipe.write_all(&input));
    let output = child.wait_with_output().expect("it ends");
    // A program that reads only a part closes the pipe.
    let _ = writer.join().expect("the writer ends");
    Ran::from(output)
}

/// Runs the command on a text that it reads from standard input.
pub fn on_text(words: &[&str], text: &str) -> Ran {
    fed(matgravel().args(words), text.as_bytes())
}

/// A folder of this test's own.
pub fn folder(name: &str) -> PathBuf {
    let folder = Path::new(env!("CARGO_TARGET_TMPDIR")).join(name);
    std::fs::create_dir_all(&folder).expect("a folder");
    folder
}

/// Writes a file there and gives its name.
pub fn written(folder: &Path, name: &str, text: &str) -> String {
    let file = folder.join(name);
    std::fs::write(&file, text).expect("a file");
    file.display().to_string()
}

/// Is the program on the path?
pub fn is_there(program: &str) -> bool {
    Command::new(program).arg("--version").stdout(Stdio::null()).stderr(Stdio::null()).status().is_ok()
}
