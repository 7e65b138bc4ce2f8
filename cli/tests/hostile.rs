//! Files and outputs that nobody means well with: a message, a status, no panic.

mod common;

use common::{fed, folder, matgravel, model, on_text, run, written};
use std::ffi::OsStr;
use std::fs::OpenOptions;
use std::os::unix::ffi::OsStrExt;
use std::process::{Command, Stdio};

const READERS: [&[&str]; 8] = [
    &["check"],
    &["list"],
    &["simulate"],
    &["timing", "--channel", "c"],
    &["report"],
    &["search", "--wait", "a"],
    &["graph"],
    &["import-bcs"],
];

#[test]
fn bytes_that_are_no_text() {
    let bytes: Vec<u8> = (0..50_000u32).map(|number| (number.wrapping_mul(2_654_435_761) >> 24) as u8).collect();
    for words in READERS {
        for length in [0, 1, 100, 50_000] {
            let ran = fed(matgravel().args(words).arg("-"), &bytes[..length]);
            assert_eq!((ran.status, ran.out.as_str()), (1, ""), "{words:?} {length}");
            assert!(ran.err.starts_with("standard input:") && !ran.err.contains("panicked"), "{}", ran.err);
        }
    }
    let ran = fed(matgravel().args(["add", "-"]), &bytes);
    assert_eq!(ran.status, 2, "{}", ran.err);
}

/// Of a file without an end no more is read than a text may have.
#[test]
fn a_file_without_an_end() {
    for words in READERS {
        let ran = run(&[words, &["/dev/zero"]].concat());
        assert_eq!(ran.status, 1, "{words:?}");
        assert!(ran.err.lines().all(|line| line.len() < 300), "{words:?}");
    }
    assert_eq!(run(&["add", "/dev/zero"]).status, 2);
}

/// Two gigabytes of nothing, which take no room on the disk.
#[test]
fn a_file_of_two_gigabytes() {
    let file = folder("large").join("large.bc");
    std::fs::File::create(&file).and_then(|made| made.set_len(2 << 30)).expect("a file");
    let name = file.display().to_string();
    for words in READERS {
        let ran = run(&[words, &[&name]].concat());
        assert_eq!((ran.status, ran.out.as_str()), (1, ""), "{words:?}");
    }
    let ran = run(&["add", &name]);
    assert_eq!((ran.status, ran.out.as_str()), (2, ""), "{}", ran.err);
    std::fs::remove_file(file).expect("it was there");
}

#[test]
fn a_name_that_is_no_text() {
    let file = folder("names").join(OsStr::from_bytes(b"lamp\xff.bc"));
    std::fs::copy(model("sheet.bc"), &file).expect("a copy");
    for (words, status) in [(&["list"][..], 0), (&["add"], 2)] {
        let ran = matgravel().args(words).arg(&file).output().expect("it starts");
        let error = String::from_utf8_lossy(&ran.stderr);
        assert_eq!(ran.status.code(), Some(status), "{error}");
        assert!(!error.contains("No such file"), "{error}");
    }
}

#[test]
fn standard_input_that_is_closed() {
    let closed = |words: &str| {
        let command = format!("{} {words} <&-", env!("CARGO_BIN_EXE_matgravel"));
        Command::new("sh").args(["-c", &command]).stderr(Stdio::null()).status().expect("sh starts").code()
    };
    assert_eq!(closed("check -"), Some(1));
    assert_eq!(closed("add -"), Some(2));
}

#[test]
fn a_full_disk() {
    for words in
        [vec!["list"], vec!["simulate", "--steps", "2000"], vec!["timing", "--channel", "block", "--until", "9"]]
    {
        let full = OpenOptions::new().write(true).open("/dev/full").expect("/dev/full");
        let ran = matgravel().args(&words).arg(model("kinesin.bc")).stdout(full).output().expect("it starts");
        let error = String::from_utf8_lossy(&ran.stderr);
        assert_eq!(ran.status.code(), Some(2), "{words:?}: {error}");
        assert!(error.contains("standard output: "), "{error}");
    }
}

/// Standard error too may have no room: the table is whole.
#[test]
fn a_full_disk_for_messages() {
    let full = OpenOptions::new().write(true).open("/dev/full").expect("/dev/full");
    let words = ["simulate", &model("kinesin.bc"), "--steps", "20"];
    let ran = matgravel().args(words).stderr(full).output().expect("it starts");
    assert_eq!((ran.status.code(), ran.stdout), (Some(0), run(&words).out.into_bytes()));
}

/// Progress is shown where standard error is a terminal, which Python's pty makes, and nothing of it stays.
#[test]
fn a_terminal_sees_progress() {
    let watch = "import pty, sys; sys.exit(pty.spawn(sys.argv[1:]) >> 8)";
    let show =
        format!("'{}' timing '{}' --channel chr --runs 9 > /dev/null", common::command(), model("chromosome.bc"));
    let ran = fed(Command::new("python3").args(["-c", watch, "sh", "-c", &show]), b"");
    assert_eq!(ran.status, 0, "{}", ran.out);
    let shown: Vec<&str> = ran.out.split('\r').collect();
    assert!(shown.iter().any(|line| line.starts_with("4 of 9 runs, ") && line.contains(" s left")), "{shown:?}");
    assert!(shown.last().expect("a part").starts_with("\u{1b}[K"), "{shown:?}");
    let quiet = run(&["timing", &model("chromosome.bc"), "--channel", "chr", "--runs", "9"]);
    assert_eq!(quiet.err, "");
}

/// `simulate | head`: the command ends quietly.
#[test]
fn a_reader_that_has_enough() {
    let mut child = matgravel()
        .args(["simulate", &model("sheet.bc"), "--steps", "20000"])
        .stdout(Stdio::piped())
        .stderr(Stdio::piped())
        .spawn()
        .expect("it starts");
    drop(child.stdout.take());
    let ended = child.wait_with_output().expect("it ends");
    assert_eq!((ended.status.code(), ended.stderr.len()), (Some(0), 0));
}

#[test]
fn folders_and_tables_of_another_kind() {
    assert_eq!(run(&["check", "/"]).status, 2);
    let folder = folder("tables");
    let head = "seed,run,channel,value,time\n";
    let wrong = ["", "seed\n", "1,1,c,0,5\n", "1,1,c,0\n", "1,1,c,0,-5\n", "1,1,c,x,5\n", "1,1,\"c,0,5\n", "1,1,c,0,5"];
    for (number, row) in wrong.iter().enumerate().filter(|(number, _)| *number != 2) {
        let text = if number < 2 { row.to_string() } else { format!("{head}{row}") };
        let ran = run(&["add", &written(&folder, &format!("{number}.csv"), &text)]);
        assert_eq!((ran.status, ran.out.as_str()), (2, ""), "{text}");
    }
    let right = run(&["add", &written(&folder, "right.csv", &format!("{head}{}", wrong[2]))]);
    assert_eq!(right.status, 0, "{}", right.err);
    let other = written(&folder, "other.csv", &format!("{head}1,2,d,0,5\n"));
    let ran = run(&["add", &written(&folder, "right.csv", &format!("{head}{}", wrong[2])), &other]);
    assert!(ran.status == 2 && ran.err.contains("different channels"), "{}", ran.err);
}

#[test]
fn texts_of_great_depth() {
    let deep = format!("A[]={};A[];", "(".repeat(100_000));
    let long = format!("A[x]={{a,{}}};A[1];", vec!["x"; 100_000].join("+"));
    let many = format!("A[x]=[{}]->{{a,1}};A[1];", vec!["(x<1|x>2)"; 200].join("&"));
    // Brackets one in another, each with a sum or a condition: as a tree, they are as deep as all of them are long.
    let wound = |inner: &str, more: &str| (0..90).fold(inner.to_string(), |inside, _| format!("({inside}{more})"));
    let sums = format!("A[x]={{a,{}}};A[1];", wound("x", &"+x".repeat(30)));
    let bound = format!("A[]={{c?[1..4](y),y*{}}};A[];", wound("2", &"+2".repeat(30)));
    let gates = format!("A[x]=[{}]->{{a,1}};A[1];", wound("x<1", &"|x<1".repeat(20)));
    let powers = format!("A[x]={{a,{}x{}}};A[1];", "(".repeat(12), "^8)".repeat(12));
    let rows = format!("A[]={};A[];", vec!["{a,1}"; 5_000].join("+"));
    for text in [deep, long, many, sums, bound, gates, powers, rows] {
        let ran = on_text(&["import-bcs", "-"], &text);
        assert!(ran.status == 1 && ran.err.starts_with("standard input:1:"), "{:.200}", ran.err);
    }
}
