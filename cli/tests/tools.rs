//! The tools, the installation and the example in C, as a newcomer meets them.

mod common;

use common::{fed, folder, is_there, model, repository, run, written, Ran};
use std::process::Command;

fn python(tool: &str) -> Command {
    let mut command = Command::new("python3");
    command.arg(repository().join("tools").join(tool));
    command
}

/// Refused with one line on standard error.
fn said_in_a_line(ran: &Ran) {
    assert_eq!((ran.status, ran.out.as_str()), (1, ""));
    assert_eq!(ran.err.lines().count(), 1, "{}", ran.err);
}

#[test]
fn draw_run_survives_any_input() {
    let row = |number: &str, count: usize| vec![number; count].join(" ") + "\n";
    let bytes: Vec<u8> = (0..5_000u32).map(|number| (number.wrapping_mul(2_654_435_761) >> 24) as u8).collect();
    let inputs = [
        Vec::new(),
        bytes,
        b"1 2 x\n".to_vec(),
        row("257", 5_122).into_bytes(),
        row("-1", 5_122).into_bytes(),
        row(&"9".repeat(5_000), 2).into_bytes(),
    ];
    for input in inputs {
        said_in_a_line(&fed(&mut python("draw_run.py"), &input));
    }
}

/// A script of this repository where no tool but `dirname` is on the path.
fn without_tools(script: &str, words: &[&str]) -> Ran {
    let tools = folder("no_tools");
    let _ = std::os::unix::fs::symlink("/usr/bin/dirname", tools.join("dirname"));
    fed(Command::new("/bin/bash").arg(repository().join(script)).args(words).env("PATH", tools), b"")
}

/// What is missing is said before anything is proved.
#[test]
fn missing_tools_are_named_first() {
    let cases = [
        (without_tools(".ci/run", &[]), "gate: not found: rt cargo gcc g++ make python3 "),
        (without_tools("tools/build.sh", &["engine"]), "tools/build.sh: rt, "),
        (without_tools("tools/build.sh", &["guess"]), "tools/build.sh: guess is no program"),
        (without_tools("tools/build.sh", &[]), "usage: tools/build.sh "),
        (without_tools("examples/parallel.sh", &["m", "c", "1", "1", "o"]), "examples/parallel.sh: parallel is not "),
    ];
    for (ran, said) in cases {
        assert_eq!((ran.status, ran.out.as_str()), (2, ""), "{said}");
        assert!(ran.err.starts_with(said) && ran.err.lines().count() == 1, "{}", ran.err);
    }
}

/// Of a line without an end no more is read than a line may have.
#[test]
fn tools_end_on_a_line_without_an_end() {
    let timing = written(&folder("endless"), "timing.csv", TIMING);
    let lines: [&[&str]; 3] =
        [&["draw_run.py"], &["plot_timing.py", "-", "x.png"], &["plot_timing.py", &timing, "--measured", "-"]];
    for words in lines {
        let zeros = std::fs::File::open("/dev/zero").expect("zeros");
        let output = python(words[0]).args(&words[1..]).stdin(zeros).output().expect("python3 starts");
        said_in_a_line(&Ran::from(output));
    }
}

const TIMING: &str = "value,runs,lit,mean,sd,q1,median,q3,by_2,by_4\n\
                      0,9,9,1,0.5,1,1,1,1,1\n10,9,9,3,0.5,3,3,3,0,1\n";

#[test]
fn the_distance_to_a_measured_curve() {
    let folder = folder("plot");
    let head = TIMING.lines().next().expect("a head");
    let timing = written(&folder, "timing.csv", TIMING);
    let curve = "position,time\n0,2\n5,2\n10,1\n11,0\n";
    let measured = written(&folder, "measured.csv", curve);
    let said = "squared distance 5 over 3 positions, root of the mean square 1.29099\n";
    for (table, curve, input) in [(&*timing, &*measured, ""), (&timing, "-", curve), ("-", &measured, TIMING)] {
        let ran = fed(python("plot_timing.py").args([table, "--measured", curve]), input.as_bytes());
        assert_eq!(ran.out, said, "{}", ran.err);
    }
    let empty = written(&folder, "empty.csv", head);
    let short = written(&folder, "short.csv", &format!("{head}\n0,9,9,1\n"));
    let wrong = written(&folder, "wrong.csv", "position,time\n1,soon\n");
    let far = written(&folder, "far.csv", "position,time\n1,1e300\n");
    let pairs = [(&measured, &measured), (&empty, &measured), (&short, &measured), (&timing, &wrong), (&timing, &far)];
    for (table, curve) in pairs {
        said_in_a_line(&fed(python("plot_timing.py").args([table, "--measured", curve]), b""));
    }
}

/// With matplotlib the picture is drawn, without it that is said.
#[test]
fn a_timing_curve_is_drawn() {
    let folder = folder("picture");
    let table = run(&["timing", &model("chromosome.bc"), "--channel", "chr", "--runs", "3"]);
    let timing = written(&folder, "timing.csv", &table.out);
    let picture = folder.join("timing.png").display().to_string();
    let ran = fed(python("plot_timing.py").args([&timing, &picture, "--speed", "0.35"]), b"");
    let is_drawn =
        Command::new("python3").args(["-c", "import matplotlib"]).output().expect("python3").status.success();
    if is_drawn {
        assert_eq!(ran.status, 0, "{}", ran.err);
        assert!(std::fs::read(picture).expect("a picture").starts_with(b"\x89PNG"));
    } else {
        said_in_a_line(&ran);
    }
}

/// The folder of the archive that the command was linked with.
fn archive() -> String {
    let own = repository().join("target/staticlib").display().to_string();
    std::env::var("MATGRAVEL_LIB").unwrap_or(own) + "/libengine.a"
}

fn compiled(program: &mut Command) {
    let output = program.output().expect("gcc starts");
    assert!(output.status.success(), "{}", String::from_utf8_lossy(&output.stderr));
}

#[test]
fn the_files_are_installed() {
    let prefix = folder("installed").display().to_string();
    let mut make = Command::new("make");
    make.current_dir(repository()).args(["install-files", &format!("PREFIX={prefix}")]);
    make.arg(format!("COMMAND={}", env!("CARGO_BIN_EXE_matgravel"))).arg(format!("ARCHIVE={}", archive()));
    compiled(&mut make);
    let version = Command::new(format!("{prefix}/bin/matgravel")).arg("--version").output().expect("it starts");
    assert!(version.status.success());
    for file in ["share/man/man1/matgravel.1", "share/vim/vimfiles/syntax/matgravel.vim", "lib/libmatgravel.a"] {
        assert!(std::fs::metadata(format!("{prefix}/{file}")).is_ok(), "{file}");
    }
    let settings = std::fs::read_to_string(format!("{prefix}/lib/pkgconfig/matgravel.pc")).expect("settings");
    assert!(settings.contains(&format!("prefix={prefix}\n")) && settings.contains(env!("CARGO_PKG_VERSION")));
    let mut gcc = Command::new("gcc");
    gcc.arg(repository().join("examples/run.c")).args(flags(&prefix));
    // The archive needs nothing but C's library; one that stands in for it may need more.
    compiled(gcc.args(["-lm", "-lpthread", "-ldl", "-o"]).arg(format!("{prefix}/run")));
    example_says_what_is_wrong(&format!("{prefix}/run"));
}

/// What a compiler is told, by pkg-config where it is there.
fn flags(prefix: &str) -> Vec<String> {
    let told = format!("-I{prefix}/include -L{prefix}/lib -lmatgravel");
    let mut flags = told.clone();
    if is_there("pkg-config") {
        let mut asked = Command::new("pkg-config");
        asked.args(["--cflags", "--libs", "matgravel"]).env("PKG_CONFIG_PATH", format!("{prefix}/lib/pkgconfig"));
        let ran = fed(&mut asked, b"");
        flags = ran.out.trim().to_string();
        assert_eq!((flags.as_str(), ran.status), (told.as_str(), 0), "{}", ran.err);
    }
    flags.split_whitespace().map(str::to_string).collect()
}

fn example_says_what_is_wrong(program: &str) {
    let folder = folder("example");
    let slip = written(&folder, "slip.bc", "A[]={go,1};\nA[]\n");
    let beyond = written(&folder, "beyond.bc", "A[n]={go,1}+{c![1/n],1};A[0];");
    let sheet = model("sheet.bc");
    let cases: [(&[&str], i32, String); 6] = [
        (&[], 2, "run MODEL SEED STEPS\n".to_string()),
        (&["no such file", "1", "1"], 2, "no such file: No such file or directory\n".to_string()),
        (&[&sheet, "one", "1"], 2, "one: this is no whole number\n".to_string()),
        (&[&slip, "1", "1"], 1, format!("{slip}:3:1: refused 5 (docs/USING.md, Refusals)\n")),
        (&[&beyond, "1", "1"], 1, format!("{beyond}: process 0, branch 1: refused 12 (docs/USING.md, Refusals)\n")),
        (&[&sheet, "1", "3"], 0, String::new()),
    ];
    for (words, status, message) in cases {
        let ran = fed(Command::new(program).args(words), b"");
        assert_eq!((ran.status, ran.err), (status, message), "{words:?}");
    }
}

#[test]
fn graphviz_reads_the_drawing() {
    if !is_there("dot") {
        eprintln!("graphviz isn't there");
        return;
    }
    for name in ["chromosome.bc", "crowd.bc", "kinesin.bc", "sheet.bc"] {
        let drawn = run(&["graph", &model(name)]);
        let ran = fed(Command::new("dot").arg("-Tsvg"), drawn.out.as_bytes());
        assert!(ran.status == 0 && ran.out.contains("</svg>"), "{name}: {}", ran.err);
    }
}
