//! The programs `sheet`, `opens` and `calls`.

use std::io::Write;
use std::process::{Command, Stdio};

/// What a program prints when it is given this input and these arguments.
fn run(program: &str, input: &[u8], arguments: &[&str]) -> (String, bool) {
    let mut child = Command::new(program)
        .args(arguments)
        .stdin(Stdio::piped())
        .stdout(Stdio::piped())
        .stderr(Stdio::null())
        .spawn()
        .unwrap();
    // A program may stop reading before the end.
    let _ = child.stdin.take().unwrap().write_all(input);
    let output = child.wait_with_output().unwrap();
    (String::from_utf8(output.stdout).unwrap(), output.status.success())
}

const LAMPS: &[u8] = b"g = 0.25;
Lamp[n] = {@pass![n],2}.Lamp[n+1] + [n<3] -> {go,g*n}.Lamp[n+1];
Post[a] = {@pass?[a..a+1](v),1.5}.Post[v];
Lamp[1] || Lamp[4] || Post[1];
";

#[test]
fn sheet() {
    let sheet = |input: &[u8]| {
        let (output, success) = run(env!("CARGO_BIN_EXE_sheet"), input, &[]);
        assert!(success);
        output
    };
    assert_eq!(
        sheet(LAMPS),
        "kind,place,branch,partner,pbranch,pair,weight\n7,0,0,2,0,0,300000000\n1,0,1,0,0,0,25000000\ntotal,325000000\n"
    );
    assert_eq!(sheet(b""), "refused,5,0\n");
    assert_eq!(sheet(b"A[]={go,-1};A[];"), "refused,12,0,0\n");
    assert_eq!(sheet(b"S[]={@c![1],1};R[]={@c?[1],1};99*S[]||99*R[];"), "refused,13,0\n");
    assert_eq!(sheet(&vec![0; 300_000]), "refused,2,16384\n");
    assert_eq!(sheet(&[0; 16_384]), "refused,3,0\n");
}

#[test]
fn opens() {
    let file = std::path::Path::new(env!("CARGO_TARGET_TMPDIR")).join("opened");
    let name = file.to_str().unwrap();
    let opened = |text: &[u8]| {
        std::fs::write(&file, text).unwrap();
        let (output, success) = run(env!("CARGO_BIN_EXE_opens"), b"", &[name]);
        assert!(success);
        output.strip_prefix(&format!("== {name}\n")).unwrap().to_owned()
    };
    assert_eq!(opened(LAMPS), "accepted,1,2,2,1,3\n");
    assert_eq!(opened(b"A[]={go,1};256*A[];"), "accepted,0,1,1,0,256\n");
    assert_eq!(opened(b"A[]={go,1};256*A[]||A[];"), "refused,10,11\n");
    assert_eq!(opened(b"A[]={go,x};A[];"), "refused,9,8\n");
}

/// What `calls` prints for a script on standard input.
fn calls(script: &str) -> String {
    let (output, success) = run(env!("CARGO_BIN_EXE_calls"), script.as_bytes(), &[]);
    assert!(success);
    output
}

#[test]
fn calls_runs_a_script() {
    let lamps = format!("open {}\n{}\n", LAMPS.len(), String::from_utf8_lossy(LAMPS));
    // After the first step the lamp's wait has rate 0.5, and 325000000 is below the total.
    let script = format!(
        "list\n{lamps}list\nreport\nstep 325000000\nstep 299999999\nstep 325000000\nopen 3\nA[]\nstep 0\nreport\n"
    );
    let subtotals = format!("325000000{}", " 0".repeat(63));
    let expected = "11 0 0 0 0 0
0 0 0 0 0 0
0 0 0 2 325000000 0
  7 0 0 2 0 0 300000000
  1 0 1 0 0 0 25000000
0 0 0 2 325000000 0
  SUBTOTALS
16 0 0 2 325000000 0
  7 0 0 2 0 0 300000000
  1 0 1 0 0 0 25000000
0 0 0 2 325000000 0
  7 0 0 2 0 0 300000000
  1 0 1 0 0 0 25000000
0 0 0 2 350000000 1
  7 0 0 2 0 0 300000000
  1 0 1 0 0 0 50000000
5 3 0 0 0 0
11 0 0 0 0 0
11 0 0 0 0 0
"
    .replace("SUBTOTALS", &subtotals);
    assert_eq!(calls(&script), expected);
    let file = std::path::Path::new(env!("CARGO_TARGET_TMPDIR")).join("script");
    std::fs::write(&file, &script).unwrap();
    let name = file.to_str().unwrap();
    let named = format!("== {name}\n{expected}");
    // Each file has a fresh engine.
    let (output, _) = run(env!("CARGO_BIN_EXE_calls"), b"", &[name, name]);
    assert_eq!(output, named.repeat(2));
}

#[test]
fn calls_prints_a_state() {
    let state = calls("open 15\nA[]={go,1};A[];\nstate\n");
    let (_, numbers) = state.split_once('\n').unwrap();
    let numbers: Vec<&str> = numbers.trim_end().split(' ').collect();
    assert_eq!((numbers.len(), numbers[0], numbers[1]), (5_122, "1", "0"));
}

#[test]
fn calls_saves_returns_and_forgets() {
    let text = "A[n]={a,1}.A[n+1];A[0];";
    let script = format!(
        "save a\nopen {}\n{text}\nsave a\nstep 0\nsave bc\nstate\nreturn a\nstate\nreturn bc\nstate\n\
         forget a\nreturn a\nforget a\nsave \nsave a b\nsave a1\nsave \u{e4}\nreturn bc \nlist\nsave\n",
        text.len()
    );
    let printed = calls(&script);
    let lines: Vec<&str> = printed.lines().map(|line| &line[..line.len().min(16)]).collect();
    let (start, later) = ("1 0 0 0 0 0 0 0 ", "1 0 0 1 0 0 0 0 ");
    let [done, unknown, form] = ["0 0 0 0 0 0", "21 0 0 0 0 0", "20 0 0 0 0 0"];
    let expected = [
        &["11 0 0 0 0 0", done, done, "0 0 0 1 10000000", "  1 0 0 0 0 0 10", done, later, done, start, done, later][..],
        &[done, unknown, unknown, form, form, form, form, form, "0 0 0 1 10000000", "  1 0 0 0 0 0 10", "bad,21"],
    ];
    assert_eq!(lines, expected.concat());
    for line in ["saves a\n", "return\n", "forget\n", " save a\n", "save\ta\n", "save a"] {
        assert_eq!(calls(line), "bad,1\n", "{line:?}");
    }
    // Nine names.
    let names = "abcdefghi".chars().map(|name| format!("save {name}\n")).collect::<String>();
    let printed = calls(&format!("open {}\n{text}\n{names}save h\n", text.len()));
    assert_eq!(printed, format!("{}22 0 0 0 0 0\n0 0 0 0 0 0\n", "0 0 0 0 0 0\n".repeat(9)));
}

#[test]
fn calls_takes_timed_steps() {
    let text = "A[n]={a,1}.A[n+1];A[0];";
    let script = format!(
        "clock\ntime 0\nopen {}\n{text}\nwait 40000\nlist\nwait 50000\ntime 0\nclock\ntime 0\nwait 7\ntime 0\n\
         wait 7\nwait 007\nsave a\ntime 99\nclock\nreturn a\nclock\nopen 0\n\nclock\nwait 65536\n",
        text.len()
    );
    let printed = calls(&script);
    let lines: Vec<&str> = printed.lines().filter(|line| !line.starts_with("  ")).collect();
    let [done, taken, ended] = ["0 0 0 0 0 0", "0 0 0 1 100000000 0", "23 0 0 1 100000000 0"];
    let expected = [
        &["0 0", "11 0 0 0 0 0", done, taken, taken, "6103 2", ended, ended][..],
        &[done, taken, "6104 4", done, "6103 2", "5 0 0 0 0 0", "0 0", "bad,23"],
    ];
    assert_eq!(lines, expected.concat());
    for line in ["wait\n", "wait -1\n", "wait 1 2\n", "time\n", "time 1 2\n", "clock 1\n", "wait 65535"] {
        assert_eq!(calls(line), "bad,1\n", "{line:?}");
    }
    // The first 4,096 draws alone: a falling run and what ends it.
    let waits =
        |last: u32| (0..4_095).map(|number| format!("wait {}\n", 5_000 - number)).chain([format!("wait {last}\n")]);
    let open = format!("open {}\n{text}\n", text.len());
    let long: String = waits(5_000).collect();
    assert!(calls(&format!("{open}{long}time 0\nclock\n")).ends_with("762 4096\n"));
    let longer: String = waits(1).chain(["wait 7\n".to_string()]).collect();
    assert!(calls(&format!("{open}{longer}time 0\nclock\n")).contains("23 0 0 1 100000000 0"));
}

#[test]
fn calls_runs() {
    // Draws below 10^8 take a, those from there on b.
    let text = "A[n]={a,1}.A[n+1]+[n<2]->{b,0.5}.A[n+1];A[0];";
    let script = format!(
        "word 0\nrun 1\nopen {}\n{text}\nrun 1\nword 18446744073709551615\nword 100000000\nlist\nwait 40000\nword 7\n\
         wait 50000\nrun 9\nclock\nrun 9\nword 5\nwait 7\nwait 7\ntime 0\nwait 7\nwait 007\nrun 9\nrun 0\nword 1\n\
         open 0\n\nrun 1\nopen {}\n{text}\nrun 0\nword 18446744073709551616\n",
        text.len(),
        text.len()
    );
    let printed = calls(&script);
    let lines: Vec<&str> = printed.lines().collect();
    let [done, entry] = ["0 0 0 0 0 0", "  1 0 0 0 0 0 100000000"];
    let expected = [
        &["11 0 0 0 0 0", done, "0 0 0 0 2 150000000", "0 0 0 2 150000000 0", entry, "  1 0 1 0 0 0 50000000"][..],
        // The first word is turned away; the third isn't used, for the waiting draws end.
        &["23 1 2 2 2 150000000", "  4069 1 0 1 0 0 0 50000000", "4069 2", "0 0 0 0 2 150000000"],
        // The word is kept past the timed step, its waiting draws aren't.
        &[
            "0 0 0 2 150000000 0",
            entry,
            "  1 0 1 0 0 0 50000000",
            "0 1 1 2 1 100000000",
            "  4070 1 0 0 0 0 0 100000000",
        ],
        &["0 0 0 0 0 0", "5 0 0 0 0 0", "11 0 0 0 0 0", done, "0 0 0 0 0 0", "bad,30"],
    ];
    assert_eq!(lines, expected.concat());
    for line in
        ["word\n", "word -1\n", "word 1 2\n", "word a\n", "word 1", "run\n", "run -1\n", "run 1 2\n", "runs 1\n"]
    {
        assert_eq!(calls(line), "bad,1\n", "{line:?}");
    }
}

#[test]
fn calls_runs_with_room_for_1024_events() {
    let text = "A[n]={a,1}.A[n+1];A[0];";
    let put: String = (0..1_030).map(|_| "word 0\nwait 7\nwait 7\n").collect();
    let printed = calls(&format!("open {}\n{text}\n{put}run 2000\nrun 2000\nclock\n", text.len()));
    let lines: Vec<&str> = printed.lines().collect();
    assert_eq!((lines.len(), lines[1]), (1_024 + 4, "0 1024 1024 2048 1 100000000"));
    assert_eq!(lines[1_025..], ["  1024 1 0 0 0 0 0 100000000", "0 0 0 0 1 100000000", "1024 2048"]);
    // The first 4,096 words alone, of which all but the last are turned away, and waiting draws.
    let words = |last: &str| format!("{}{last}", "word 18446744073709551615\n".repeat(4_095));
    let open = format!("open {}\n{text}\nwait 7\nwait 7\n", text.len());
    assert!(calls(&format!("{open}{}run 5\n", words("word 0\n"))).contains("\n0 1 4096 2 1 100000000\n"));
    let longer = words("word 18446744073709551615\nword 0\n");
    assert!(calls(&format!("{open}{longer}run 5\n")).ends_with("\n0 0 0 0 1 100000000\n"));
}

#[test]
fn calls_searches() {
    let text = "A[n]={a,1}.A[n+1]+[n>0]->{b b,1};A[0];".replace("b b", "bb");
    let script =
        format!("seek 1 a\nopen {}\n{text}\nseek 8 bb\nseek 1 bb\nseek 0 a\nseek 3 \nseek 2 b b\nseek 3\n", text.len());
    let expected = "11 0 0 0 0 0 0 0 0 0
0 0 0 0 0 0
0 2 0 1 0 0 0 0 0 0
0 0 0 0 0 0 0 0 0 0
26 0 0 0 0 0 0 0 0 0
0 0 0 0 0 0 0 0 0 0
0 0 0 0 0 0 0 0 0 0
bad,9
";
    assert_eq!(calls(&script), expected);
    for line in ["seek\n", "seek \n", "seek a\n", "seek -1 a\n", "seek 10 a\n", "seek  a\n"] {
        assert_eq!(calls(line), "bad,1\n", "{line:?}");
    }
}

#[test]
fn calls_searches_in_pieces() {
    let text = "A[n]={a,1}.A[n+1]+[n>0]->{bb,1};A[0];";
    let script = format!(
        "carry 1\nopen {}\n{text}\ncarry 1\nbegin 9 bb\nbegin 8 bb\ncarry 0\ncarry 2\nstep 0\ncarry 9\ncarry 1\ncarry\n",
        text.len()
    );
    let expected = "11 0 0 0 0 0 0 0 0 0 0 0
0 0 0 0 0 0
28 0 0 0 0 0 0 0 0 0 0 0
26 0 0 0 0 0
0 0 0 0 0 0
0 0 0 0 0 0 0 0 0 0 0 0
0 2 0 0 0 0 0 0 0 0 0 0
0 0 0 1 100000000 0
  1 0 0 0 0 0 100000000
0 4 1 2 0 1 0 0 0 0 0 0
28 0 0 0 0 0 0 0 0 0 0 0
bad,12
";
    assert_eq!(calls(&script), expected);
    for line in [
        "begin\n",
        "begin 1\n",
        "begin a 1\n",
        "begin 10 a\n",
        "carry -1\n",
        "carry 18446744073709551616\n",
        "carry 1 2\n",
    ] {
        assert_eq!(calls(line), "bad,1\n", "{line:?}");
    }
}

#[test]
fn calls_opens_under_the_steady_profile() {
    let (one, two) = ("A[]={a,1}.(A[]);A[];", "A[]={a,1}.(A[]||A[]);A[];");
    let script = format!(
        "steady {}\n{one}\nstep 0\nsteady {}\n{two}\nlist\nopen {}\n{two}\nstep 0\nsteady 3\na\n",
        one.len(),
        two.len(),
        two.len()
    );
    let printed = calls(&script);
    let lines: Vec<&str> = printed.lines().filter(|line| !line.starts_with("  ")).collect();
    let taken = "0 0 0 1 100000000 0";
    assert_eq!(lines, ["0 0 0 0 0 0", taken, "29 10 0 0 0 0", "11 0 0 0 0 0", "0 0 0 0 0 0", taken, "bad,10"]);
    for line in ["steady\n", "steady 1\n", "steady a\nb\n", "steady 1\nab\n"] {
        assert_eq!(calls(line), "bad,1\n", "{line:?}");
    }
}

#[test]
fn calls_tells_which_entries_are_independent() {
    let text = "A[]={a,1}+{c![1],1};2*A[];";
    let script = format!(
        "independent 0 1\nopen {}\n{text}\nindependent 0 2\nlist\nindependent 0 2\nindependent 2 0\n\
         independent 0 1\nindependent 1 2\nindependent 0 4\nindependent 18446744073709551615 0\nopen 0\n\nlist\n\
         independent 0 2\nindependent 0\n",
        text.len()
    );
    let printed = calls(&script);
    let bits: Vec<&str> = printed.lines().filter(|line| line.len() == 1).collect();
    assert_eq!(bits, ["0", "0", "1", "1", "0", "0", "0", "0", "1"]);
    assert!(printed.ends_with("bad,16\n"), "{printed}");
    assert_eq!(calls("independent 0 18446744073709551616\n"), "bad,1\n");
    assert_eq!(calls("independent 0 1 2\n"), "bad,1\n");
    assert_eq!(calls("independent 0  1\n"), "bad,1\n");
}

#[test]
fn a_line_of_another_form_ends_the_run() {
    let cases: [(&str, &str); 16] = [
        ("list\nlists\nlist\n", "11 0 0 0 0 0\nbad,2\n"),
        ("\n", "bad,1\n"),
        ("step\n", "bad,1\n"),
        ("step \n", "bad,1\n"),
        ("step -1\n", "bad,1\n"),
        ("step 18446744073709551616\n", "bad,1\n"),
        ("step  1\n", "bad,1\n"),
        ("list 1\n", "bad,1\n"),
        ("report 1\n", "bad,1\n"),
        ("report\nreports\n", "11 0 0 0 0 0\nbad,2\n"),
        ("open 3\nab\n", "bad,1\n"),
        ("open 2\nabc\n", "bad,1\n"),
        ("open 3\na\nb\nlist \n", "5 2 0 0 0 0\nbad,4\n"),
        ("list\r\n", "bad,1\n"),
        ("list", "bad,1\n"),
        ("! state 0 1\n", "bad,1\n"),
    ];
    for (given, expected) in cases {
        assert_eq!(calls(given), expected, "{given:?}");
    }
    assert_eq!(calls("open 0\n\nstep 007\nstep 18446744073709551615\n"), "5 0 0 0 0 0\n11 0 0 0 0 0\n11 0 0 0 0 0\n");
    assert_eq!(calls(""), "");
}
