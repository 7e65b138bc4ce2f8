//! Each command on samples, with its exit status.

mod common;

use common::{matgravel, model, on_text, repository, run};

const COMMANDS: [&str; 9] = ["check", "list", "simulate", "timing", "add", "report", "search", "graph", "import-bcs"];

#[test]
fn help_and_version_are_everywhere_and_in_the_man_page() {
    let help = run(&["--help"]);
    assert_eq!((help.status, help.err.as_str()), (0, ""));
    assert_eq!(run(&["--version"]).out, format!("matgravel {}\n", env!("CARGO_PKG_VERSION")));
    let page = std::fs::read_to_string(repository().join("cli/share/matgravel.1")).expect("the page");
    let page = page.replace('\\', "");
    assert!(page.contains(env!("CARGO_PKG_VERSION")));
    for command in COMMANDS {
        assert!(help.out.contains(&format!("\n  {command} ")), "{command}");
        assert!(page.contains(&format!("\n.B {command} ")), "{command}");
        let own = run(&[command, "--help"]);
        assert_eq!(own.status, 0);
        let options = own.out.lines().filter_map(|line| line.strip_prefix("  --")?.split_whitespace().next());
        for option in options {
            assert!(page.contains(&format!("--{option}")), "{command} --{option}");
        }
        assert_eq!(run(&[command, "--version"]).status, 0);
        for words in [["help", command], ["--help", command], [command, "-h"]] {
            assert_eq!(run(&words).out, own.out, "{words:?}");
        }
    }
    assert_eq!((run(&["-h"]).out, run(&["help"]).out), (help.out.clone(), help.out));
    assert_eq!(run(&["help", "guess"]).status, 2);
}

#[test]
fn mistakes_in_the_command_line_are_2() {
    let sheet = model("sheet.bc");
    let lines: [&[&str]; 11] = [
        &[],
        &["guess"],
        &["check"],
        &["check", &sheet, &sheet],
        &["check", &sheet, "--loud"],
        &["check", &sheet, "--steady=1"],
        &["check", "no such file"],
        &["simulate", &sheet, "--runs", "0"],
        &["simulate", &sheet, "--runs"],
        &["simulate", &sheet, "--until", "1.00001"],
        &["timing", &sheet],
    ];
    for line in lines {
        let ran = run(line);
        assert_eq!((ran.status, ran.out.as_str()), (2, ""), "{line:?}");
        assert!(!ran.err.is_empty(), "{line:?}");
    }
    let channel = run(&["timing", &model("chromosome.bc"), "--channel", "chromosome"]);
    assert_eq!(channel.status, 2);
    assert!(channel.err.contains("its channel names: chr"), "{}", channel.err);
}

#[test]
fn accepted_models_are_counted() {
    let counts = [
        ("chromosome.bc", "3 definitions, 6 sums, 1 channel name, 34 processes, 68 first transitions"),
        ("crowd.bc", "2 definitions, 2 sums, 0 channel names, 256 processes, 1024 first transitions"),
        ("kinesin.bc", "2 definitions, 6 sums, 2 channel names, 6 processes, 8 first transitions"),
        ("sheet.bc", "2 definitions, 2 sums, 1 channel name, 3 processes, 2 first transitions"),
    ];
    for (name, counts) in counts {
        let ran = run(&["check", &model(name)]);
        assert_eq!((ran.status, ran.out), (0, format!("{}: accepted: {counts}\n", model(name))));
    }
}

#[test]
fn a_refusal_has_its_line_a_caret_and_how_to_mend_it() {
    let ran = on_text(&["check", "-"], "// a slip\nA[]={go,1}.(B[];B[]={go,1};A[];\n");
    let start = "standard input:2:16: refused 5: the text isn't a model\n    \
                 A[]={go,1}.(B[];B[]={go,1};A[];\n    \
                 \x20              ^\n";
    assert_eq!((ran.status, ran.out.as_str()), (1, ""));
    assert!(ran.err.starts_with(start) && ran.err.contains("a missing `;`"), "{}", ran.err);
    let lines = on_text(&["check", "-"], "A[]={go,1};\r\nA[]\r\n");
    assert!(lines.err.starts_with("standard input:3:1: refused 5"), "{}", lines.err);
    let lines = on_text(&["check", "-"], "A[]={go,1}\r\nA[];\r\n");
    assert!(lines.err.contains(":2:1: ") && lines.err.contains("\n    A[];\n    ^\n"), "{}", lines.err);
    let steady = on_text(&["check", "-", "--steady"], "A[]={a,1}.(A[]||A[]);A[];");
    assert!(steady.status == 1 && steady.err.starts_with("standard input:1:11: refused 29: "), "{}", steady.err);
}

#[test]
fn a_refused_listing_names_process_and_branch() {
    let text = "A[n]={go,1}\n    +{c![1/n],2};\nA[3]||A[0];";
    for command in ["check", "list", "report"] {
        let ran = on_text(&[command, "-"], text);
        let start = "standard input:2:6: refused 12: ";
        assert!(ran.status == 1 && ran.err.starts_with(start), "{}", ran.err);
        assert!(ran.err.contains("process 1, A[0], branch 1\n"), "{}", ran.err);
    }
}

#[test]
fn the_sheet_is_listed() {
    let people = "process  action         with     its action               rate  share\n\
                  Lamp[1]  {@pass![n],2}  Post[1]  {@pass?[a..a+1](v),1.5}  3     92.3077%\n\
                  Lamp[1]  {go,g*n}                                         0.25  7.6923%\n\
                  total 3.25\n";
    assert_eq!(run(&["list", &model("sheet.bc")]).out, people);
    let machines = "definition,values,action,partner,partner_values,partner_action,channel,lit,rate,share\n\
                    Lamp,1,\"{@pass![n],2}\",Post,1,\"{@pass?[a..a+1](v),1.5}\",,,3,0.9230769231\n\
                    Lamp,1,\"{go,g*n}\",,,,,,0.25,0.0769230769\n";
    assert_eq!(run(&["list", &model("sheet.bc"), "--csv"]).out, machines);
}

#[test]
fn events_name_their_pairs() {
    let text = "A[n]={c,n![n,2],1}.{c,n?[0..9,2](x,y),1}.{c,n#[x,y],1}.{c,n#[x,y],1};A[4];";
    let ran = on_text(&["simulate", "-", "--seed", "5"], text);
    assert_eq!(ran.status, 0, "{}", ran.err);
    let rows: Vec<String> =
        ran.out.lines().skip(1).map(|line| line.splitn(3, ',').nth(2).unwrap_or("").to_string()).collect();
    let expected = [
        "A,4,\"{c,n![n,2],1}\",,,,\"c,4\",4 2",
        "A,4,\"{c,n?[0..9,2](x,y),1}\",,,,\"c,4\",4 2",
        "A,4 4 2,\"{c,n#[x,y],1}\",,,,\"c,4\",4 2",
        "A,4 4 2,\"{c,n#[x,y],1}\",,,,,",
    ];
    assert_eq!(rows, expected);
}

#[test]
fn runs_end_by_time_by_steps_or_refused() {
    let forever = "A[n]={go,1}.A[n+1];A[0];";
    let short = on_text(&["simulate", "-", "--until", "20"], forever);
    assert_eq!((short.status, short.err.as_str()), (0, ""));
    let times =
        short.out.lines().skip(1).map(|line| line.split(',').nth(1).unwrap_or("").parse::<f64>().expect("a time"));
    assert!(times.clone().count() > 5 && times.clone().all(|time| time <= 20.0));
    let cut = on_text(&["simulate", "-", "--steps", "7"], forever);
    assert_eq!((cut.status, cut.out.lines().count()), (0, 8));
    assert!(cut.err.starts_with("1 of the runs ended after the steps of --steps"), "{}", cut.err);
    let refused = on_text(&["simulate", "-", "--runs", "3"], "A[]={go,1}.(A[]||A[]);A[];");
    assert_eq!((refused.status, refused.out.lines().count()), (1, 1 + 3 * 255));
    assert!(refused.err.contains("refused 18") && refused.err.contains("run 1, after 255 steps; 3 of the runs"));
    let table = on_text(&["timing", "-", "--channel", "c"], "A[n]={c![n],1}.A[n+1];A[0];");
    assert_eq!((table.status, table.out.as_str()), (1, ""));
    assert!(table.err.contains("refused 19"), "{}", table.err);
}

#[test]
fn shares_are_reported() {
    let ran = run(&["report", &model("chromosome.bc"), "--csv"]);
    assert_eq!(ran.out, "definition,processes,rate,share\nOri,34,3400000,1\nFR,0,0,0\nFL,0,0,0\n");
    let later = run(&["report", &model("chromosome.bc"), "--until", "20", "--run", "2"]);
    assert_eq!(later.status, 0, "{}", later.err);
    assert!(later.out.contains("\nFR "), "{}", later.out);
}

#[test]
fn runs_are_searched() {
    let text = "S[]={chr![0],1}.{chr![1],1}.(R[0]||L[1]);\
                R[i]={~chr?[i+1],1}.{chr![i+1],1}.R[i+1]+{chr?[i+1],1}.{met,1}+[i>1]->{passed,1};\
                L[i]={~chr?[i-1],1}.{chr![i-1],1}.L[i-1]+{chr?[i-1],1}.{met,1}+[i<0]->{passed,1};S[];";
    let met = on_text(&["search", "-", "--wait", "met"], text);
    let steps = "step  process  action\n1     S[]      {chr![0],1}\n2     S[]      {chr![1],1}\n\
                 3     R[0]     {chr?[i+1],1}\n4     R[0]     {met,1}\n";
    assert_eq!((met.status, met.out.as_str()), (0, steps));
    let passed = on_text(&["search", "-", "--wait", "passed", "--depth", "4"], text);
    assert_eq!((passed.status, passed.out.as_str()), (0, "no run of at most 4 transitions comes to passed\n"));
    assert!(on_text(&["search", "-", "--wait", "pased", "--depth", "1"], text).out.contains("waits: met, passed"));
    assert_eq!(on_text(&["search", "-", "--wait", "met", "--depth", "9"], text).status, 1);
}

#[test]
fn a_model_is_drawn() {
    let ran = run(&["graph", &model("kinesin.bc")]);
    assert_eq!(ran.status, 0);
    for line in [
        "    label=\"K[i], 5 at the start\";",
        "  sum5 -> sum5;",
        "  channel1 [label=\"bump\", style=rounded];",
        "  sum5 -> channel1 [label=send, style=dashed];",
        "  channel0 -> sum5 [label=receive, style=dashed];",
    ] {
        assert!(ran.out.lines().any(|printed| printed == line), "{line}\n{}", ran.out);
    }
    let quoted = on_text(&["graph", "-"], "A[n]={c?[0..9\\2],1}||{c,n![1],1}.A[n];A[1];");
    assert!(quoted.out.contains("{c?[0..9\\\\2],1}\\l") && quoted.out.contains("label=\"c,n\""), "{}", quoted.out);
}

/// Every block of docs/COMMAND.md that begins with `$ matgravel` shows what that prints.
#[test]
fn the_page_shows_what_is_printed() {
    let page = std::fs::read_to_string(repository().join("docs/COMMAND.md")).expect("the page");
    let mut shown = 0;
    for block in page.split("\n    $ matgravel ").skip(1) {
        let (line, rest) = block.split_once('\n').expect("lines");
        let lines = rest.lines().map_while(|line| line.strip_prefix("    "));
        let printed: String = lines.map(|line| line.to_string() + "\n").collect();
        let words = line.split_whitespace();
        let output = matgravel().args(words).current_dir(repository()).output().expect("it starts");
        assert_eq!(String::from_utf8_lossy(&output.stdout), printed, "{line}");
        shown += 1;
    }
    assert_eq!(shown, 4);
}
