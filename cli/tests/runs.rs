//! Runs by their numbers: the same on every number of threads and in every part, and as the law says.

mod common;

use common::{fed, folder, is_there, matgravel, model, on_text, repository, run, written};
use std::fs::Permissions;
use std::os::unix::fs::PermissionsExt;
use std::path::Path;
use std::process::Command;

const RUNS: usize = 12;

#[test]
fn threads_change_nothing() {
    let chromosome = model("chromosome.bc");
    for words in [vec!["simulate"], vec!["timing", "--channel", "chr"], vec!["timing", "--channel", "chr", "--times"]] {
        let by =
            |threads| run(&[&words[..], &[&chromosome, "--runs", "12", "--seed", "7", "--threads", threads]].concat());
        let (one, four) = (by("1"), by("4"));
        assert_eq!(one.status, 0, "{}", one.err);
        assert!(one.out == four.out, "{words:?}");
    }
}

/// The rows of `timing --times` without their seed, from the table of `simulate`: the first launch of each pair of a channel.
fn first_launches(events: &str, channel: &str) -> Vec<String> {
    let mut rows: Vec<String> = Vec::new();
    for event in events.lines().skip(1) {
        let (head, lit) = event.rsplit_once(',').expect("fields");
        if lit.is_empty() || !head.ends_with(&format!(",{channel}")) || !head.contains('!') {
            continue;
        }
        let fields: Vec<&str> = head.split(',').collect();
        let row = |run: &str, time: &str| format!("{run},{channel},{lit},{time}");
        if !rows.iter().any(|known| known.starts_with(&row(fields[0], ""))) {
            rows.push(row(fields[0], fields[1]));
        }
    }
    rows
}

/// `timing` takes several steps in one call, and `simulate` one.
#[test]
fn timing_and_simulate_make_the_same_runs() {
    let often = "A[n]={c![n],5}.A[n+1]+{c![n/2],5}.A[n]+{c#[n-1],3}.A[n]+{c?[0..9](x),1}.A[x]+{on,4}.A[n];3*A[0];";
    let models = [(std::fs::read_to_string(model("chromosome.bc")).expect("a model"), "chr"), (often.to_string(), "c")];
    for (text, channel) in models {
        for ends in [["--steps", "150"], ["--steps", "1"], ["--until", "3"], ["--until", "20"]] {
            let runs = ["-", "--runs", "8", "--steps", "300", ends[0], ends[1]];
            let events = on_text(&[&["simulate"][..], &runs].concat(), &text);
            let times = on_text(&[&["timing", "--channel", channel, "--times"][..], &runs].concat(), &text);
            let known = first_launches(&events.out, channel);
            let rows = times.out.lines().skip(1).filter_map(|row| row.strip_prefix("1,"));
            let rows: Vec<&str> = rows.filter(|row| !row.ends_with(",,")).collect();
            assert_eq!(rows, known, "{ends:?}");
            assert!(!rows.is_empty() || ends[1] == "1", "{ends:?}");
            assert_eq!((times.status, times.err), (events.status, events.err));
        }
    }
}

#[test]
fn parts_add_up_to_the_whole() {
    let (chromosome, folder) = (model("chromosome.bc"), folder("parts"));
    let kinds: [(&[&str], &[&str]); 2] =
        [(&["simulate"], &["simulate"]), (&["timing", "--channel", "chr"], &["timing", "--channel", "chr", "--times"])];
    for (whole, part) in kinds {
        let expected = run(&[whole, &[&chromosome, "--runs", &RUNS.to_string()]].concat());
        let mut files = Vec::new();
        for (first, runs) in [("6", "7"), ("1", "1"), ("2", "4")] {
            let ran = run(&[part, &[&chromosome, "--first", first, "--runs", runs]].concat());
            files.push(written(&folder, &format!("{}{first}.csv", part[0]), &ran.out));
        }
        let added = run(&["add", &files[0], &files[1], &files[2]]);
        assert_eq!(added.status, 0, "{}", added.err);
        assert!(added.out == expected.out, "{whole:?}");
        let twice = run(&["add", &files[0], &files[1], &files[0]]);
        assert!(twice.status == 2 && twice.err.contains("more than one table"), "{}", twice.err);
    }
}

/// examples/parallel.sh: byte for byte what one process prints.
#[test]
fn the_example_for_parallel() {
    let folder = folder("parallel");
    let out = folder.join("timing.csv");
    let mut script = Command::new(repository().join("examples/parallel.sh"));
    script.args([&model("chromosome.bc"), "chr", "12", "5"]).arg(&out).env("MATGRAVEL", matgravel().get_program());
    if !is_there("parallel") {
        script.env("PATH", path_with_parallel(&folder));
    }
    assert!(script.status().expect("it starts").success());
    let whole = run(&["timing", &model("chromosome.bc"), "--channel", "chr", "--runs", "12"]);
    assert!(std::fs::read_to_string(out).expect("a table") == whole.out);
}

/// A path on which a program stands in for GNU parallel: it makes one line after the other.
fn path_with_parallel(folder: &Path) -> String {
    let program = "#!/usr/bin/env bash\n\
                   while read -r first second; do\n\
                   line=${3//\\{1\\}/$first}\n\
                   bash -c \"${line//\\{2\\}/$second}\" || exit\n\
                   done\n";
    let file = written(folder, "parallel", program);
    std::fs::set_permissions(file, Permissions::from_mode(0o755)).expect("a program");
    format!("{}:{}", folder.display(), std::env::var("PATH").unwrap_or_default())
}

#[test]
fn the_examples_say_what_they_take() {
    let calls: [(&str, &[&str]); 4] = [
        ("parallel.sh", &[]),
        ("parallel.sh", &["model.bc", "chr", "12", "0", "out.csv"]),
        ("slurm.sh", &["model.bc", "chr"]),
        ("slurm.sh", &["model.bc", "chr", "some", "folder"]),
    ];
    for (script, words) in calls {
        let ran = fed(Command::new("bash").arg(repository().join("examples").join(script)).args(words), b"");
        assert_eq!((ran.status, ran.out.as_str()), (2, ""), "{script} {words:?}");
        assert!(ran.err.starts_with("usage: ") && ran.err.lines().count() == 1, "{}", ran.err);
    }
}

/// The array of the example for Slurm, its tasks one after the other.
#[test]
fn the_example_for_slurm() {
    let folder = folder("slurm");
    let script = |task: &str| {
        let mut script = Command::new("bash");
        script.arg(repository().join("examples/slurm.sh")).args([&model("chromosome.bc"), "chr", "4"]).arg(&folder);
        script.env("MATGRAVEL", matgravel().get_program()).env("SLURM_ARRAY_TASK_ID", task);
        assert!(script.status().expect("it starts").success());
        folder.join(format!("part{task}.csv")).display().to_string()
    };
    let parts = [script("3"), script("1"), script("2")];
    let added = run(&["add", &parts[0], &parts[1], &parts[2]]);
    let whole = run(&["timing", &model("chromosome.bc"), "--channel", "chr", "--runs", "12"]);
    assert!(added.status == 0 && added.out == whole.out, "{}", added.err);
}

/// models/chromosome.bc with one origin that is always licensed: bin n is copied after an exponential time of the origin's
/// mean and one of mean 1/0.35 for each bin between both.
#[test]
fn a_chromosome_of_one_origin_has_the_known_curve() {
    let whole = std::fs::read_to_string(model("chromosome.bc")).expect("the model");
    let (definitions, _) = whole.split_once("\nOri[0,").expect("a system line");
    let text = format!("{definitions}\nOri[100,25,1000];\n");
    let words = ["timing", "-", "--channel", "chr", "--runs", "150", "--seed", "8", "--threads", "4"];
    let ran = on_text(&words, &text);
    assert_eq!(ran.status, 0, "{}", ran.err);
    let mut bins = 0;
    for row in ran.out.lines().skip(1) {
        let fields: Vec<f64> = row.split(',').map(|field| field.parse().expect("a number")).collect();
        let [bin, runs, lit, mean, deviation] = fields[..5] else { panic!("{row}") };
        let (fires, moves) = (1.0 / 0.025, (bin - 100.0).abs());
        let (expected, variance): (f64, f64) = (fires + moves / 0.35, fires * fires + moves / (0.35 * 0.35));
        assert_eq!((runs, lit), (150.0, 150.0), "{row}");
        assert!((mean - expected).abs() < 4.0 * (variance / runs).sqrt(), "{row}");
        assert!((deviation / variance.sqrt() - 1.0).abs() < 0.3, "{row}");
        bins += 1;
    }
    assert_eq!(bins, 204);
}

/// One origin that fires at rate 0.5 and a fork of 4 positions a unit: position n is lit after an exponential time of
/// mean 2 and n further ones of mean 1/4.
#[test]
fn one_origin_and_one_speed_have_the_known_curve() {
    let text = "fast = 100000;\n\
                Ori[] = {fire,0.5}.Fork[0];\n\
                Fork[i] = {chr![i],fast}.[i<12] -> {on,4}.Fork[i+1];\nOri[];";
    let ran = on_text(&["timing", "-", "--channel", "chr", "--runs", "1000", "--seed", "3", "--grid", "2"], text);
    assert_eq!(ran.status, 0, "{}", ran.err);
    let rows: Vec<Vec<f64>> = ran
        .out
        .lines()
        .skip(1)
        .map(|line| line.split(',').map(|field| field.parse().expect("a number")).collect())
        .collect();
    assert_eq!(rows.len(), 13);
    for row in &rows {
        let (n, runs) = (row[0], row[1]);
        let (mean, variance): (f64, f64) = (2.0 + n / 4.0, 4.0 + n / 16.0);
        assert_eq!((runs, row[2]), (1000.0, 1000.0));
        assert!((row[3] - mean).abs() < 4.0 * (variance / runs).sqrt(), "mean at {n}: {}", row[3]);
        assert!((row[4] / variance.sqrt() - 1.0).abs() < 0.15, "deviation at {n}: {}", row[4]);
        assert!(row[5] < row[6] && row[6] < row[7] && *row.last().expect("shares") == 1.0);
    }
    // The origin alone: half of the runs by 2 ln 2, and 1 - 1/e of them by the time 2.
    assert!((rows[0][6] - 2.0 * 2f64.ln()).abs() < 0.3, "{}", rows[0][6]);
    assert!((rows[0][8] - (1.0 - (-1f64).exp())).abs() < 0.06, "{}", rows[0][8]);
}
