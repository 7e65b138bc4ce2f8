//! `matgravel add`: the tables of several processes as one, the same as one process would print.

use crate::acting::Acting;
use crate::args::{Command, Given};
use crate::csv;
use crate::curve::{Curve, Times};
use crate::decimal;
use crate::failure::Failure;
use crate::timing::GRID;
use crate::{simulate, text, timing};
use std::collections::BTreeMap;
use std::ffi::OsStr;
use std::io::{self, BufRead, BufReader, Read, Write};

pub const COMMAND: Command = Command {
    name: "add",
    files: "TABLE..",
    about: "Puts tables of different runs together: those of `simulate` to one of all runs, those of\n\
            `timing --times` to the table that `timing` prints of all runs, whatever their order.",
    options: &[GRID],
    run,
};

fn run(given: &Given, out: &mut dyn Write) -> Result<(), Failure> {
    let mut tables = given.files.iter().map(|file| Table::open(file)).collect::<Result<Vec<_>, _>>()?;
    let head = tables[0].line.clone();
    for table in &mut tables {
        if table.line != head {
            return Err(table.wrong(&format!("its head isn't that of {}", text::name(&given.files[0]))));
        }
        table.next()?;
    }
    if head == csv::line(&timing::HEAD) {
        return add_times(tables, given.time(GRID.name)?, out);
    }
    if head == csv::line(&[&simulate::HEAD[..], &Acting::FIELDS].concat()) {
        out.write_all(head.as_bytes())?;
        return add_events(tables, out);
    }
    Err(tables[0].wrong("this is no table of `simulate` or of `timing --times`"))
}

/// A table that is read line by line.
struct Table {
    name: String,
    lines: BufReader<Box<dyn Read>>,
    /// The present line, with its end; empty after the last.
    line: String,
    number: u64,
}

impl Table {
    fn open(file: &OsStr) -> Result<Table, Failure> {
        let name = text::name(file);
        let lines = BufReader::new(text::opened(file).map_err(|error| unread(&name, error))?);
        let mut table = Table { name, lines, line: String::new(), number: 0 };
        table.next()?;
        Ok(table)
    }

    fn next(&mut self) -> Result<(), Failure> {
        self.line.clear();
        self.number += 1;
        let read = (&mut self.lines).take(LONGEST).read_line(&mut self.line);
        read.map_err(|error| unread(&self.name, error))?;
        if self.line.is_empty() || self.line.ends_with('\n') {
            return Ok(());
        }
        Err(self.wrong("the line is cut off"))
    }

    fn wrong(&self, what: &str) -> Failure {
        Failure::File(format!("{}:{}: {what}", self.name, self.number))
    }

    /// The run that the present line is of; nothing after the last.
    fn run(&self) -> Result<Option<u64>, Failure> {
        if self.line.is_empty() {
            return Ok(None);
        }
        let number = self.line.split(',').next().and_then(|word| word.parse().ok());
        number.map(Some).ok_or_else(|| self.wrong("the first field is no run's number"))
    }
}

/// More than any line of a table has.
const LONGEST: u64 = 1 << 20;

fn unread(name: &str, error: io::Error) -> Failure {
    Failure::File(format!("{name}: {error}"))
}

/// Copies the rows of the least run, again and again.
fn add_events(mut tables: Vec<Table>, out: &mut dyn Write) -> Result<(), Failure> {
    let mut last = None;
    loop {
        let mut least: Option<(u64, usize)> = None;
        for (number, table) in tables.iter().enumerate() {
            let run = table.run()?.map(|run| (run, number));
            least = [least, run].into_iter().flatten().min();
        }
        let Some((run, number)) = least else { return Ok(()) };
        let table = &mut tables[number];
        if last >= Some(run) {
            return Err(table.wrong(&format!("run {run} is in more than one table, or not where it belongs")));
        }
        last = Some(run);
        while table.run()? == Some(run) {
            out.write_all(table.line.as_bytes())?;
            table.next()?;
        }
    }
}

/// First times by seed and run, each from one table alone.
fn add_times(tables: Vec<Table>, grid: Option<u64>, out: &mut dyn Write) -> Result<(), Failure> {
    let mut runs: BTreeMap<(u64, u64), (usize, Times)> = BTreeMap::new();
    let mut channel = None;
    for (number, mut table) in tables.into_iter().enumerate() {
        while !table.line.is_empty() {
            let row = time_row(&table.line).ok_or_else(|| table.wrong("this is no row of first times"))?;
            if channel.get_or_insert(row.channel.clone()) != &row.channel {
                return Err(table.wrong("the tables are of different channels"));
            }
            let (from, times) = runs.entry(row.run).or_insert((number, Times::new()));
            if *from != number {
                return Err(table.wrong(&format!("run {} is in more than one table", row.run.1)));
            }
            times.extend(row.time);
            table.next()?;
        }
    }
    let mut curve = Curve::default();
    runs.into_values().for_each(|(_, times)| curve.add_run(times));
    curve.print(grid, out)
}

struct TimeRow {
    /// Its seed and number.
    run: (u64, u64),
    channel: String,
    /// Nothing for a run that lit no value.
    time: Option<(Vec<i64>, u64)>,
}

fn time_row(line: &str) -> Option<TimeRow> {
    let fields = csv::fields(line.trim_end_matches('\n'))?;
    let [seed, run, channel, value, time] = &fields[..] else { return None };
    let values: Option<Vec<i64>> = value.split_whitespace().map(|word| word.parse().ok()).collect();
    let time = match (values?, time.as_str()) {
        (values, "") if values.is_empty() => None,
        (values, time) if !values.is_empty() => Some((values, decimal::ticks(time)?)),
        _ => return None,
    };
    Some(TimeRow { run: (seed.parse().ok()?, run.parse().ok()?), channel: channel.clone(), time })
}
