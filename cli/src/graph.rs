//! `matgravel graph`: a model as a picture, in the language of Graphviz.

use crate::args::{Command, Given};
use crate::failure::Failure;
use crate::model::Model;
use crate::outline::{Branch, Definition, Kind, Outline};
use crate::text::squeezed;
use std::collections::BTreeSet;
use std::io::Write;

pub const COMMAND: Command = Command {
    name: "graph",
    files: "FILE",
    about: "Draws a model in the language of Graphviz (Debian package graphviz): `matgravel graph FILE | dot -Tsvg`.\n\
            A frame is a definition, a box a sum with its branches, a rounded node a channel. Full arrows are\n\
            calls and continuations; dashed ones lead from those who launch, kill or send to a channel, and\n\
            from a channel to those who receive or check.",
    options: &[],
    run,
};

fn run(given: &Given, out: &mut dyn Write) -> Result<(), Failure> {
    let model = Model::open(given.file(), false)?;
    let unread = || Failure::File(format!("{}: the accepted text was not understood", model.text.name));
    let outline = Outline::read(&model.text.bytes).ok_or_else(unread)?;
    let picture = Picture { text: &model.text.bytes, outline: &outline };
    let mut lines = vec!["digraph model {".to_string(), "  node [shape=box, fontname=\"monospace\"];".to_string()];
    for (number, definition) in outline.definitions.iter().enumerate() {
        lines.extend(picture.frame(number, definition));
    }
    lines.extend(picture.arrows());
    lines.extend(picture.channels());
    lines.push("}".to_string());
    Ok(out.write_all((lines.join("\n") + "\n").as_bytes())?)
}

struct Picture<'a> {
    text: &'a [u8],
    outline: &'a Outline<'a>,
}

impl Picture<'_> {
    /// A definition with its sums, those of continuations too.
    fn frame(&self, number: usize, definition: &Definition) -> Vec<String> {
        let name = definition.name.word(self.text);
        let started: u64 = self.outline.system.iter().filter(|(_, item)| *item == name).map(|(count, _)| count).sum();
        let start = if started > 0 { format!(", {started} at the start") } else { String::new() };
        let title = format!("{name}[{}]{start}", definition.parameters.join(","));
        let mut lines = vec![format!("  subgraph cluster{number} {{"), format!("    label={};", quoted(&title))];
        for (sum, _) in self.outline.sums.iter().enumerate().filter(|(_, sum)| sum.definition == number) {
            lines.push(format!("    sum{sum} [label={}];", self.label(sum)));
        }
        lines.push("  }".to_string());
        lines
    }

    /// The branches of a sum, one below the other.
    fn label(&self, sum: usize) -> String {
        let branches = self.outline.sums[sum].branches.iter();
        let lines: Vec<String> = branches.map(|branch| squeezed(&self.text[branch.first..branch.end])).collect();
        // A line that ends with \l stands at the left.
        quoted(&lines.join("\n")).replace('\n', "\\l").trim_end_matches('"').to_string() + "\\l\""
    }

    /// From each sum to what follows it.
    fn arrows(&self) -> Vec<String> {
        let mut lines = BTreeSet::new();
        for (number, sum) in self.outline.sums.iter().enumerate() {
            for branch in &sum.branches {
                let next = branch.next.iter().copied().chain(branch.calls.iter().flat_map(|name| self.called(name)));
                lines.extend(next.map(|next| format!("  sum{number} -> sum{next};")));
            }
        }
        lines.into_iter().collect()
    }

    /// The sums of a definition that is called.
    fn called(&self, name: &str) -> Vec<usize> {
        let found = self.outline.definitions.iter().find(|definition| definition.name.word(self.text) == name);
        found.map_or(Vec::new(), |definition| definition.sums.clone())
    }

    /// The channels as they are written, and who does what on them.
    fn channels(&self) -> Vec<String> {
        let (mut nodes, mut lines) = (Vec::new(), BTreeSet::new());
        for (number, sum) in self.outline.sums.iter().enumerate() {
            for branch in sum.branches.iter().filter(|branch| branch.offer.kind != Kind::Wait) {
                let channel = channel(branch);
                let place = nodes.iter().position(|node| *node == channel).unwrap_or_else(|| {
                    nodes.push(channel);
                    nodes.len() - 1
                });
                lines.extend(edge(branch.offer.kind, number, place));
            }
        }
        let node = |(number, channel): (usize, &String)| {
            format!("  channel{number} [label={}, style=rounded];", quoted(channel))
        };
        nodes.iter().enumerate().map(node).chain(lines).collect()
    }
}

fn channel(branch: &Branch) -> String {
    let items: Vec<String> = branch.offer.items.iter().map(|item| squeezed(item.as_bytes())).collect();
    items.join(",")
}

/// From a sum to a channel, or the other way; none for a wait.
fn edge(kind: Kind, sum: usize, channel: usize) -> Option<String> {
    let (what, gives) = match kind {
        Kind::Wait => return None,
        Kind::Launch => ("launch", true),
        Kind::Kill => ("kill", true),
        Kind::Send => ("send", true),
        Kind::Receive | Kind::Take => ("receive", false),
        Kind::Check => ("check", false),
    };
    let (from, to) = (format!("sum{sum}"), format!("channel{channel}"));
    let (from, to) = if gives { (from, to) } else { (to, from) };
    Some(format!("  {from} -> {to} [label={what}, style=dashed];"))
}

fn quoted(words: &str) -> String {
    format!("\"{}\"", words.replace('\\', "\\\\").replace('"', "\\\""))
}
