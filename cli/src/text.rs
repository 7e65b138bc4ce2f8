//! A model's text: read from a file, and its lines and words for messages.

use crate::engine::TEXT;
use crate::failure::Failure;
use crate::tokens;
use std::ffi::OsStr;
use std::fs::File;
use std::io::{self, Read};

/// The columns of a line that a message shows.
const SHOWN: usize = 100;

pub struct Text {
    pub name: String,
    pub bytes: Vec<u8>,
}

impl Text {
    /// Reads a model from a file, or from standard input for `-`. More than a text may have isn't read.
    pub fn read(file: &OsStr) -> Result<Text, Failure> {
        read_up_to(file, TEXT as u64 + 1).map(|bytes| Text { name: name(file), bytes })
    }

    /// Line and column of a place, from 1.
    fn position(&self, place: usize) -> (usize, usize) {
        let before = &self.bytes[..place.min(self.bytes.len())];
        let line = before.iter().filter(|&&byte| byte == b'\n').count();
        let start = before.iter().rposition(|&byte| byte == b'\n').map_or(0, |at| at + 1);
        (line + 1, before.len() - start + 1)
    }

    /// `FILE:LINE:COLUMN` of a place.
    pub fn at(&self, place: usize) -> String {
        let (line, column) = self.position(place);
        format!("{}:{line}:{column}", self.name)
    }

    /// The line of a place, and a caret under it. Of a long line the part around the place.
    pub fn caret(&self, place: usize) -> String {
        let (line, column) = self.position(place);
        let line = self.bytes.split(|&byte| byte == b'\n').nth(line - 1).unwrap_or(&[]);
        let line = line.strip_suffix(b"\r").filter(|line| line.len() >= column - 1).unwrap_or(line);
        let from = (column - 1).saturating_sub(SHOWN / 2);
        let part = &line[from..line.len().min(from + SHOWN)];
        let shown: String = part.iter().map(|&byte| printable(byte)).collect();
        let blanks = part[..column - 1 - from].iter().map(|&byte| if byte == b'\t' { '\t' } else { ' ' });
        format!("    {}\n    {}^\n", shown.trim_end(), blanks.collect::<String>())
    }

    /// The name that begins at a place.
    pub fn word(&self, place: usize) -> &str {
        let token = tokens::split(&self.bytes[place..]).into_iter().next();
        token.map_or("", |token| token.word(&self.bytes[place..]))
    }

    /// From a `{` to its `}`, as written on one line.
    pub fn action(&self, place: usize) -> String {
        let rest = &self.bytes[place..];
        let end = tokens::split(rest).into_iter().find(|token| token.word(rest) == "}");
        squeezed(&rest[..end.map_or(rest.len(), |token| token.end)])
    }
}

/// A part of a text on one line: comments are left out, what parts two tokens is one blank.
pub fn squeezed(part: &[u8]) -> String {
    let (mut words, mut end) = (String::new(), None);
    for token in tokens::split(part) {
        if end.is_some_and(|end| end < token.start) {
            words.push(' ');
        }
        words += token.word(part);
        end = Some(token.end);
    }
    words
}

fn printable(byte: u8) -> char {
    match byte {
        b'\t' | 32..=126 => byte as char,
        _ => '?',
    }
}

/// What messages call a file.
pub fn name(file: &OsStr) -> String {
    if file == "-" { "standard input".into() } else { file.to_string_lossy() }.into_owned()
}

/// A file, or standard input for `-`.
pub fn opened(file: &OsStr) -> io::Result<Box<dyn Read>> {
    Ok(if file == "-" { Box::new(io::stdin()) } else { Box::new(File::open(file)?) })
}

/// The first bytes of a file.
pub fn read_up_to(file: &OsStr, limit: u64) -> Result<Vec<u8>, Failure> {
    let mut bytes = Vec::new();
    let read = opened(file).and_then(|opened| opened.take(limit).read_to_end(&mut bytes));
    read.map(|_| bytes).map_err(|error| Failure::File(format!("{}: {error}", name(file))))
}
