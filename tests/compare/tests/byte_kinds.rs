//! The kind of each of the 256 bytes is the one that the table had in whose place the ranges stand (02, note 5).
#![cfg(feature = "engine")]

use compare::linked::ENGINE;
use compare::with_stack;
use second::generate::Buffers;
use std::collections::BTreeSet;
use std::io::Write;
use std::path::Path;
use std::process::{Command, Stdio};

/// The table as it was: sixteen bytes to a row, the first byte's kind in the lowest digit.
const TABLE: [u64; 16] = [
    0x4404_4004_4444_4444,
    0x4444_4444_4444_4444,
    0x3333_3333_4344_3430,
    0x3333_3422_2222_2222,
    0x1111_1111_1111_1113,
    0x1433_3111_1111_1111,
    0x1111_1111_1111_1114,
    0x4333_3111_1111_1111,
    0x4444_4444_4444_4444,
    0x4444_4444_4444_4444,
    0x4444_4444_4444_4444,
    0x4444_4444_4444_4444,
    0x4444_4444_4444_4444,
    0x4444_4444_4444_4444,
    0x4444_4444_4444_4444,
    0x4444_4444_4444_4444,
];

#[derive(Clone, Copy, Debug, PartialEq, Eq, PartialOrd, Ord)]
enum Kind {
    Blank,
    Letter,
    Digit,
    Sign,
    Other,
}

fn of_table(byte: u8) -> Kind {
    let row = TABLE[usize::from(byte / 16)];
    match row >> (4 * (byte % 16)) & 15 {
        0 => Kind::Blank,
        1 => Kind::Letter,
        2 => Kind::Digit,
        3 => Kind::Sign,
        4 => Kind::Other,
        digit => panic!("{byte}: {digit}"),
    }
}

/// The table's bytes of each kind, counted.
#[test]
fn the_table_has_every_kind() {
    let count = |kind| (0..=255).filter(|&byte| of_table(byte) == kind).count();
    let kinds = [Kind::Blank, Kind::Letter, Kind::Digit, Kind::Sign, Kind::Other];
    assert_eq!(kinds.map(count), [4, 53, 10, 24, 165]);
}

/// The number and the place with which the engine answers a text.
fn opened(text: &[u8]) -> (u64, u64) {
    let (_, answer) = Buffers::opened(&ENGINE, text);
    (answer.number, answer.place)
}

/// What may stand before a sign: each sign fits after one of these.
const BEFORE: [&str; 10] =
    ["P", "P[]=", "P[]={", "P[]={a", "P[]={a,1", "P[]={a,1}", "P[]={a?[(1", "P[]={a?[1", "P[]=[1", "P[]=[1<1"];

/// A byte at the end of a text fits if the end is the first place that doesn't.
fn fits_after(before: &str, byte: u8) -> bool {
    let text = [before.as_bytes(), &[byte]].concat();
    opened(&text) == (5, text.len() as u64)
}

/// The kind of a byte by how texts with it are refused; nothing for a byte that no text may have.
fn of_engine(byte: u8) -> Option<Kind> {
    // A letter makes one name of three bytes, and so does a digit; a blank parts two names.
    let between = opened(&[b'P', byte, b'Q']);
    // A letter begins a name, which fits as a rate; a digit is a whole rate, and a name after it doesn't fit.
    let rate = opened(&[b"P[]={a,", &[byte, b'Q'][..]].concat());
    match (between, rate) {
        ((3, 1), (3, 7)) => None,
        ((5, 2), (5, 9)) => Some(Kind::Blank),
        ((5, 3), (5, 9)) => Some(Kind::Letter),
        ((5, 3), (5, 8)) => Some(Kind::Digit),
        _ if BEFORE.iter().any(|before| fits_after(before, byte)) => Some(Kind::Sign),
        ((5, 1), (5, 7)) => Some(Kind::Other),
        answers => panic!("{byte}: {answers:?}"),
    }
}

#[test]
fn texts_with_each_byte_are_refused_as_its_kind_says() {
    with_stack(|| {
        let mut seen = BTreeSet::new();
        for byte in 0..=255 {
            let kind = of_engine(byte);
            seen.insert(kind);
            assert_eq!(kind.unwrap_or(Kind::Other), of_table(byte), "{byte}");
        }
        assert_eq!(seen.len(), 6, "{seen:?}");
    });
}

/// What the program `tokens` prints for a text, which it also does for bytes that no text may have.
fn tokens(text: &[u8]) -> String {
    let program = Path::new(env!("CARGO_MANIFEST_DIR")).join("../../target/bin/tokens");
    assert!(program.exists(), "{} isn't there: run `tools/build.sh tokens` first", program.display());
    let mut child =
        Command::new(program).stdin(Stdio::piped()).stdout(Stdio::piped()).spawn().expect("the program starts");
    child.stdin.take().expect("a pipe").write_all(text).expect("the program reads its input");
    let output = child.wait_with_output().expect("the program ends");
    assert!(output.status.success(), "tokens: {}", output.status);
    String::from_utf8(output.stdout).expect("text")
}

#[test]
fn the_token_of_each_byte_is_of_its_kind() {
    for byte in 0..=255 {
        let printed = tokens(&[byte]);
        let expected = match of_table(byte) {
            Kind::Blank => String::new(),
            Kind::Letter => "0,1,name\n".into(),
            Kind::Digit => "0,1,whole\n".into(),
            Kind::Sign => format!("0,1,{}\n", char::from(byte)),
            Kind::Other => "0,1,other\n".into(),
        };
        let allowed = matches!(byte, 9 | 10 | 13 | 32..=126);
        let refused = if allowed { "" } else { "refused,3,0\n" };
        assert_eq!(printed, expected + refused, "{byte}");
    }
}
