//! What a refusal means and how to mend it: the table of docs/USING.md, which is the one source.

const USING: &str = include_str!("../../docs/USING.md");
const HEAD: &str = "| number | what is wrong | how to mend it |";

pub struct Refusal {
    pub wrong: &'static str,
    pub mend: &'static str,
}

pub fn refusal(number: u64) -> Refusal {
    let found = rows().find(|(row, _)| *row == number).map(|(_, refusal)| refusal);
    found.unwrap_or(Refusal { wrong: "see docs/USING.md", mend: "" })
}

/// The table's rows, by number.
fn rows() -> impl Iterator<Item = (u64, Refusal)> {
    let table = USING.split_once(HEAD).map_or("", |(_, table)| table);
    table.lines().skip(2).map_while(|line| {
        let mut cells = line.strip_prefix('|')?.trim_end_matches('|').split(" | ").map(str::trim);
        let number = cells.next()?.parse().ok()?;
        Some((number, Refusal { wrong: cells.next()?, mend: cells.next()? }))
    })
}

#[cfg(test)]
mod tests {
    use super::*;

    /// The numbers of all refusals.
    #[test]
    fn every_number_has_a_row() {
        for number in 1..=29 {
            assert_eq!(rows().filter(|(row, _)| *row == number).count(), 1, "{number}");
            let Refusal { wrong, mend } = refusal(number);
            assert!(!wrong.is_empty() && !mend.is_empty(), "{number}");
        }
        assert_eq!(refusal(15).wrong, "nothing can happen");
    }
}
