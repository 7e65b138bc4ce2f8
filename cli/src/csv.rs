//! Comma-separated tables, written and read: a field with a comma, a quotation mark or a line end is quoted.

use crate::failure::Failure;
use std::io::Write;

/// One line of a table.
pub fn line<S: AsRef<str>>(fields: &[S]) -> String {
    let fields: Vec<String> = fields.iter().map(|field| quoted(field.as_ref())).collect();
    fields.join(",") + "\n"
}

fn quoted(field: &str) -> String {
    if field.contains([',', '"', '\n', '\r']) {
        format!("\"{}\"", field.replace('"', "\"\""))
    } else {
        field.to_string()
    }
}

/// The fields of a line without its end; nothing where quotation marks don't fit.
pub fn fields(line: &str) -> Option<Vec<String>> {
    let mut fields = Vec::new();
    let mut rest = line;
    loop {
        let (field, after) = match rest.strip_prefix('"') {
            None => rest.find(',').map_or((rest.to_string(), ""), |at| (rest[..at].to_string(), &rest[at..])),
            Some(inside) => quoted_field(inside)?,
        };
        fields.push(field);
        match after.strip_prefix(',') {
            Some(next) => rest = next,
            None => return after.is_empty().then_some(fields),
        }
    }
}

/// A field up to the quotation mark that closes it, and what stands after that.
fn quoted_field(mut rest: &str) -> Option<(String, &str)> {
    let mut field = String::new();
    loop {
        let (before, after) = rest.split_once('"')?;
        field += before;
        match after.strip_prefix('"') {
            None => return Some((field, after)),
            Some(next) => {
                field.push('"');
                rest = next;
            }
        }
    }
}

/// A table with a head, for people or for machines.
pub struct Table {
    rows: Vec<Vec<String>>,
}

impl Table {
    pub fn new(head: &[&str]) -> Table {
        Table { rows: vec![head.iter().map(|name| name.to_string()).collect()] }
    }

    pub fn row(&mut self, fields: Vec<String>) {
        self.rows.push(fields);
    }

    /// For people the columns are aligned, and those with nothing under their head left out.
    pub fn print(&self, csv: bool, out: &mut dyn Write) -> Result<(), Failure> {
        let columns: Vec<usize> = (0..self.rows[0].len()).filter(|&column| csv || self.is_used(column)).collect();
        let widths: Vec<usize> = columns.iter().map(|&column| if csv { 0 } else { self.width(column) }).collect();
        for row in &self.rows {
            let fields = columns.iter().zip(&widths).map(|(&column, &width)| format!("{:width$}", row[column]));
            let fields: Vec<String> = fields.collect();
            let text = if csv { line(&fields) } else { fields.join("  ").trim_end().to_string() + "\n" };
            out.write_all(text.as_bytes())?;
        }
        Ok(())
    }

    fn is_used(&self, column: usize) -> bool {
        self.rows[1..].iter().any(|row| !row[column].is_empty())
    }

    fn width(&self, column: usize) -> usize {
        self.rows.iter().map(|row| row[column].chars().count()).max().unwrap_or(0)
    }
}

#[cfg(test)]
mod tests {
    use super::*;

    #[test]
    fn what_is_written_is_read() {
        let rows: [&[&str]; 4] = [&["a", "b"], &["", "1,2", "say \"no\""], &["{c![i],2}"], &["", ""]];
        for row in rows {
            assert_eq!(
                fields(line(row).trim_end_matches('\n')).as_deref(),
                Some(&row.iter().map(|f| f.to_string()).collect::<Vec<_>>()[..])
            );
        }
        assert_eq!(fields("\"a"), None);
        assert_eq!(fields("\"a\"b"), None);
    }
}
