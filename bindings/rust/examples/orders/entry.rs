//! The headings of a book, each with its own lines.

use comaltzex::{Kind, Record};

/// A heading and what stands between it and the next one.
pub struct Entry<'r> {
    pub heading: &'r Record,
    /// The records of its section, in the table's order.
    below: &'r [Record],
}

/// The entries of a table.
pub fn entries(records: &[Record]) -> impl Iterator<Item = Entry<'_>> {
    let groups = records.chunk_by(|_, next| next.kind != Kind::Heading);
    groups.filter_map(|group| match group.split_first()? {
        (heading, below) if heading.kind == Kind::Heading => Some(Entry { heading, below }),
        _ => None,
    })
}

impl Entry<'_> {
    /// The line of the first record of its own that this holds of, else the heading's.
    pub fn line_of(&self, holds: impl Fn(&Record) -> bool) -> usize {
        let record = self.below.iter().find(|record| holds(record));
        record.unwrap_or(self.heading).line
    }

    /// The first line below the heading line that this holds of.
    pub fn first_line(&self, book: &[u8], holds: impl Fn(&[u8]) -> bool) -> Option<usize> {
        let section = self.below.first()?;
        let mut lines = section.text(book)?.split(|&byte| byte == b'\n');
        Some(section.line + lines.position(holds)?)
    }
}

/// Whether the first word of a line begins and ends with a colon, with something
/// between: `:PROPERTIES:`, `:VIN: 7`, `:END:`.
pub fn looks_like_a_drawer(line: &[u8]) -> bool {
    matches!(first_word(line), [b':', _, .., b':'])
}

/// Whether the first word of a line is `:PROPERTIES:`.
pub fn starts_with_opener(line: &[u8]) -> bool {
    first_word(line).eq_ignore_ascii_case(b":PROPERTIES:")
}

fn first_word(line: &[u8]) -> &[u8] {
    let mut words = line.split(u8::is_ascii_whitespace);
    words.find(|word| !word.is_empty()).unwrap_or_default()
}

#[cfg(test)]
mod tests {
    use comaltzex::Table;

    use super::*;

    fn records(book: &[u8]) -> Vec<Record> {
        Table::read(book).unwrap().records().collect()
    }

    #[test]
    fn lines_of_headings() {
        let records = records(b":PROPERTIES:\n:END:\n* One \r\ntext\n** \n*** Two\ttag");
        let lines: Vec<usize> = entries(&records).map(|entry| entry.heading.line).collect();
        assert_eq!(lines, [2, 4, 5]);
    }

    #[test]
    fn without_headings_there_are_no_entries() {
        for book in [&b""[..], b"text\n", b"*text\n"] {
            assert_eq!(entries(&records(book)).count(), 0);
        }
    }

    #[test]
    fn records_of_a_heading_are_its_own() {
        let book = b"* A\ntext\n* B\n** C\nCLOSED: [2026-01-01]\n:PROPERTIES:\n:END:\n";
        let records = records(book);
        let lines: Vec<usize> = entries(&records)
            .map(|entry| entry.line_of(|record| record.kind == Kind::PropertyDrawer))
            .collect();
        assert_eq!(lines, [0, 2, 5]);
    }

    #[test]
    fn drawer_like_lines_of_a_heading_are_its_own() {
        let book = b":A:\n* A\n\n\ntext\n  :B:\r\n:C:\n* :D: d\n** E\n\n* F\n:F:";
        let records = records(book);
        let lines: Vec<_> = entries(&records)
            .map(|entry| entry.first_line(book, looks_like_a_drawer))
            .collect();
        assert_eq!(lines, [Some(5), None, None, Some(11)]);
    }

    #[test]
    fn lines_like_a_drawer() {
        let lines = [
            ":PROPERTIES:",
            "\t:VIN: 7",
            " :end: \r",
            ":A+: b",
            ":::",
            ":A:B: c",
        ];
        for line in lines {
            assert!(looks_like_a_drawer(line.as_bytes()), "{line:?}");
        }
        let others = [
            "",
            " ",
            ":",
            "::",
            ": A:",
            ":A",
            "A:",
            ":A:b",
            "x :A:",
            "SCHEDULED: :A:",
        ];
        for line in others {
            assert!(!looks_like_a_drawer(line.as_bytes()), "{line:?}");
        }
    }
}
