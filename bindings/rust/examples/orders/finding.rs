//! What a heading has of the property that is looked for.

use std::ops::Range;

use comaltzex::{lookup, lookup_with_defaults, Kind, LookupRefusal, Whose};

use super::entry::{looks_like_a_drawer, starts_with_opener, Entry};
use super::printable::printable;
use super::words::words;

const NO_DRAWER: &str = "no property drawer";
const OPENER_ELSEWHERE: &str = "no property drawer: `:PROPERTIES:` must stand alone on the \
    line right below the heading or its dates";

#[derive(Debug, PartialEq)]
pub enum Finding<'b> {
    Value(&'b [u8]),
    /// There is no value, but the house defaults have one.
    Default(&'b [u8]),
    /// There is no value.
    Missing(Fault),
    /// There is none, and the heading looks like no order.
    NoOrder(Fault),
}

#[derive(Debug, PartialEq)]
pub struct Fault {
    /// The line to mend, counted from 0.
    pub line: usize,
    pub why: String,
}

type Answer = Result<Range<usize>, LookupRefusal>;

/// What this heading of the book has of the property with this key; what its drawer lacks
/// may stand in the defaults.
pub fn find<'b>(
    book: &'b [u8],
    entry: &Entry,
    key: &[u8],
    defaults: Option<&'b [u8]>,
) -> Finding<'b> {
    let start = entry.heading.span.start;
    let Some(defaults) = defaults else {
        return own(book, entry, key, lookup(book, start, key));
    };
    let (whose, answer) = match lookup_with_defaults(book, start, defaults, key) {
        Ok(found) => (found.whose, Ok(found.answer)),
        Err(refused) => (refused.whose, Err(refused.answer)),
    };
    match whose {
        Whose::Order => own(book, entry, key, answer),
        Whose::Defaults => from_defaults(defaults, entry, key, answer),
    }
}

/// The heading's own answer.
fn own<'b>(book: &'b [u8], entry: &Entry, key: &[u8], answer: Answer) -> Finding<'b> {
    match answer {
        Ok(value) if value.is_empty() => {
            let line = entry.line_of(|r| r.kind == Kind::NodeProperty && r.inner == value);
            missing(line, format!("empty {} in its drawer", printable(key)))
        }
        Ok(value) => Finding::Value(&book[value]),
        Err(LookupRefusal::NoKey) => not_in_drawer(entry, key, ""),
        Err(LookupRefusal::NoDrawer) => without_drawer(book, entry),
        Err(refusal) => {
            let line = refusal.line_to_mend(book, entry.heading.span.start);
            missing(line, words(book, Whose::Order, refusal))
        }
    }
}

/// The defaults' answer, for a heading whose drawer lacks the key.
fn from_defaults<'b>(defaults: &'b [u8], entry: &Entry, key: &[u8], answer: Answer) -> Finding<'b> {
    match answer {
        Ok(value) if value.is_empty() => not_in_drawer(entry, key, ", empty in the defaults"),
        Ok(value) => Finding::Default(&defaults[value]),
        Err(LookupRefusal::NoKey) => not_in_drawer(entry, key, " or the defaults"),
        Err(refusal) => {
            let why = words(defaults, Whose::Defaults, refusal);
            not_in_drawer(entry, key, &format!("; {why}"))
        }
    }
}

/// The line that is missing goes below the drawer's first.
fn not_in_drawer(entry: &Entry, key: &[u8], besides: &str) -> Finding<'static> {
    let line = entry.line_of(|r| r.kind == Kind::PropertyDrawer);
    let key = printable(key);
    missing(line, format!("no {key} in its drawer{besides}"))
}

fn missing(line: usize, why: String) -> Finding<'static> {
    Finding::Missing(Fault { line, why })
}

/// A drawer's line tells that a drawer was meant; the opener is to be moved, and without
/// one it is missing below the heading.
fn without_drawer(book: &[u8], entry: &Entry) -> Finding<'static> {
    if let Some(line) = entry.first_line(book, starts_with_opener) {
        return missing(line, OPENER_ELSEWHERE.into());
    }
    let fault = Fault {
        line: entry.heading.line,
        why: NO_DRAWER.into(),
    };
    match entry.first_line(book, looks_like_a_drawer) {
        Some(_) => Finding::Missing(fault),
        None => Finding::NoOrder(fault),
    }
}

#[cfg(test)]
mod tests {
    use comaltzex::{Record, Table};

    use super::super::entry::entries;
    use super::super::words::SHOWN;
    use super::*;

    /// The finding at the last heading of a book.
    fn last(book: &[u8]) -> Finding<'_> {
        last_of(book, b"Vin", None)
    }

    fn last_of<'b>(book: &'b [u8], key: &[u8], defaults: Option<&'b [u8]>) -> Finding<'b> {
        let records: Vec<Record> = Table::read(book).unwrap().records().collect();
        let entry = entries(&records).last().unwrap();
        find(book, &entry, key, defaults)
    }

    /// The finding of `Fuel` at the last heading of a book, with these defaults.
    fn fuel<'b>(book: &'b [u8], defaults: &'b [u8]) -> Finding<'b> {
        last_of(book, b"Fuel", Some(defaults))
    }

    fn at(line: usize, why: &str) -> Finding<'static> {
        missing(line, why.to_string())
    }

    #[test]
    fn a_value() {
        let book = b"* A\n:PROPERTIES:\n:VIN: WBA \xff 7\n:END:\n";
        assert_eq!(last(book), Finding::Value(b"WBA \xff 7"));
    }

    #[test]
    fn an_empty_value_is_at_its_own_line() {
        let book = b"\n* A\n:PROPERTIES:\n:FUEL:\n:VIN:\n:END:\n";
        assert_eq!(last(book), at(4, "empty Vin in its drawer"));
    }

    #[test]
    fn a_missing_key_is_at_the_drawer() {
        let book = b"* A\nCLOSED: [2026-01-01]\n:PROPERTIES:\n:FUEL: 98\n:END:\n";
        assert_eq!(last(book), at(2, "no Vin in its drawer"));
    }

    #[test]
    fn blank_lines_above_the_drawer() {
        let why = "a blank line stands above the property drawer";
        let book = b"* A\n\n \n:PROPERTIES:\n:VIN: 7\n:END:\n";
        assert_eq!(last(book), at(1, why));
        let book = b"* A\nCLOSED: [2026-01-01]\n\n:PROPERTIES:\n:VIN: 7\n:END:\n";
        assert_eq!(last(book), at(2, why));
    }

    #[test]
    fn an_unclosed_drawer() {
        let why = "the property drawer is never closed";
        let book = b"* A\n\n* B\n:PROPERTIES:\n:VIN: 7\n";
        assert_eq!(last(book), at(3, why));
        let book = b"* A\nCLOSED: [2026-01-01]\n:PROPERTIES:";
        assert_eq!(last(book), at(2, why));
    }

    #[test]
    fn a_line_that_is_no_property_is_shown() {
        let book = b"* A\n:PROPERTIES:\n:VIN: 7\n  VIN 8\x1b\xff\r\n:END:\n";
        assert_eq!(last(book), at(3, r"line 4 is no property: VIN 8\u{1b}\xff"));
        let book = b"* A\n:PROPERTIES:\n\t\r\n:VIN: 7\n:END:\n";
        assert_eq!(last(book), at(2, "line 3 is no property: it is blank"));
        let line = "\u{e4}".repeat(SHOWN + 1);
        let book = format!("* A\n:PROPERTIES:\n{line}\n:END:");
        let shown = "\u{e4}".repeat(SHOWN);
        let why = format!("line 3 is no property: {shown}..");
        assert_eq!(last(book.as_bytes()), at(2, &why));
    }

    #[test]
    fn a_drawer_at_another_place_is_none() {
        let books = [
            (2, "* A\ntext\n:PROPERTIES:\n:VIN: 7\n:END:\n"),
            (2, "* A\nSCHEDULED: soon\n :properties:\r\n:VIN: 7\n:END:\n"),
            (3, "* A\n\n:VIN: 7\n:PROPERTIES:\n"),
            (1, "* A\n:PROPERTIES: x\n:END:\n"),
        ];
        for (line, book) in books {
            assert_eq!(
                last(book.as_bytes()),
                at(line, OPENER_ELSEWHERE),
                "{book:?}"
            );
        }
    }

    #[test]
    fn a_drawer_without_its_opener_is_missing_at_the_heading() {
        for book in ["\n* A\n:VIN: 7\n:END:\n", "\n* A\ntext\n:LOG:\nx\n:END:\n"] {
            assert_eq!(last(book.as_bytes()), at(1, NO_DRAWER), "{book:?}");
        }
    }

    #[test]
    fn what_has_no_drawer_looks_like_no_order() {
        let books = [
            (0, "* A"),
            (1, "\n* A\ntext\n: 7\n"),
            (4, "* A\n:PROPERTIES:\n:VIN: 7\n:END:\n* B\n"),
        ];
        for (line, book) in books {
            let why = NO_DRAWER.to_string();
            let wanted = Finding::NoOrder(Fault { line, why });
            assert_eq!(last(book.as_bytes()), wanted, "{book:?}");
        }
    }

    const LACKING: &[u8] = b"\n* A\nCLOSED: [2026-01-01]\n:PROPERTIES:\n:VIN: 7\n:END:\n";
    const HOUSE: &[u8] = b"* House\n:PROPERTIES:\n:FUEL: 98\n:VIN: 1\n:REQUEST: 2\n:END:\n";

    #[test]
    fn a_default() {
        assert_eq!(fuel(LACKING, HOUSE), Finding::Default(b"98"));
        let wanted = at(3, "no Fuel in its drawer");
        assert_eq!(last_of(LACKING, b"Fuel", None), wanted);
    }

    #[test]
    fn what_the_order_says_stands() {
        let book = b"* A\n:PROPERTIES:\n:FUEL: 102\n:END:\n";
        assert_eq!(fuel(book, HOUSE), Finding::Value(b"102"));
        let book = b"* A\n:PROPERTIES:\n:FUEL:\n:END:\n";
        assert_eq!(fuel(book, HOUSE), at(2, "empty Fuel in its drawer"));
        let books = [
            "* A\n",
            "* A\n\n:PROPERTIES:\n:VIN: 7\n:END:\n",
            "* A\n:PROPERTIES:\n",
            "* A\n:PROPERTIES:\n x\n:END:\n",
            "* A\nx\n:PROPERTIES:\n:VIN: 7\n:END:\n",
            "* A\n:VIN: 7\n:END:\n",
        ];
        for book in books {
            let book = book.as_bytes();
            assert_eq!(fuel(book, HOUSE), last_of(book, b"Fuel", None));
        }
    }

    #[test]
    fn an_identity_is_never_a_default() {
        let book = b"* A\n:PROPERTIES:\n:FUEL: 98\n:END:\n";
        for key in ["VIN", "vin", "Request"] {
            let wanted = at(1, &format!("no {key} in its drawer"));
            for house in [HOUSE, b""] {
                assert_eq!(last_of(book, key.as_bytes(), Some(house)), wanted);
            }
        }
    }

    #[test]
    fn why_there_is_no_default() {
        let houses = [
            ("* House\n:PROPERTIES:\n:END:\n", " or the defaults"),
            (
                "* House\n:PROPERTIES:\n:FUEL: \n:END:\n",
                ", empty in the defaults",
            ),
            ("98\n", "; in the defaults: there is no heading"),
            (
                "* House\n",
                "; in the defaults: this heading has no property drawer",
            ),
            (
                "* House\n\n:PROPERTIES:\n:FUEL: 98\n:END:\n",
                "; in the defaults: a blank line stands above the property drawer",
            ),
            (
                "* House\n:PROPERTIES:\n:FUEL: 98\n",
                "; in the defaults: the property drawer is never closed",
            ),
            (
                "x\n\n\n* House\n:PROPERTIES:\n FUEL 98\n:END:\n",
                "; in the defaults: line 6 is no property: FUEL 98",
            ),
            (
                "* House\n:PROPERTIES:\n\n:END:\n",
                "; in the defaults: line 3 is no property: it is blank",
            ),
        ];
        for (house, why) in houses {
            let wanted = at(3, &format!("no Fuel in its drawer{why}"));
            assert_eq!(fuel(LACKING, house.as_bytes()), wanted, "{house:?}");
        }
    }
}
