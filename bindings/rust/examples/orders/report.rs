//! What is printed of a book.

use comaltzex::{planning, Record, Refusal, Table};

use super::arguments::Request;
use super::entry::{entries, Entry};
use super::finding::{find, Finding};
use super::printable::printable;
use super::title::title;

#[derive(Debug, PartialEq)]
pub struct Report {
    pub lines: Vec<u8>,
    pub has_warnings: bool,
}

impl Report {
    /// The list of a book's headings, or the warnings of what is missing.
    pub fn new(
        name: &[u8],
        book: &[u8],
        request: &Request,
        defaults: Option<&[u8]>,
    ) -> Result<Report, Refusal> {
        let records: Vec<Record> = Table::read(book)?.records().collect();
        let mut lines = Vec::new();
        for entry in entries(&records) {
            let finding = find(book, &entry, &request.key, defaults);
            if let Some((line, text)) = text_of(book, &entry, finding, request) {
                lines.extend_from_slice(name);
                let line = line + 1; // an editor counts from 1
                lines.extend_from_slice(format!(":{line}: {text}\n").as_bytes());
            }
        }
        let has_warnings = request.missing && !lines.is_empty();
        Ok(Report {
            lines,
            has_warnings,
        })
    }
}

/// What is printed of a heading, if anything, and the line that this is about.
fn text_of(
    book: &[u8],
    entry: &Entry,
    finding: Finding,
    request: &Request,
) -> Option<(usize, String)> {
    let title = title(book, entry.heading.span.start);
    if !request.missing {
        let (line, what) = listed(entry, finding, &request.key);
        let deadline = deadline(book, entry);
        return Some((line, format!("{title}  {what}{deadline}")));
    }
    let fault = match finding {
        Finding::Missing(fault) => fault,
        Finding::NoOrder(fault) if request.all => fault,
        Finding::NoOrder(_) | Finding::Value(_) | Finding::Default(_) => return None,
    };
    Some((fault.line, format!("warning: {title}  {}", fault.why)))
}

/// A finding in the list, and the line that it is about.
fn listed(entry: &Entry, finding: Finding, key: &[u8]) -> (usize, String) {
    let what = |value| format!("{} {}", printable(key), printable(value));
    match finding {
        Finding::Value(value) => (entry.heading.line, what(value)),
        Finding::Default(value) => (entry.heading.line, what(value) + " (default)"),
        Finding::Missing(fault) | Finding::NoOrder(fault) => (fault.line, fault.why),
    }
}

/// The heading's deadline after two spaces; nothing if it has none.
fn deadline(book: &[u8], entry: &Entry) -> String {
    match planning(book, entry.heading.span.start).map(|plan| plan.deadline) {
        Ok(Some(deadline)) => format!("  deadline {deadline}"),
        Ok(None) => String::new(),
        Err(refusal) => format!("  {refusal}"),
    }
}

#[cfg(test)]
mod tests {
    use std::ffi::OsString;

    use super::super::arguments::{parse, Command};
    use super::*;

    const BOOK: &[u8] = b"#+TITLE: Orders\n\
        * One\n:PROPERTIES:\n:VIN: WBA 7\n:END:\n\
        ** Its notes\n\
        * Two \n\n:PROPERTIES:\n:VIN: 8\n:END:\n\
        * Three\n:PROPERTIES:\n:FUEL: 98\nVIN: 9\n:END:\n\
        * \n:PROPERTIES:\n:VIN:\n:END:";

    #[track_caller]
    fn request(options: &[&str]) -> Request {
        match parse(options.iter().map(OsString::from)) {
            Ok(Command::Report(request)) => request,
            other => panic!("{other:?}"),
        }
    }

    #[track_caller]
    fn check(book: &[u8], request: &Request, wanted: &str) {
        check_with_defaults(book, request, None, wanted);
    }

    #[track_caller]
    fn check_with_defaults(book: &[u8], request: &Request, defaults: Option<&[u8]>, wanted: &str) {
        let report = Report::new(b"b.org", book, request, defaults).unwrap();
        assert_eq!(String::from_utf8(report.lines).unwrap(), wanted);
        assert_eq!(report.has_warnings, wanted.contains("warning: "));
    }

    #[test]
    fn each_heading_has_a_line() {
        let wanted = "\
            b.org:2: One  VIN WBA 7\n\
            b.org:6: Its notes  no property drawer\n\
            b.org:8: Two  a blank line stands above the property drawer\n\
            b.org:15: Three  line 15 is no property: VIN: 9\n\
            b.org:19: (no title)  empty VIN in its drawer\n";
        check(BOOK, &request(&[]), wanted);
        check(BOOK, &request(&["--all"]), wanted);
    }

    #[test]
    fn warnings_are_of_faults_only() {
        let wanted = "\
            b.org:8: warning: Two  a blank line stands above the property drawer\n\
            b.org:15: warning: Three  line 15 is no property: VIN: 9\n\
            b.org:19: warning: (no title)  empty VIN in its drawer\n";
        check(BOOK, &request(&["--missing"]), wanted);
        check(b"* One\n** Two\n", &request(&["--missing"]), "");
    }

    #[test]
    fn all_headings_can_be_warned_of() {
        let book = b"* One\n* Two\n:PROPERTIES:\n:END:\n* Three\n:PROPERTIES:\n:VIN: 7\n:END:\n";
        let wanted = "\
            b.org:1: warning: One  no property drawer\n\
            b.org:3: warning: Two  no VIN in its drawer\n";
        check(book, &request(&["--missing", "--all"]), wanted);
    }

    #[test]
    fn another_key() {
        let book = b"* One\n:PROPERTIES:\n:FUEL: 98\n:END:\n* Two\n:PROPERTIES:\n:VIN: 7\n:END:\n";
        let wanted = "\
            b.org:1: One  fuel 98\n\
            b.org:6: Two  no fuel in its drawer\n";
        check(book, &request(&["--key=fuel"]), wanted);
    }

    #[test]
    fn defaults_are_marked() {
        let book = b"* One\n:PROPERTIES:\n:FUEL: 102\n:END:\n\
            * Two\nDEADLINE: <2026-11-20>\n:PROPERTIES:\n:VIN: 7\n:END:\n\
            * Three\n\n:PROPERTIES:\n:END:\n\
            * Four\n:PROPERTIES:\n:FUEL:\n:END:\n";
        let house: &[u8] = b"* House\n:PROPERTIES:\n:FUEL: 98\x1b\n:END:\n";
        let wanted = "\
            b.org:1: One  FUEL 102\n\
            b.org:5: Two  FUEL 98\\u{1b} (default)  deadline <2026-11-20>\n\
            b.org:11: Three  a blank line stands above the property drawer\n\
            b.org:16: Four  empty FUEL in its drawer\n";
        check_with_defaults(book, &request(&["--key=FUEL"]), Some(house), wanted);
        let wanted = "\
            b.org:11: warning: Three  a blank line stands above the property drawer\n\
            b.org:16: warning: Four  empty FUEL in its drawer\n";
        let missing = request(&["--missing", "--key=FUEL"]);
        check_with_defaults(book, &missing, Some(house), wanted);
    }

    #[test]
    fn deadlines_stand_last() {
        let book = b"* One\nDEADLINE: <2026-11-20 Fri> CLOSED: [2026-11-16]\n\
            :PROPERTIES:\n:VIN: 7\n:END:\n\
            * Two\nSCHEDULED: <2026-11-20>\n\
            * Three\n  deadline: <2026-11-20 9:30 -3d>\n\n:PROPERTIES:\n:END:\n";
        let wanted = "\
            b.org:1: One  VIN 7  deadline <2026-11-20>\n\
            b.org:6: Two  no property drawer\n\
            b.org:10: Three  a blank line stands above the property drawer  \
            deadline <2026-11-20 09:30 -3d>\n";
        check(book, &request(&[]), wanted);
    }

    #[test]
    fn other_bytes_than_text_are_escaped() {
        let book = b"* \x1b[2J\xff\n:PROPERTIES:\n:VIN: \xfe\x07\n:END:\n";
        let wanted = "b.org:1: \\u{1b}[2J\\xff  VIN \\xfe\\u{7}\n";
        check(book, &request(&[]), wanted);
        let mut request = request(&[]);
        request.key = b"K\xff\x1b".to_vec();
        let wanted = "b.org:2: \\u{1b}[2J\\xff  no K\\xff\\u{1b} in its drawer\n";
        check(book, &request, wanted);
    }

    #[test]
    fn a_name_is_printed_byte_for_byte() {
        let report = Report::new(b"\xff\x1b.org", b"* A\n", &request(&[]), None).unwrap();
        assert_eq!(report.lines, b"\xff\x1b.org:1: A  no property drawer\n");
    }

    #[test]
    fn a_long_book_is_refused() {
        let book = vec![b'\n'; comaltzex::TEXT_LIMIT + 1];
        let report = Report::new(b"b.org", &book, &request(&[]), None);
        assert_eq!(report, Err(Refusal::TooLong));
    }
}
