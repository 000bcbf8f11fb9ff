//! Why a heading has no property drawer (document 02, order 2), through the safe interface.

use comaltzex::{lookup, property, Kind, LookupRefusal, Record, Table, TEXT_LIMIT};

const BLANK_FIRST: LookupRefusal = LookupRefusal::BlankFirst;
const NOT_CLOSED: LookupRefusal = LookupRefusal::NotClosed;
const NO_DRAWER: LookupRefusal = LookupRefusal::NoDrawer;

fn not_property(start: usize, line: usize) -> LookupRefusal {
    LookupRefusal::NotProperty { start, line }
}

/// Checks the lookup of VIN at a text's first byte, and the line to mend, counted from 0.
#[track_caller]
fn check_refused(text: &str, refusal: LookupRefusal, line: usize) {
    check_refused_at(text, 0, refusal, line);
}

#[track_caller]
fn check_refused_at(text: &str, at: usize, refusal: LookupRefusal, line: usize) {
    let bytes = text.as_bytes();
    assert_eq!(lookup(bytes, at, b"VIN"), Err(refusal), "{text:?}");
    assert_eq!(property(bytes, at, b"VIN"), Err(refusal), "{text:?}");
    assert_eq!(refusal.line_to_mend(bytes, at), line, "{text:?}");
}

#[test]
fn blank_lines_first() {
    check_refused("* A\n\n:PROPERTIES:\n:VIN: 7\n:END:\n", BLANK_FIRST, 1);
    check_refused("* A\n\n:PROPERTIES:\n", BLANK_FIRST, 1);
    check_refused("* A\n\r\n \n:properties:\n:end:\n", BLANK_FIRST, 1);
    check_refused("* A\n\t\n\n \t :PROPERTIES: \t", BLANK_FIRST, 1);
    // what follows the opener does not matter
    check_refused("* A\n\n:PROPERTIES:\nx\n:END:\n", BLANK_FIRST, 1);
    check_refused("* A\n\n:PROPERTIES:\n* B\n:END:\n", BLANK_FIRST, 1);
}

#[test]
fn blank_lines_below_a_planning_line() {
    let text = "* A\nSCHEDULED: <2024-01-01>\n\n:PROPERTIES:\n:VIN: 7\n:END:\n";
    check_refused(text, BLANK_FIRST, 2);
    let text = "* A\r\n  closed: [2024-01-01] \r\n\r\n\r\n:PROPERTIES:";
    check_refused(text, BLANK_FIRST, 2);
}

#[test]
fn never_closed() {
    check_refused("* A\n:PROPERTIES:\n:VIN: 7\n", NOT_CLOSED, 1);
    check_refused("* A\n:PROPERTIES:", NOT_CLOSED, 1);
    check_refused("* A\r\n\t:properties:\r\n:VIN: 7\r\n", NOT_CLOSED, 1);
    check_refused("* A\n:PROPERTIES:\nx\n:END: x\n", NOT_CLOSED, 1);
    // another heading's end line closes nothing
    check_refused("* A\n:PROPERTIES:\n:VIN: 7\n** B\n:END:\n", NOT_CLOSED, 1);
}

#[test]
fn never_closed_below_a_planning_line() {
    let text = "* A\nSCHEDULED: <2024-01-01>\n:PROPERTIES:\n";
    check_refused(text, NOT_CLOSED, 2);
    let text = "* A\nDEADLINE: <2024-01-01> CLOSED: [2024-01-02]\n:PROPERTIES:";
    check_refused(text, NOT_CLOSED, 2);
}

#[test]
fn lines_that_are_no_properties() {
    let blank_inside = "* A\n:PROPERTIES:\n\n:VIN: 7\n:END:\n";
    check_refused(blank_inside, not_property(17, 2), 2);
    let indented = "* A\n:PROPERTIES:\n  x\n:END:\n";
    check_refused(indented, not_property(17, 2), 2);
    let below_planning = "* A\nSCHEDULED: <2024-01-01>\n:PROPERTIES:\n:VIN: 7\nx\n:END:\n";
    check_refused(below_planning, not_property(49, 4), 4);
    let two_of_them = "* A\r\n:PROPERTIES:\r\n:VIN: 7\r\n:A++:\r\nx\r\n:END:";
    check_refused(two_of_them, not_property(28, 3), 3);
    let opener_again = "* A\n:PROPERTIES:\n:PROPERTIES: x\n::\n:END:\n";
    check_refused(opener_again, not_property(32, 3), 3);
}

#[test]
fn the_first_end_line_closes() {
    let text = b"* A\n:PROPERTIES:\n:VIN: 7\n:END:\nx\n:END:\n";
    assert_eq!(lookup(text, 0, b"VIN"), Ok(23..24));
    assert_eq!(lookup(text, 0, b"FUEL"), Err(LookupRefusal::NoKey));
}

#[test]
fn other_headings_without_a_drawer() {
    let texts = [
        "* A",
        "* A\nx\n",
        "* A\n\n\n",
        "* A\nSCHEDULED: x\n:PROPERTIES:\n:VIN: 7\n:END:\n",
        "* A\n\nSCHEDULED: <2024-01-01>\n:PROPERTIES:\n:END:\n",
        "* A\n\n* B\n:PROPERTIES:\n:VIN: 7\n:END:\n",
        "* A\n:PROPERTIES: x\n:END:\n",
        "* A\nx\n:PROPERTIES:\n:VIN: 7\n:END:\n",
        "* A\n\nx\n:PROPERTIES:\n:END:\n",
        "* A\n:LOGBOOK:\n:END:\n:PROPERTIES:\n:END:\n",
    ];
    for text in texts {
        check_refused(text, NO_DRAWER, 0);
    }
}

#[test]
fn each_heading_of_a_book() {
    let book = "x\n* A\n\n:PROPERTIES:\n:END:\n* B\n:PROPERTIES:\n* C\n:PROPERTIES:\n\
        :VIN: 7\n y\n:END:\n** D\nx\n* E\n:PROPERTIES:\n:VIN: 7\n:END:\n";
    check_refused_at(book, 0, LookupRefusal::NoHeading, 0);
    check_refused_at(book, 2, BLANK_FIRST, 2);
    check_refused_at(book, 26, NOT_CLOSED, 6);
    check_refused_at(book, 43, not_property(68, 10), 10);
    check_refused_at(book, 77, NO_DRAWER, 12);
    assert_eq!(property(book.as_bytes(), 84, b"vin"), Ok(&b"7"[..]));
}

/// The same book with line ends of one byte and of two: the lines to mend are the same.
#[test]
fn line_ends_of_two_bytes() {
    let book = "#+TITLE: Orders\n* A\nSCHEDULED: <2024-01-01>\n\n:PROPERTIES:\n:END:\n\
        * B\n:PROPERTIES:\n* C\n:PROPERTIES:\n:VIN: 7\ny\n:END:\n* D\n";
    let wanted = [(8, 3), (10, 7), (9, 11), (5, 13)];
    assert_eq!(numbers_and_lines(book), wanted);
    assert_eq!(numbers_and_lines(&book.replace('\n', "\r\n")), wanted);
}

/// For each heading the number of its refusal and the line to mend.
fn numbers_and_lines(book: &str) -> Vec<(u32, usize)> {
    let book = book.as_bytes();
    let table = Table::read(book).unwrap();
    let headings = table.records().filter(|r| r.kind == Kind::Heading);
    headings
        .map(|heading: Record| {
            let at = heading.span.start;
            let refusal = lookup(book, at, b"VIN").unwrap_err();
            (refusal.number(), refusal.line_to_mend(book, at))
        })
        .collect()
}

#[test]
fn other_refusals_come_before() {
    let texts = [
        ("* A\n\n:PROPERTIES:\n", BLANK_FIRST),
        ("* A\n:PROPERTIES:\n", NOT_CLOSED),
        ("* A\n:PROPERTIES:\nx\n:END:\n", not_property(17, 2)),
        ("* A\n", NO_DRAWER),
    ];
    for (text, refusal) in texts {
        let mut text = text.as_bytes().to_vec();
        assert_eq!(lookup(&text, 0, b"VIN"), Err(refusal));
        for at in [0, 1] {
            assert_eq!(lookup(&text, at, b"a+"), Err(LookupRefusal::BadKey));
        }
        assert_eq!(lookup(&text, 1, b"VIN"), Err(LookupRefusal::NoHeading));
        text.resize(TEXT_LIMIT + 1, b'\n');
        assert_eq!(lookup(&text, 0, b"a+"), Err(LookupRefusal::TooLong));
    }
}

/// A text of the greatest length: lines again and again between the first and the last.
fn longest(first: &str, again: &str, last: &str) -> String {
    let between = TEXT_LIMIT - first.len() - last.len();
    let between: String = again.chars().cycle().take(between).collect();
    [first, &between, last].concat()
}

#[test]
fn longest_texts() {
    let blank_first = longest("* A\n", "\n", ":PROPERTIES:");
    check_refused(&blank_first, BLANK_FIRST, 1);
    let not_closed = longest("* A\n:PROPERTIES:\n", ":a:\n", "");
    check_refused(&not_closed, NOT_CLOSED, 1);
    let bad_line_last = longest("* A\n:PROPERTIES:\n", ":a:\n", "x\n:END:");
    check_refused(&bad_line_last, not_property(65_529, 16_380), 16_380);
}

#[test]
fn refusals_have_numbers_and_words() {
    let refusals = [BLANK_FIRST, not_property(300, 11), NOT_CLOSED];
    assert_eq!(refusals.map(LookupRefusal::number), [8, 9, 10]);
    let words = [
        "a blank line stands above the property drawer",
        "line 12 is no property",
        "the property drawer is never closed",
    ];
    assert_eq!(refusals.map(|refusal| refusal.to_string()), words);
}

/// The refusals that no line of a drawer is to blame for.
const OTHERS: [LookupRefusal; 5] = [
    LookupRefusal::TooLong,
    LookupRefusal::NoHeading,
    LookupRefusal::NoDrawer,
    LookupRefusal::NoKey,
    LookupRefusal::BadKey,
];

#[test]
fn other_refusals_lead_to_the_heading() {
    let text = b"x\n\n* A\n:PROPERTIES:\n:END:\n* B\n";
    for refusal in OTHERS {
        assert_eq!(refusal.line_to_mend(text, 3), 2, "{refusal:?}");
        assert_eq!(refusal.line_to_mend(text, 26), 5, "{refusal:?}");
    }
}

#[test]
fn past_the_text_the_last_line_counts() {
    for text in ["a\n\nb", "a\n\nb\n", "a\n\n\n"] {
        for at in [text.len(), text.len() + 1, usize::MAX] {
            for refusal in OTHERS {
                let line = refusal.line_to_mend(text.as_bytes(), at);
                assert_eq!(line, 2, "{refusal:?} at {at}");
            }
        }
    }
}

/// A line of the text, even if the refusal is none of this text or heading.
#[test]
fn a_line_to_mend_for_any_arguments() {
    let long = "\n".repeat(TEXT_LIMIT + 1);
    let planned = "x\n* A\nCLOSED: [2024-01-01]";
    for text in ["", "\n", "* A", "* A\n", "\r\n\n", planned, &long] {
        let last = text.lines().count().saturating_sub(1);
        for at in [0, 1, 2, text.len(), text.len() + 1, usize::MAX] {
            for refusal in OTHERS.into_iter().chain([BLANK_FIRST, NOT_CLOSED]) {
                let line = refusal.line_to_mend(text.as_bytes(), at);
                assert!(line <= last, "{refusal:?} at {at}");
            }
        }
    }
}
