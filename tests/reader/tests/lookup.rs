//! Document 02, order 2: why a heading has no property drawer.

use plain_reader::{lookup, read, Reading};

const BLANK_LINES_FIRST: (u32, usize, usize, usize) = (8, 0, 0, 0);
const NOT_CLOSED: (u32, usize, usize, usize) = (10, 0, 0, 0);
const NO_DRAWER: (u32, usize, usize, usize) = (5, 0, 0, 0);

/// The answer for a line that is no node property and starts at byte `further`.
fn other_line(further: usize) -> (u32, usize, usize, usize) {
    (9, 0, 0, further)
}

/// Looks `VIN` up at byte 0. The reading must have a property drawer right after the heading or its
/// planning exactly when the lookup found one.
fn vin(text: &str) -> (u32, usize, usize, usize) {
    let answer = lookup(text.as_bytes(), 0, b"VIN");
    let has_drawer = matches!(answer.0, 0 | 6);
    assert_eq!(first_heading_has_drawer(text), has_drawer, "{text}");
    answer
}

fn first_heading_has_drawer(text: &str) -> bool {
    let Reading::Table(records) = read(text.as_bytes()) else {
        panic!("{text}: refused")
    };
    let kinds: Vec<u32> = records.iter().map(|record| record.kind).collect();
    kinds.starts_with(&[1, 2, 3, 5]) || kinds.starts_with(&[1, 2, 3, 4, 5])
}

#[test]
fn blank_lines_before_the_opener() {
    for text in [
        "* A\n\n:PROPERTIES:\n:VIN: 7\n:END:\n",
        "* A\n\r\n \n\t\n:properties:\n:end:\n",
        "* A\nSCHEDULED: <2024-01-01>\n\n:PROPERTIES:\n:VIN: 7\n:END:\n",
        "* A\n\n \t:PROPERTIES:\r\n:END:\n",
    ] {
        assert_eq!(vin(text), BLANK_LINES_FIRST, "{text}");
    }
}

#[test]
fn what_follows_an_opener_after_blank_lines_does_not_matter() {
    for text in [
        "* A\n\n:PROPERTIES:",
        "* A\n\n:PROPERTIES:\n",
        "* A\n\n:PROPERTIES:\nx\n:END:\n",
        "* A\n\n:PROPERTIES:\n* B\n",
    ] {
        assert_eq!(vin(text), BLANK_LINES_FIRST, "{text}");
    }
}

#[test]
fn an_opener_in_the_place_without_an_end_line() {
    for text in [
        "* A\n:PROPERTIES:",
        "* A\n:PROPERTIES:\n:VIN: 7\n",
        "* A\n:PROPERTIES:\nx\n\n",
        "* A\n:PROPERTIES:\n:END: x\n",
        "* A\nSCHEDULED: <2024-01-01>\n:PROPERTIES:\n",
    ] {
        assert_eq!(vin(text), NOT_CLOSED, "{text}");
    }
}

#[test]
fn an_end_line_past_the_next_heading_closes_nothing() {
    for text in [
        "* A\n:PROPERTIES:\n* B\n:END:\n",
        "* A\n:PROPERTIES:\n:VIN: 7\n** B\n:END:\n",
        "* A\n:PROPERTIES:\nx\n* B\n:END:\n",
    ] {
        assert_eq!(vin(text), NOT_CLOSED, "{text}");
    }
}

#[test]
fn the_first_line_that_is_no_node_property() {
    let in_drawer = |lines: &str| vin(&format!("* A\n:PROPERTIES:\n{lines}:END:\n"));
    assert_eq!(in_drawer("x\n"), other_line(17));
    assert_eq!(in_drawer(":VIN: 7\nx\ny\n"), other_line(25));
    assert_eq!(in_drawer("\n:VIN: 7\n"), other_line(17));
    assert_eq!(in_drawer(":VIN: 7\n\t \r\n"), other_line(25));
    assert_eq!(in_drawer("\r:VIN: 7\n"), other_line(17));
    assert_eq!(in_drawer(":PROPERTIES:\n:a++:\n"), other_line(30));
}

#[test]
fn the_lines_first_byte_not_its_bodys() {
    assert_eq!(vin("* A\n:PROPERTIES:\n  x\n:END:\n"), other_line(17));
    assert_eq!(vin("* A\n:PROPERTIES:\n\t\tx\n:END:"), other_line(17));
}

#[test]
fn lines_after_the_first_end_line_are_outside() {
    let text = "* A\n:PROPERTIES:\n:VIN: 7\n:END:\nx\n:END:\n";
    assert_eq!(vin(text), (0, 23, 24, 0));
    let text = "* A\n:PROPERTIES:\n:a: 7\n:END:\nx\n:END:\n";
    assert_eq!(vin(text), (6, 0, 0, 0));
}

#[test]
fn no_opener_in_the_place_or_after_blank_lines() {
    for text in [
        "* A",
        "* A\n\n \n",
        "* A\nx\n",
        "* A\nx\n:PROPERTIES:\n:VIN: 7\n:END:\n",
        "* A\n\nx\n:PROPERTIES:\n:VIN: 7\n:END:\n",
        "* A\n:PROPERTIES: x\n:END:\n",
        "* A\n\r:PROPERTIES:\n:END:\n",
        "* A\n\x0b\n:PROPERTIES:\n:END:\n",
        "* A\n:VIN: 7\n:END:\n",
    ] {
        assert_eq!(vin(text), NO_DRAWER, "{text}");
    }
}

#[test]
fn a_later_headings_drawer_is_not_seen() {
    for text in [
        "* A\n* B\n:PROPERTIES:\n:VIN: 7\n:END:\n",
        "* A\n\n* B\n:PROPERTIES:\n:VIN: 7\n:END:\n",
        "* A\n\n** B\n\n:PROPERTIES:\n",
    ] {
        assert_eq!(vin(text), NO_DRAWER, "{text}");
    }
}

#[test]
fn what_is_no_planning_line_stands_in_the_place() {
    for text in [
        "* A\nSCHEDULED: x\n:PROPERTIES:\n:VIN: 7\n:END:\n",
        "* A\nSCHEDULED: x\n\n:PROPERTIES:\n:VIN: 7\n:END:\n",
        "* A\nCLOSED: <2024-01-01>\nCLOSED: <2024-01-01>\n:PROPERTIES:\n:END:\n",
        "* A\n\nCLOSED: <2024-01-01>\n:PROPERTIES:\n:END:\n",
    ] {
        assert_eq!(vin(text), NO_DRAWER, "{text}");
    }
}

#[test]
fn the_numbers_before_them_come_first() {
    let text = b"* A\n:PROPERTIES:\nx\n:END:\n";
    assert_eq!(lookup(text, 0, b"a+"), (7, 0, 0, 0));
    assert_eq!(lookup(text, 4, b"a"), (4, 0, 0, 0));
    assert_eq!(lookup(text, 0, b"a"), other_line(17));
    let filled = |length: usize| [&text[..], &vec![b'x'; length - text.len()]].concat();
    assert_eq!(lookup(&filled(65_536), 0, b"a"), other_line(17));
    assert_eq!(lookup(&filled(65_537), 0, b"a"), (1, 0, 0, 0));
}
