//! Document 01's samples and limits, and document 02's, through the safe interface.

use std::ops::Range;

use comaltzex::{
    find_closer, lookup, property, read, CloserSearch, Kind, LookupRefusal, Record, Refusal, Table,
    DEPTH_LIMIT, KEY_LIMIT, RECORD_SIZE, TEXT_LIMIT,
};

const FIRST: &[u8] = b"* A\n:PROPERTIES:\n:VIN: 7\n:END:\n\nhi\n";
const SECOND: &[u8] = b"* A\n\n:PROPERTIES:\n:VIN: 7\n:END:\n";
const UNTOUCHED: u32 = 0xABCD_EF01;

#[rustfmt::skip]
const FIRST_TABLE: [u32; 6 * RECORD_SIZE] = [
    1, 0, 35, 0, 35, 0, 0, 0,
    2, 0, 35, 4, 35, 0, 1, 0,
    3, 4, 35, 4, 35, 1, 0, 1,
    5, 4, 32, 17, 25, 2, 0, 1,
    6, 17, 25, 23, 24, 3, 0, 2,
    16, 32, 35, 32, 35, 2, 0, 5,
];

fn kinds(text: &[u8]) -> Vec<u32> {
    let table = Table::read(text).unwrap();
    table.records().map(|record| record.kind.number()).collect()
}

fn lines(text: &[u8]) -> Vec<usize> {
    let table = Table::read(text).unwrap();
    table.records().map(|record| record.line).collect()
}

/// Blocks of different names, each in the one before.
fn nested(depth: usize) -> Vec<u8> {
    let openers = (1..=depth).map(|i| format!("#+begin_b{i}\n"));
    let closers = (1..=depth).rev().map(|i| format!("#+end_b{i}\n"));
    openers.chain(closers).collect::<String>().into_bytes()
}

#[test]
fn first_sample() {
    assert_eq!(Table::read(FIRST).unwrap().numbers(), FIRST_TABLE);
}

#[test]
fn records_name_the_numbers() {
    let table = Table::read(FIRST).unwrap();
    let mut records = table.records();
    assert_eq!(records.len(), 6);
    assert_eq!(
        records.nth(4),
        Some(Record {
            kind: Kind::NodeProperty,
            span: 17..25,
            inner: 23..24,
            parent: 3,
            detail: 0,
            line: 2,
        })
    );
    assert_eq!(records.map(|r| r.kind).last(), Some(Kind::Paragraph));
}

#[test]
fn records_by_index() {
    let table = Table::read(FIRST).unwrap();
    assert_eq!(table.len(), 6);
    for (index, record) in table.records().enumerate() {
        assert_eq!(table.get(index), Some(record));
    }
    assert_eq!(table.get(6), None);
    assert_eq!(table.get(usize::MAX), None);
    assert_eq!(Table::read(b"").unwrap().len(), 1);
}

#[test]
fn texts_of_records() {
    let table = Table::read(FIRST).unwrap();
    let property = table.get(4).unwrap();
    assert_eq!(property.text(FIRST), Some(&b":VIN: 7\n"[..]));
    assert_eq!(property.inner_text(FIRST), Some(&b"7"[..]));
    assert_eq!(property.text(&FIRST[..25]), Some(&b":VIN: 7\n"[..]));
    assert_eq!(property.text(&FIRST[..24]), None);
    assert_eq!(property.inner_text(&FIRST[..23]), None);
    assert_eq!(table.get(0).unwrap().text(FIRST), Some(FIRST));
}

#[test]
fn kinds_have_names() {
    let table = Table::read(FIRST).unwrap();
    let names: Vec<String> = table.records().map(|r| r.kind.to_string()).collect();
    assert_eq!(
        names.join(", "),
        "document, heading, section, property drawer, node property, paragraph"
    );
    assert_eq!(format!("{:>8}", Kind::Row), "     row");
}

#[test]
fn a_larger_table_keeps_its_rest() {
    let mut table = [UNTOUCHED; FIRST_TABLE.len() + 9];
    assert_eq!(read(FIRST, &mut table).unwrap().len(), 6);
    assert_eq!(table[..FIRST_TABLE.len()], FIRST_TABLE);
    assert_eq!(table[FIRST_TABLE.len()..], [UNTOUCHED; 9]);
}

#[test]
fn a_smaller_table_is_left_alone() {
    for length in [0, 1, 5 * RECORD_SIZE, 6 * RECORD_SIZE - 1] {
        let mut table = vec![UNTOUCHED; length];
        let refusal = read(FIRST, &mut table).unwrap_err();
        assert_eq!(refusal, Refusal::NoRoom { needed: 6 });
        assert_eq!(table, vec![UNTOUCHED; length]);
    }
}

#[test]
fn other_samples() {
    assert_eq!(kinds(SECOND), [1, 2, 3, 7, 16]);
    assert_eq!(
        kinds(b"#+begin_src\n* A\n#+end_src\n"),
        [1, 3, 16, 2, 3, 16]
    );
    assert_eq!(kinds(b"*"), [1, 3, 16]);
    assert_eq!(kinds(b"* "), [1, 2]);
    assert_eq!(kinds(b"----"), [1, 3, 16]);
    assert_eq!(kinds(b"-----"), [1, 3, 14]);
    assert_eq!(kinds(b"#+:"), [1, 3, 16]);
    assert_eq!(kinds(b"#+::"), [1, 3, 15]);
    assert_eq!(
        Table::read(b"").unwrap().numbers(),
        [1, 0, 0, 0, 0, 0, 0, 0]
    );
}

#[test]
fn lines_of_samples() {
    assert_eq!(lines(FIRST), [0, 0, 1, 1, 2, 5]);
    assert_eq!(lines(SECOND), [0, 0, 2, 2, 3]);
    assert_eq!(lines(b"#+begin_src\n* A\n#+end_src\n"), [0, 0, 0, 1, 2, 2]);
    assert_eq!(lines(b""), [0]);
}

#[test]
fn lines_of_headings() {
    assert_eq!(lines(b"* A\n** B\n* C"), [0, 0, 1, 2]);
    // the document starts at byte 0, whatever stands there
    assert_eq!(lines(b"\n* A\n"), [0, 1]);
    // after the zeroth section; its own section starts on the planning line
    assert_eq!(lines(b"x\n* A\nCLOSED: [2026-01-05]\n"), [0, 0, 0, 1, 2, 2]);
}

#[test]
fn blank_lines_are_counted() {
    // before a section, after an element, inside a drawer
    assert_eq!(lines(b"\n \t\nx\n\n\n-----\n"), [0, 2, 2, 5]);
    assert_eq!(lines(b"* A\n\n\nx\n"), [0, 0, 3, 3]);
    assert_eq!(lines(b":a:\n\nx\n\n:end:\n\n* A\n"), [0, 0, 0, 2, 6]);
}

#[test]
fn byte_13_ends_no_line() {
    assert_eq!(lines(b"x\r\n\r\n-----\r\n* A\r\n"), [0, 0, 0, 2, 3]);
    assert_eq!(lines(b"x\r* A\r\r\n-----"), [0, 0, 0, 1]);
}

#[test]
fn lines_up_to_the_last_record() {
    let row = b"|\n";
    let rows = TEXT_LIMIT / row.len();
    let document_section_table = [0, 0, 0];
    let wanted: Vec<usize> = document_section_table.into_iter().chain(0..rows).collect();
    assert_eq!(lines(&row.repeat(rows)), wanted);

    let heading = b"* A\n\nx\n";
    let headings = TEXT_LIMIT / heading.len();
    let heading_section_paragraph = |i| [3 * i, 3 * i + 2, 3 * i + 2];
    let below = (0..headings).flat_map(heading_section_paragraph);
    let wanted: Vec<usize> = [0].into_iter().chain(below).collect();
    assert_eq!(lines(&heading.repeat(headings)), wanted);

    let mut text = vec![b'\n'; TEXT_LIMIT];
    text[TEXT_LIMIT - 1] = b'x';
    assert_eq!(lines(&text), [0, TEXT_LIMIT - 1, TEXT_LIMIT - 1]);
}

#[test]
fn lines_of_the_shipped_book() {
    let book = include_bytes!("../../../tests/books/orders.org");
    for record in Table::read(book).unwrap().records() {
        let before = &book[..record.span.start];
        let newlines = before.iter().filter(|&&byte| byte == b'\n').count();
        assert_eq!(record.line, newlines, "{record:?}");
    }
}

#[test]
fn text_limit() {
    let text = vec![b'x'; TEXT_LIMIT + 1];
    assert!(Table::read(&text[1..]).is_ok());
    assert_eq!(Table::read(&text), Err(Refusal::TooLong));
    assert_eq!(lookup(&text, 0, b""), Err(LookupRefusal::TooLong));

    let mut table = [UNTOUCHED; 3 * RECORD_SIZE];
    assert_eq!(read(&text, &mut table).unwrap_err(), Refusal::TooLong);
    assert_eq!(table, [UNTOUCHED; 3 * RECORD_SIZE]);
}

#[test]
fn depth_limit() {
    let deepest = Table::read(&nested(DEPTH_LIMIT)).unwrap();
    assert_eq!(deepest.records().len(), 2 + DEPTH_LIMIT);
    assert_eq!(Table::read(&nested(DEPTH_LIMIT + 1)), Err(Refusal::TooDeep));
}

#[test]
fn lookups() {
    assert_eq!(lookup(FIRST, 0, b"vin"), Ok(23..24));
    assert_eq!(property(FIRST, 0, b"VIN"), Ok(&b"7"[..]));
    assert_eq!(
        lookup(b"* A\n:PROPERTIES:\n:VIN:\n:END:\n", 0, b"VIN"),
        Ok(22..22)
    );
    assert_eq!(lookup(SECOND, 0, b"VIN"), Err(LookupRefusal::BlankFirst));
    assert_eq!(lookup(FIRST, 0, b"FUEL"), Err(LookupRefusal::NoKey));
    for at in [1, 4, FIRST.len(), usize::MAX] {
        assert_eq!(lookup(FIRST, at, b"VIN"), Err(LookupRefusal::NoHeading));
    }
}

#[test]
fn bad_keys() {
    let long = [b'k'; KEY_LIMIT + 1];
    assert_eq!(lookup(FIRST, 0, &long[1..]), Err(LookupRefusal::NoKey));
    let keys: [&[u8]; 7] = [b"", &long, b"V N", b"V\tN", b"VIN\r", b"VIN\n", b"VIN+"];
    for key in keys {
        assert_eq!(property(FIRST, 0, key), Err(LookupRefusal::BadKey));
    }
}

/// Checks a search up to the text's end: the closer's line, if there is one, and
/// how many lines are compared.
#[track_caller]
fn check_search(text: &[u8], at: usize, closer: Option<Range<usize>>, compared: usize) {
    let wanted = CloserSearch { closer, compared };
    assert_eq!(find_closer(text, at, text.len()), wanted);
}

#[test]
fn closer_samples() {
    check_search(b"#+begin_a\nx\n#+end_a\n", 0, Some(12..20), 1);
    check_search(b"#+begin_a\nx\n# c\n:END:\n", 0, None, 1);
    check_search(b"#+begin_a\n  # x\n\n\t#+end_a\n", 0, Some(17..26), 2);
    check_search(b"#+begin_a\n\r#+end_a\n#+end_a\n", 0, Some(19..27), 2);
    let twice = b"#+begin_a\n#+begin_a\n#+end_a\n#+end_a\n";
    check_search(twice, 0, Some(20..28), 2);
    check_search(b":a:\n:a:\n:a:\n:a:\n", 0, None, 3);
    check_search(b":a:\n:a:\n:a:\n:a:\n", 12, None, 0);
    check_search(b"#+begin_d\n:END:\n#+end_d", 0, Some(16..23), 1);
    check_search(b"#+begin_a\n#+end_a \r\n", 0, Some(10..20), 1);
    check_search(b"#+begin_a\n#+end_a x\n", 0, None, 1);
    let keywords = b"#+begin_a\n#+k: v\n#\n##\n#+end_a\n";
    check_search(keywords, 0, Some(22..30), 4);
}

#[test]
fn letters_of_closers_match_in_either_case() {
    check_search(b"#+BEGIN_Src c\n#+end_sRC\n", 0, Some(14..24), 1);
    check_search(b" :Log_1-b:\r\n#\n:x\n\t:End:\t\n", 0, Some(17..25), 2);
}

#[test]
fn closer_of_a_property_drawer() {
    check_search(FIRST, 4, Some(25..31), 2);
}

#[test]
fn closers_up_to_an_end() {
    let text = b":a:\n:x\n:end:\n";
    let open = |compared| CloserSearch {
        closer: None,
        compared,
    };
    let cut = CloserSearch {
        closer: Some(7..12),
        compared: 2,
    };
    assert_eq!(find_closer(text, 0, 12), cut);
    assert_eq!(find_closer(text, 0, 11), open(2));
    assert_eq!(find_closer(text, 0, 7), open(1));
    assert_eq!(find_closer(text, 0, 4), open(0));
}

#[test]
fn no_opener_no_closer() {
    let text = b" :a:\n:end:\nx\n#+begin_\n#+end_\n:end:\n";
    let none = CloserSearch {
        closer: None,
        compared: 0,
    };
    let past = text.len() + 1;
    // the middle of a line; `:end:`; text; a block without a name
    for at in [1, 5, 11, 13, text.len(), past, usize::MAX] {
        assert_eq!(find_closer(text, at, text.len()), none, "at {at}");
    }
    for end in [0, past, usize::MAX] {
        assert_eq!(find_closer(text, 0, end), none, "end {end}");
    }
    assert_eq!(find_closer(b"", 0, 0), none);
}

#[test]
fn closers_have_no_text_limit() {
    let mut text = b"#+begin_a\n".repeat(TEXT_LIMIT);
    let start = text.len();
    text.extend(b"#+end_a\n");
    check_search(&text, 0, Some(start..text.len()), TEXT_LIMIT);
}

#[test]
fn refusals_have_numbers_and_words() {
    let needed = Refusal::NoRoom { needed: 6 };
    assert_eq!(
        [Refusal::TooLong, Refusal::TooDeep, needed].map(Refusal::number),
        [1, 2, 3]
    );
    assert_eq!(needed.to_string(), "the table has no room for 6 records");
    assert_eq!(
        Refusal::TooLong.to_string(),
        "the text is longer than 65,536 bytes"
    );

    let lookups = [
        LookupRefusal::TooLong,
        LookupRefusal::NoHeading,
        LookupRefusal::NoDrawer,
        LookupRefusal::NoKey,
        LookupRefusal::BadKey,
    ];
    assert_eq!(lookups.map(LookupRefusal::number), [1, 4, 5, 6, 7]);
    assert_eq!(
        LookupRefusal::NoDrawer.to_string(),
        "this heading has no property drawer"
    );
}
