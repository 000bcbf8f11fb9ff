//! Document 02, order 6: orders taken into a book, and logs of them.

use plain_reader::{intake, intake_log, lookup, lookup_at_each_heading, orders_of};

/// A byte that no book here has.
const FILL: u8 = 0xAA;

type Pairs<'p> = &'p [(&'p [u8], &'p [u8])];

/// A buffer with that title and those pairs.
fn buffer(title: &[u8], pairs: Pairs) -> Vec<u8> {
    let mut buffer = text(title);
    buffer.push(pairs.len() as u8);
    for (key, value) in pairs {
        buffer.push(key.len() as u8);
        buffer.extend(*key);
        buffer.extend(text(value));
    }
    buffer
}

/// A length in two bytes, low first, and so many bytes.
fn text(bytes: &[u8]) -> Vec<u8> {
    let length = (bytes.len() as u16).to_le_bytes();
    [&length, bytes].concat()
}

/// An order with the title `T`, that request and that VIN.
fn order(request: &[u8], vin: &[u8]) -> Vec<u8> {
    buffer(b"T", &[(b"REQUEST", request), (b"VIN", vin)])
}

/// The sheet of such an order: 41 bytes, and those of the two values.
fn sheet(request: &str, vin: &str) -> String {
    format!("* T\n:PROPERTIES:\n:REQUEST: {request}\n:VIN: {vin}\n:END:\n")
}

/// A log of those orders.
fn log(orders: &[Vec<u8>]) -> Vec<u8> {
    let logged = |order: &Vec<u8>| [&(order.len() as u32).to_le_bytes(), &order[..]].concat();
    orders.iter().flat_map(logged).collect()
}

/// A book buffer of that room with the text at its front.
fn book(text: &[u8], room: usize) -> Vec<u8> {
    let mut book = text.to_vec();
    book.resize(room, FILL);
    book
}

/// The answer on a book of that text, all of it in use, in that room.
fn taken(text: &[u8], room: usize, buffer: &[u8]) -> (u32, usize) {
    let mut book = book(text, room);
    intake(&mut book, text.len(), buffer)
}

/// The call is refused with that number; no byte of the book changes.
fn assert_refused(number: u32, text: &[u8], room: usize, used: usize, buffer: &[u8]) {
    let before = book(text, room);
    let mut after = before.clone();
    let answer = intake(&mut after, used, buffer);
    assert_eq!(answer, (number, used));
    assert!(before == after, "{number}: a byte has changed");
}

/// After the order `r1`, `7` the book is this, and what is past it as before.
fn assert_book(text: &str, expected: &str) {
    let mut after = book(text.as_bytes(), 300);
    let answer = intake(&mut after, text.len(), &order(b"r1", b"7"));
    assert_eq!(answer, (0, expected.len()));
    assert!(after == book(expected.as_bytes(), 300), "{text:?}");
}

#[test]
fn the_sheet_comes_after_the_bytes_in_use() {
    let sheet = sheet("r1", "7");
    for before in ["", "\n", "* Z\n", "x\n", "* Z\n:PROPERTIES:\n"] {
        assert_book(before, &format!("{before}{sheet}"));
    }
    for before in ["x", "* Z", " ", "\r", "#+begin_src", "* Z\n:PROPERTIES:"] {
        assert_book(before, &format!("{before}\n{sheet}"));
    }
}

#[test]
fn only_the_bytes_in_use_are_the_book() {
    let mut after = book(sheet("r1", "8").as_bytes(), 100);
    assert_eq!(intake(&mut after, 0, &order(b"r1", b"7")), (0, 44));
    assert_eq!(after, book(sheet("r1", "7").as_bytes(), 100));
    let mut after = book(b"* Z\nrest", 100);
    assert_eq!(intake(&mut after, 4, &order(b"r1", b"7")), (0, 48));
    assert_eq!(
        after[..48],
        *format!("* Z\n{}", sheet("r1", "7")).as_bytes()
    );
}

#[test]
fn a_request_seen() {
    let seen = [
        "* Z\n:PROPERTIES:\n:REQUEST: r1\n:END:\n",
        "* Z\n:PROPERTIES:\n:request:\tr1 \r\n:END:",
        "* Z\n:PROPERTIES:\n:REQUEST+: r1\n:END:\n",
        "* Z\n:PROPERTIES:\n:a: 1\n:REQUEST: r1\n:REQUEST: r2\n:END:\n",
        "* Y\n*** Z\n:properties:\n:Request: r1\n:end:\n** X\n",
        "* Z\nCLOSED: [2026-01-05]\n  :PROPERTIES:\n  :REQUEST: r1\n  :END:\n",
    ];
    for text in seen {
        let text = text.as_bytes();
        assert_refused(19, text, 200, text.len(), &order(b"r1", b"7"));
        assert_eq!(taken(text, 200, &order(b"r3", b"7")).0, 0);
    }
}

#[test]
fn a_request_not_seen() {
    for text in [
        "",
        "r1\n",
        "* r1\n",
        "* Z\n:PROPERTIES:\n:REQUEST: R1\n:END:\n",
        "* Z\n:PROPERTIES:\n:REQUEST: r1 r1\n:END:\n",
        "* Z\n:PROPERTIES:\n:REQUEST: r\n:END:\n",
        "* Z\n:PROPERTIES:\n:REQUEST:\n:END:\n",
        "* Z\n:PROPERTIES:\n:REQUESTS: r1\n:VIN: r1\n:END:\n",
        "* Z\n:PROPERTIES:\n:REQUEST: r2\n:REQUEST: r1\n:END:\n",
        "* Z\n\n:PROPERTIES:\n:REQUEST: r1\n:END:\n",
        "* Z\nx\n:PROPERTIES:\n:REQUEST: r1\n:END:\n",
        "* Z\n:PROPERTIES:\n:REQUEST: r1\n",
        "* Z\n:PROPERTIES:\n:REQUEST: r1\nx\n:END:\n",
        ":PROPERTIES:\n:REQUEST: r1\n:END:\n",
        " * Z\n:PROPERTIES:\n:REQUEST: r1\n:END:\n",
    ] {
        assert_eq!(taken(text.as_bytes(), 200, &order(b"r1", b"7")).0, 0);
    }
}

#[test]
fn the_lookup_at_each_heading_is_the_lookup_there() {
    let text: &[u8] =
        b"x\n* A\n:PROPERTIES:\n:a: 1\n:END:\n** B\n\n:PROPERTIES:\n* C\n:PROPERTIES:\n\
                        x\n:END:\n* D\n:PROPERTIES:\n* E\nx\n* F\n:PROPERTIES:\n:b: 2\n:END:";
    let starts = (0..text.len()).filter(|at| lookup(text, *at, b"a").0 != 4);
    let alone: Vec<_> = starts.map(|at| lookup(text, at, b"a")).collect();
    let numbers: Vec<u32> = alone.iter().map(|answer| answer.0).collect();
    assert_eq!(numbers, [0, 8, 9, 10, 5, 6]);
    assert_eq!(lookup_at_each_heading(text, b"a"), alone);
    assert_eq!(lookup_at_each_heading(text, b"a+"), [(7, 0, 0, 0); 6]);
    let long = [b"* A\n", &[b'x'; 65_533][..]].concat();
    assert_eq!(lookup_at_each_heading(&long, b"a+"), [(1, 0, 0, 0)]);
}

#[test]
fn a_double_click_changes_nothing() {
    let mut after = book(b"", 200);
    assert_eq!(intake(&mut after, 0, &order(b"r1", b"7")), (0, 44));
    let once = after.clone();
    assert_eq!(intake(&mut after, 44, &order(b"r1", b"7")), (19, 44));
    assert_eq!(intake(&mut after, 44, &order(b"r1", b"8")), (19, 44));
    assert_eq!(after, once);
    assert_eq!(intake(&mut after, 44, &order(b"R1", b"7")), (0, 88));
}

#[test]
fn request_and_vin_missing_or_empty() {
    for pairs in [
        &[] as Pairs,
        &[(b"REQUEST", b"r1")],
        &[(b"VIN", b"7")],
        &[(b"REQUEST", b""), (b"VIN", b"7")],
        &[(b"REQUEST", b"r1"), (b"VIN", b"")],
        &[(b"REQUESTS", b"r1"), (b"VIN", b"7")],
        &[(b"REQUEST", b"r1"), (b"VI", b"7")],
    ] {
        assert_refused(17, b"x", 200, 1, &buffer(b"T", pairs));
    }
    let in_other_letters: Pairs = &[(b"vin", b"7"), (b"a", b""), (b"Request", b"r1")];
    assert_eq!(taken(b"", 200, &buffer(b"T", in_other_letters)), (0, 48));
}

#[test]
fn order_5_up_to_15() {
    let whole = order(b"r1", b"7");
    for end in 0..whole.len() {
        assert_refused(12, b"x", 200, 1, &whole[..end]);
    }
    assert_refused(12, b"x", 200, 1, &[&whole[..], b"x"].concat());
    assert_refused(13, b"x", 200, 1, &order(b"r1 ", b"7"));
    assert_refused(13, b"x", 200, 1, &order(b"r1", b"\r"));
    let end: Pairs = &[(b"REQUEST", b"r1"), (b"VIN", b"7"), (b"End", b"")];
    assert_refused(14, b"x", 200, 1, &buffer(b"T", end));
    let twice: Pairs = &[(b"REQUEST", b"r1"), (b"VIN", b"7"), (b"vin", b"7")];
    assert_refused(15, b"x", 200, 1, &buffer(b"T", twice));
}

#[test]
fn bytes_in_use_over_the_buffer_or_the_limit() {
    let whole = order(b"r1", b"7");
    for used in [61, 62, 65_536, 65_537, usize::MAX] {
        assert_refused(18, b"", 60, used, &whole);
    }
    assert_refused(16, &[b'x'; 60], 60, 60, &whole);
    let long = [b'\n'; 65_537];
    assert_refused(18, &long, 70_000, 65_537, &whole);
    assert_refused(1, &long, 70_000, 65_536, &whole);
}

#[test]
fn a_new_book_up_to_the_limit() {
    let whole = order(b"r1", b"7");
    let lines = [b'\n'; 65_493];
    assert_eq!(taken(&lines[..65_492], 70_000, &whole), (0, 65_536));
    assert_refused(1, &lines, 70_000, 65_493, &whole);
    let unended = [b'x'; 65_492];
    assert_eq!(taken(&unended[..65_491], 70_000, &whole), (0, 65_536));
    assert_refused(1, &unended, 70_000, 65_492, &whole);
    let long = [b'a'; 65_535];
    assert_refused(1, b"", 70_000, 0, &order(&long, &long));
    assert_refused(1, b"", 0, 0, &order(&long, &long));
}

#[test]
fn room_for_the_new_book() {
    let whole = order(b"r1", b"7");
    assert_eq!(taken(b"", 44, &whole), (0, 44));
    assert_refused(16, b"", 43, 0, &whole);
    assert_refused(16, b"", 0, 0, &whole);
    assert_eq!(taken(b"* Z", 48, &whole), (0, 48));
    assert_refused(16, b"* Z", 47, 3, &whole);
    assert_eq!(taken(b"* Z\n", 48, &whole), (0, 48));
    assert_refused(16, b"* Z\n", 47, 4, &whole);
}

#[test]
fn refusals_in_turn() {
    let seen = sheet("r1", "7");
    let seen = seen.as_bytes();
    let empty = order(b"r1", b"");
    assert_refused(
        15,
        b"",
        0,
        1,
        &buffer(b"T", &[(b"VIN", b""), (b"vin", b"")]),
    );
    assert_refused(17, seen, 44, 45, &empty);
    assert_refused(17, seen, 44, 44, &empty);
    assert_refused(18, seen, 44, 45, &order(b"r1", b"7"));
    assert_refused(19, seen, 44, 44, &order(b"r1", b"8"));
    let full = [seen, &[b'x'; 65_492]].concat();
    assert_refused(19, &full, 65_536, 65_536, &order(b"r1", b"8"));
    assert_refused(1, &full, 65_536, 65_536, &order(b"r2", b"8"));
    assert_refused(16, seen, 44, 44, &order(b"r2", b"8"));
}

#[test]
fn a_log_ends_as_the_single_calls() {
    let orders = [
        order(b"r1", b"7"),
        order(b"", b"7"),
        order(b"r1", b"8"),
        Vec::new(),
        order(b"r2", b"9"),
    ];
    let expected = format!("x\n{}{}", sheet("r1", "7"), sheet("r2", "9"));
    let mut single = book(b"x", 200);
    let mut used = 1;
    for order in &orders {
        used = intake(&mut single, used, order).1;
    }
    assert_eq!((used, &single), (90, &book(expected.as_bytes(), 200)));
    let mut logged = book(b"x", 200);
    let log = log(&orders);
    assert_eq!(intake_log(&mut logged, 1, &log), (0, 90));
    assert_eq!(logged, single);
    assert_eq!(intake_log(&mut logged, 90, &log), (0, 90));
    assert_eq!(logged, single);
}

#[test]
fn a_log_passes_refused_calls_over() {
    let log = log(&[order(b"r1", b"77"), order(b"r2", b"8")]);
    let mut after = book(b"", 44);
    assert_eq!(intake_log(&mut after, 0, &log), (0, 44));
    assert_eq!(after, sheet("r2", "8").as_bytes());
    assert_eq!(intake_log(&mut after, 45, &log), (0, 45));
    assert_eq!(after, sheet("r2", "8").as_bytes());
}

#[test]
fn the_orders_of_a_log() {
    assert_eq!(orders_of(b""), Some(vec![]));
    assert_eq!(orders_of(b"\x00\x00\x00\x00"), Some(vec![&b""[..]]));
    let two = b"\x01\x00\x00\x00a\x02\x00\x00\x00bc";
    assert_eq!(orders_of(two), Some(vec![&b"a"[..], b"bc"]));
    let long = [&b"\x02\x01\x00\x00"[..], &[b'a'; 258]].concat();
    assert_eq!(orders_of(&long), Some(vec![&[b'a'; 258][..]]));
    let longer = [&b"\x00\x00\x01\x00"[..], &[b'a'; 65_536]].concat();
    assert_eq!(orders_of(&longer), Some(vec![&[b'a'; 65_536][..]]));
}

#[test]
fn a_log_cut_short() {
    let log = log(&[order(b"r1", b"7"), order(b"r2", b"8")]);
    let before = book(b"x", 200);
    for end in (0..log.len()).filter(|end| ![0, 27].contains(end)) {
        let mut after = before.clone();
        assert_eq!(intake_log(&mut after, 1, &log[..end]), (27, 1), "{end}");
        assert_eq!(after, before);
    }
    for end in [0, 27, 54] {
        assert_eq!(intake_log(&mut before.clone(), 1, &log[..end]).0, 0);
    }
    let far: &[u8] = b"\xFF\xFF\xFF\xFFa";
    assert_eq!(intake_log(&mut before.clone(), 1, far), (27, 1));
    assert_eq!(intake_log(&mut before.clone(), 300, far), (27, 300));
    assert_eq!(orders_of(b"\x00\x00\x00\x01"), None);
}
