//! Books that orders are taken into (document 02, order 6), through the safe interface.

mod sent;

use comaltzex::{
    log_entry, lookup, property, Book, IntakeRefusal, LogRefusal, Order, Table, TEXT_LIMIT,
};
use sent::{buffer, lines, Pair};

const UNTOUCHED: u8 = 0xAA;

/// The longest buffer that is lent.
const ROOM: usize = TEXT_LIMIT + 500;

/// An order's title and pairs.
#[derive(Clone)]
struct Parts<'b> {
    title: &'b [u8],
    pairs: Vec<Pair<'b>>,
}

impl<'b> Parts<'b> {
    fn new<const N: usize>(title: &'b str, pairs: [(&'b str, &'b str); N]) -> Parts<'b> {
        let bytes = |(key, value): (&'b str, &'b str)| (key.as_bytes(), value.as_bytes());
        Parts {
            title: title.as_bytes(),
            pairs: pairs.map(bytes).to_vec(),
        }
    }

    fn buffer(&self) -> Vec<u8> {
        buffer(self.title, &self.pairs)
    }

    fn sheet(&self) -> Vec<u8> {
        lines(self.title, &self.pairs)
    }
}

/// An order of this request and VIN.
fn order<'b>(request: &'b str, vin: &'b str) -> Parts<'b> {
    Parts::new("T", [("REQUEST", request), ("VIN", vin)])
}

/// A title with which an order of that request has a sheet of so many bytes.
fn title_for(request: &str, length: usize) -> String {
    "t".repeat(length + 1 - order(request, "7").sheet().len())
}

fn drawer(request: &str) -> String {
    format!(":PROPERTIES:\n:REQUEST: {request}\n:VIN: 7\n:END:\n")
}

fn ends_in_a_line(text: &[u8]) -> bool {
    text.is_empty() || text.ends_with(b"\n")
}

/// What a book becomes with a sheet.
fn joined(text: &[u8], sheet: &[u8]) -> Vec<u8> {
    let newline: &[u8] = if ends_in_a_line(text) { b"" } else { b"\n" };
    [text, newline, sheet].concat()
}

/// Checks a call on a lent part of a longer memory: the answer, and every byte.
#[track_caller]
fn check(text: &[u8], room: usize, order: &[u8], wanted: Result<&[u8], IntakeRefusal>) {
    let mut memory = [text, &vec![UNTOUCHED; ROOM + 100 - text.len()]].concat();
    let mut after = memory.clone();
    if let Ok(new) = wanted {
        after[..new.len()].copy_from_slice(new);
    }
    let mut book = Book::new(&mut memory[..room], text.len());
    let answer = book.intake_bytes(order);
    assert_eq!(answer, wanted.map(<[u8]>::len), "room {room}");
    assert_eq!(book.used(), answer.unwrap_or(text.len()), "room {room}");
    assert!(memory == after, "room {room}");
}

/// Checks that an order is refused so, whatever room there is.
#[track_caller]
fn check_refused(text: &[u8], order: &[u8], refusal: IntakeRefusal) {
    for room in [0, 1, 40, 100, ROOM].map(|room| text.len() + room) {
        check(text, room.min(ROOM), order, Err(refusal));
    }
    let mut book = Book::from_text(text.to_vec());
    assert_eq!(book.intake_bytes(order), Err(refusal));
    assert!(book.text() == text && book.used() == text.len());
}

/// Checks that an order is taken in where there is room, and then known.
#[track_caller]
fn check_taken(text: &[u8], parts: &Parts) -> Vec<u8> {
    let (order, new) = (parts.buffer(), joined(text, &parts.sheet()));
    for room in [new.len(), new.len() + 1, ROOM] {
        check(text, room, &order, Ok(&new));
    }
    for room in [text.len(), text.len() + 1, new.len() - 1] {
        check(text, room, &order, Err(IntakeRefusal::ShortBuffer));
    }
    check_refused(&new, &order, IntakeRefusal::Seen);
    let mut book = Book::from_text(text.to_vec());
    assert_eq!(book.intake_bytes(&order), Ok(new.len()));
    assert!(book.text() == new);
    new
}

/// Where a lookup of `REQUEST` gives this value.
fn headings_with(text: &[u8], request: &str) -> Vec<usize> {
    let has = |&at: &usize| property(text, at, b"REQUEST") == Ok(request.as_bytes());
    (0..text.len()).filter(has).collect()
}

#[test]
fn books_end_as_they_may() {
    for text in [
        "",
        "x",
        "x\n",
        "x\r",
        "x\n\n",
        "\n",
        "*",
        "* A",
        ":PROPERTIES:",
    ] {
        let new = check_taken(text.as_bytes(), &order("r1", "7"));
        let start = new.len() - order("r1", "7").sheet().len();
        assert_eq!(headings_with(&new, "r1"), [start]);
        assert_eq!(property(&new, start, b"VIN"), Ok(&b"7"[..]));
    }
    for byte in 0..=255 {
        check_taken(&[b'x', byte], &order("r1", "7"));
    }
}

#[test]
fn a_sample() {
    let sent = b"\x01\x00A\x02\x03VIN\x01\x007\x07Request\x03\x00r 1";
    let new = b"#+TITLE: B\n* A\n:PROPERTIES:\n:VIN: 7\n:Request: r 1\n:END:\n";
    check(b"#+TITLE: B", 100, sent, Ok(new));
    check(b"#+TITLE: B", new.len(), sent, Ok(new));
    let short = Err(IntakeRefusal::ShortBuffer);
    check(b"#+TITLE: B", new.len() - 1, sent, short);
}

#[test]
fn buffers_of_any_kind() {
    let mut order = Order::new(b"T").unwrap();
    order.add(b"REQUEST", b"r1").unwrap();
    order.add(b"VIN", b"7").unwrap();
    let sheet = order.sheet();
    let mut array = Book::new([UNTOUCHED; 50], 0);
    assert_eq!(array.intake(&order), Ok(44));
    assert_eq!(array.text(), sheet);
    assert_eq!(array.into_buffer(), *[&sheet[..], &[UNTOUCHED; 6]].concat());
    let mut vector = Book::new(vec![UNTOUCHED; 44], 0);
    assert_eq!(vector.intake(&order), Ok(44));
    assert_eq!(vector.clone().into_buffer(), sheet);
    assert_eq!(vector.intake(&order), Err(IntakeRefusal::Seen));
    let mut empty = Book::new(&mut [][..], 0);
    assert_eq!(empty.intake(&order), Err(IntakeRefusal::ShortBuffer));
    assert_eq!(empty.text(), b"");
}

#[test]
fn what_order_5_refuses() {
    let texts = ["", "x", &format!("* A\n{}", drawer("r1"))];
    let good = order("r1", "7").buffer();
    let refused = [
        (b"".to_vec(), IntakeRefusal::BadOrder),
        (good[..good.len() - 1].to_vec(), IntakeRefusal::BadOrder),
        ([&good[..], b"x"].concat(), IntakeRefusal::BadOrder),
        (order("r1\n", "7").buffer(), IntakeRefusal::BadText),
        (order("r1", " 7").buffer(), IntakeRefusal::BadText),
        (
            Parts::new("T", [("REQUEST+", "r1"), ("VIN", "7")]).buffer(),
            IntakeRefusal::BadName,
        ),
        (
            Parts::new("T", [("REQUEST", "r1"), ("request", "r1")]).buffer(),
            IntakeRefusal::RepeatedKey,
        ),
    ];
    for text in texts {
        for (order, refusal) in &refused {
            check_refused(text.as_bytes(), order, *refusal);
        }
    }
}

#[test]
fn request_and_vin_are_needed() {
    let lacking = [
        Parts::new("T", []),
        Parts::new("REQUEST", [("FUEL", "98")]),
        Parts::new("T", [("REQUEST", "r1")]),
        Parts::new("T", [("VIN", "7")]),
        Parts::new("T", [("REQUEST", "r1"), ("VIN", "")]),
        Parts::new("T", [("REQUEST", ""), ("VIN", "7")]),
        Parts::new("T", [("REQUESTS", "r1"), ("VIN", "7")]),
        Parts::new("T", [("REQUES", "r1"), ("VIN", "7")]),
        Parts::new("T", [("REQUEST", "r1"), ("VIN:", "7")]),
        Parts::new("T", [("REQUEST", "r1"), ("+VIN", "7")]),
        Parts::new("T", [("REQUEST", "VIN"), ("A", "VIN")]),
    ];
    for parts in lacking {
        for text in ["", "x", &format!("* A\n{}", drawer("r1"))] {
            check_refused(text.as_bytes(), &parts.buffer(), IntakeRefusal::MissingKey);
        }
    }
}

#[test]
fn keys_in_any_case_and_place() {
    check_taken(b"", &Parts::new("", [("vin", "7"), ("request", "r1")]));
    check_taken(
        b"x",
        &Parts::new("* x", [("ReQuest", ":END:"), ("vIN", "* x")]),
    );
    let keys: Vec<String> = (0..14).map(|number| format!("K{number}")).collect();
    let mut parts = Parts::new("T", []);
    parts.pairs = keys.iter().map(|key| (key.as_bytes(), &b""[..])).collect();
    parts
        .pairs
        .extend([(&b"VIN"[..], &b"7"[..]), (b"REQUEST", b"r1")]);
    check_taken(b"* A\n", &parts);
}

#[test]
fn bytes_in_use() {
    let order = order("r1", "7").buffer();
    let answer = |length, used| {
        let mut memory = vec![b'\n'; length];
        let mut book = Book::new(&mut memory[..], used);
        let answer = book.intake_bytes(&order);
        assert_eq!(book.used(), answer.unwrap_or(used));
        answer
    };
    let (bad, short) = (Err(IntakeRefusal::BadUsed), Err(IntakeRefusal::ShortBuffer));
    assert_eq!([answer(0, 0), answer(1, 1), answer(100, 100)], [short; 3]);
    assert_eq!([answer(0, 1), answer(100, 101)], [bad; 2]);
    assert_eq!(
        [answer(100, usize::MAX), answer(ROOM, usize::MAX)],
        [bad; 2]
    );
    let long = Err(IntakeRefusal::TooLong);
    assert_eq!(
        [answer(TEXT_LIMIT, TEXT_LIMIT), answer(ROOM, TEXT_LIMIT)],
        [long; 2]
    );
    assert_eq!(
        [
            answer(TEXT_LIMIT, TEXT_LIMIT + 1),
            answer(ROOM, TEXT_LIMIT + 1)
        ],
        [bad; 2]
    );
    assert_eq!(answer(TEXT_LIMIT + 1, TEXT_LIMIT + 1), bad);
}

/// There is no more text than there are bytes.
#[test]
fn the_text_of_bytes_in_use_that_are_too_many() {
    let book = Book::new(*b"abc", 2);
    assert_eq!((book.text(), book.used()), (&b"ab"[..], 2));
    let book = Book::new(*b"abc", 4);
    assert_eq!((book.text(), book.used()), (&b"abc"[..], 4));
    let mut book = Book::from_text(vec![b'x'; TEXT_LIMIT + 1]);
    assert_eq!(book.used(), TEXT_LIMIT + 1);
    let order = order("r1", "7").buffer();
    assert_eq!(book.intake_bytes(&order), Err(IntakeRefusal::BadUsed));
}

#[test]
fn requests_that_are_seen() {
    let r1 = drawer("r1");
    let texts = [
        format!("* A\n{r1}* B\n{}", drawer("r2")),
        format!("* A\n{}* B\n{r1}", drawer("r0")),
        format!("* A\n{}** B\n{r1}text", drawer("r0")),
        format!("{} B\n{r1}", "*".repeat(40)),
        format!("* A\nDEADLINE: <2026-11-20>\n{r1}"),
        format!("#+begin_src\n* A\n{r1}#+end_src\n"),
        format!("* A\n:PROPERTIES:\n* B\n\n{}* C\n{r1}", drawer("r0")),
        "* A\n:properties:\n  :request:\tr1 \r\n:end:".into(),
        "* A\n:PROPERTIES:\n:VIN: 8\n:REQUEST+: r1\n:END:\n".into(),
    ];
    for text in texts {
        let order = order("r1", "another").buffer();
        check_refused(text.as_bytes(), &order, IntakeRefusal::Seen);
    }
}

#[test]
fn requests_that_only_resemble() {
    let texts = ["R1", "r12", "r", "r1 r1", "r2", "r1:", ""];
    for text in texts {
        check_taken(
            format!("* A\n{}", drawer(text)).as_bytes(),
            &order("r1", "7"),
        );
    }
    let long = "abcdefghijklmnopqrst";
    for text in [
        "abcdefghijklmnopqrsT",
        "Abcdefghijklmnopqrst",
        "abcdefghijklmnopqrs",
    ] {
        check_taken(
            format!("* A\n{}", drawer(text)).as_bytes(),
            &order(long, "7"),
        );
    }
}

/// Each with the number by which a lookup of `REQUEST` at the heading is refused.
#[test]
fn what_is_not_looked_up_is_not_seen() {
    let r1 = drawer("r1");
    let texts = [
        (8, format!("* A\n\n{r1}")),
        (9, "* A\n:PROPERTIES:\n:REQUEST: r1\nx\n:END:\n".into()),
        (10, "* A\n:PROPERTIES:\n:REQUEST: r1\n:VIN: 7".into()),
        (10, "* A\n:PROPERTIES:\n:REQUEST: r1\n* B\n:END:\n".into()),
        (5, format!("* A\ntext\n{r1}")),
        (5, format!("* A\nSCHEDULED: soon\n{r1}")),
        (
            6,
            "* A\n:PROPERTIES:\n:REQUESTS: r1\n:VIN: r1\n:END:\n".into(),
        ),
    ];
    for (number, text) in texts {
        let refusal = lookup(text.as_bytes(), 0, b"REQUEST").unwrap_err();
        assert_eq!(refusal.number(), number);
        check_taken(text.as_bytes(), &order("r1", "7"));
    }
    let second = "* A\n:PROPERTIES:\n:REQUEST: r0\n:REQUEST: r1\n:END:\n";
    check_taken(second.as_bytes(), &order("r1", "7"));
    let above = format!("{r1}* A\n");
    check_taken(above.as_bytes(), &order("r1", "7"));
    check_taken(r1.as_bytes(), &order("r1", "7"));
}

/// What stands past the bytes in use is not the book's.
#[test]
fn only_bytes_in_use_are_looked_up() {
    let text = format!("* A\n{}", drawer("r1"));
    let parts = order("r1", "7");
    for used in 0..text.len() - 1 {
        let new = joined(&text.as_bytes()[..used], &parts.sheet());
        let mut memory = [text.as_bytes(), &[UNTOUCHED; 100]].concat();
        let mut book = Book::new(&mut memory[..], used);
        assert_eq!(book.intake_bytes(&parts.buffer()), Ok(new.len()), "{used}");
        assert_eq!(book.text(), new);
    }
    for used in [text.len() - 1, text.len()] {
        let mut book = Book::new(text.clone().into_bytes(), used);
        let answer = book.intake_bytes(&parts.buffer());
        assert_eq!(answer, Err(IntakeRefusal::Seen));
    }
}

#[test]
fn a_book_has_at_most_65536_bytes() {
    for last in ["\n", "x"] {
        let newline = usize::from(last == "x");
        let title = title_for("r1", 1000);
        let parts = Parts::new(&title, [("REQUEST", "r1"), ("VIN", "7")]);
        assert_eq!(parts.sheet().len(), 1000);
        let longest = "x".repeat(TEXT_LIMIT - 1000 - newline - 1) + last;
        let new = check_taken(longest.as_bytes(), &parts);
        assert_eq!(new.len(), TEXT_LIMIT);
        let longer = format!("x{longest}");
        check_refused(longer.as_bytes(), &parts.buffer(), IntakeRefusal::TooLong);
    }
    let title = title_for("r1", TEXT_LIMIT + 1);
    let parts = |title| Parts::new(title, [("REQUEST", "r1"), ("VIN", "7")]);
    check_taken(b"", &parts(&title[1..]));
    check_refused(b"", &parts(&title).buffer(), IntakeRefusal::TooLong);
    check_refused(b"\n", &parts(&title[1..]).buffer(), IntakeRefusal::TooLong);
}

/// An order with the faults of two refusals, for each two that follow on one another.
#[test]
fn refusals_in_turn() {
    let text = format!("* A\n{}", drawer("r1"));
    let text = text.as_bytes();
    // one byte of the text is past the buffer: 18 but for what comes before it
    let check_cut = |order: &[u8], refusal| {
        let mut memory = text[..text.len() - 1].to_vec();
        let mut book = Book::new(&mut memory[..], text.len());
        assert_eq!(book.intake_bytes(order), Err(refusal));
        assert!(memory == text[..text.len() - 1]);
    };
    let repeated = Parts::new("T", [("FUEL", "98"), ("fuel", "98")]).buffer();
    check_refused(text, &repeated, IntakeRefusal::RepeatedKey);
    check_cut(&repeated, IntakeRefusal::RepeatedKey);
    let missing = Parts::new("T", [("REQUEST", "r1"), ("FUEL", "98")]).buffer();
    check_refused(text, &missing, IntakeRefusal::MissingKey);
    check_cut(&missing, IntakeRefusal::MissingKey);
    check_cut(&order("r1", "7").buffer(), IntakeRefusal::BadUsed);
    check_cut(&order("r2", "7").buffer(), IntakeRefusal::BadUsed);
    let title = title_for("r1", TEXT_LIMIT + 1);
    let long = |request| Parts::new(&title, [("REQUEST", request), ("VIN", "7")]).buffer();
    check_refused(text, &long("r1"), IntakeRefusal::Seen);
    check_cut(&long("r2"), IntakeRefusal::BadUsed);
    // too long comes before the room, which `check_refused` takes away
    check_refused(text, &long("r2"), IntakeRefusal::TooLong);
    let long_missing = Parts::new(&title, [("REQUEST", "r1")]).buffer();
    check_refused(text, &long_missing, IntakeRefusal::MissingKey);
}

/// A run of calls with double clicks; every earlier heading looks up as before.
#[test]
fn runs_of_calls() {
    let text = format!("* A\n{}* B\n\n{}** C\n* D\nx", drawer("r0"), drawer("r3"));
    let answers = |book: &[u8]| -> Vec<_> {
        let keys: [&[u8]; 3] = [b"REQUEST", b"VIN", b"FUEL"];
        (0..text.len())
            .map(|at| keys.map(|key| lookup(book, at, key)))
            .collect()
    };
    let before = answers(text.as_bytes());
    let mut book = Book::from_text(text.clone().into_bytes());
    let mut wanted = text.clone().into_bytes();
    for number in 1..=20 {
        let (request, vin) = (format!("r{number}"), format!("v{number}"));
        wanted = joined(&wanted, &order(&request, &vin).sheet());
        assert_eq!(
            book.intake_bytes(&order(&request, &vin).buffer()),
            Ok(wanted.len())
        );
        for (request, refusal) in [
            (&request[..], IntakeRefusal::Seen),
            ("r0", IntakeRefusal::Seen),
            ("r1", IntakeRefusal::Seen),
            ("", IntakeRefusal::MissingKey),
        ] {
            assert_eq!(
                book.intake_bytes(&order(request, "8").buffer()),
                Err(refusal)
            );
        }
    }
    assert!(book.text() == wanted);
    assert_eq!(answers(book.text()), before);
    for number in 1..=20 {
        let headings = headings_with(book.text(), &format!("r{number}"));
        assert_eq!(headings.len(), 1);
        let vin = property(book.text(), headings[0], b"VIN");
        assert_eq!(vin, Ok(format!("v{number}").as_bytes()));
    }
    assert_eq!(headings_with(book.text(), "r0"), [0]);
}

/// A reading refuses it, a lookup and the intake do not.
#[test]
fn a_book_that_is_nested_too_deep() {
    let openers: String = (0..33).map(|i| format!("#+begin_{i}\n")).collect();
    let closers: String = (0..33).rev().map(|i| format!("#+end_{i}\n")).collect();
    let text = openers + &closers;
    assert!(Table::read(text.as_bytes()).is_err());
    check_taken(text.as_bytes(), &order("r1", "7"));
}

/// A log of orders, of which the first, the sixth and the last are taken into a book that has r0.
fn log() -> Vec<u8> {
    let long = "x".repeat(60_000);
    let too_long = Parts::new(
        &long,
        [("REQUEST", "r9"), ("VIN", "7"), ("A", &long[..9000])],
    );
    let orders = [
        order("r1", "1").buffer(),
        order("r0", "2").buffer(),
        order("r9 ", "3").buffer(),
        Vec::new(),
        too_long.buffer(),
        order("r2", "4").buffer(),
        order("r1", "5").buffer(),
        order("r3", "").buffer(),
        order("r3", "6").buffer(),
    ];
    orders
        .iter()
        .flat_map(|order| log_entry(order).unwrap())
        .collect()
}

/// The book after that log.
fn logged(text: &[u8]) -> Vec<u8> {
    let taken = [order("r1", "1"), order("r2", "4"), order("r3", "6")];
    taken
        .iter()
        .fold(text.to_vec(), |text, order| joined(&text, &order.sheet()))
}

#[test]
fn logs_are_the_calls_in_turn() {
    for end in ["", "x", "\n"] {
        let text = format!("* A\n{}{end}", drawer("r0"));
        let new = logged(text.as_bytes());
        for room in [new.len(), new.len() + 50, ROOM] {
            let mut memory = vec![UNTOUCHED; room + 50];
            memory[..text.len()].copy_from_slice(text.as_bytes());
            let mut book = Book::new(&mut memory[..room], text.len());
            for _ in 0..2 {
                assert_eq!(book.replay(&log()), Ok(new.len()));
                assert!(book.text() == new);
            }
            assert!(memory[new.len()..].iter().all(|&byte| byte == UNTOUCHED));
        }
    }
}

/// A small order after a big one; played again the log changes nothing even so.
#[test]
fn what_has_no_room_is_passed_over() {
    let big = title_for("r1", 300);
    let orders = [
        Parts::new(&big, [("REQUEST", "r1"), ("VIN", "7")]),
        order("r2", "7"),
        order("r3", "77"),
    ];
    let log: Vec<u8> = orders
        .iter()
        .flat_map(|o| log_entry(&o.buffer()).unwrap())
        .collect();
    let new = joined(b"x", &orders[1].sheet());
    let mut memory = vec![UNTOUCHED; new.len() + 40];
    memory[0] = b'x';
    let mut book = Book::new(&mut memory[..], 1);
    for _ in 0..2 {
        assert_eq!(book.replay(&log), Ok(new.len()));
        assert!(book.text() == new);
    }
}

#[test]
fn logs_of_nothing() {
    let text = format!("* A\n{}x", drawer("r1"));
    let seen = log_entry(&order("r1", "8").buffer()).unwrap();
    let mut book = Book::from_text(text.clone().into_bytes());
    for log in [&b""[..], &[0; 4], &[0; 8], &seen] {
        assert_eq!(book.replay(log), Ok(text.len()));
        assert!(book.text() == text.as_bytes());
    }
    let good = log_entry(&order("r2", "8").buffer()).unwrap();
    let mut full = Book::new(text.clone().into_bytes(), text.len());
    assert_eq!(full.replay(&good), Ok(text.len()));
    let mut bad = Book::new(text.clone().into_bytes(), text.len() + 1);
    assert_eq!(bad.replay(&good), Ok(text.len() + 1));
    assert!(full.into_buffer() == text.as_bytes() && bad.into_buffer() == text.as_bytes());
}

#[test]
fn logs_that_are_cut() {
    let entries = ["r1", "r2"].map(|r| log_entry(&order(r, "7").buffer()).unwrap());
    let log = entries.concat();
    let mut book = Book::from_text(b"x".to_vec());
    let mut check_cut = |log: &[u8]| {
        assert_eq!(book.replay(log), Err(LogRefusal::CutShort));
        assert_eq!((book.text(), book.used()), (&b"x"[..], 1));
        assert!(book.clone().into_buffer()[1..]
            .iter()
            .all(|&byte| byte == 0));
    };
    for length in (1..log.len()).filter(|&length| length != entries[0].len()) {
        check_cut(&log[..length]);
    }
    check_cut(&[&log[..], &[0]].concat());
    for byte in 1..4 {
        let mut log = log.clone();
        log[entries[0].len() + byte] += 1;
        check_cut(&log);
    }
    check_cut(&[&entries[0][..], &[0xFF; 40]].concat());
    check_cut(&[0xFF; 4]);
}

#[test]
fn entries_of_a_log() {
    let mut good = Order::new(b"T").unwrap();
    good.add(b"REQUEST", b"r1").unwrap();
    assert_eq!(good.log_entry(), [&[16, 0, 0, 0], good.to_bytes()].concat());
    assert_eq!(log_entry(b"").unwrap(), [0; 4]);
    let long = vec![b'x'; 0x01_02_03];
    let entry = log_entry(&long).unwrap();
    assert_eq!(entry[..4], [3, 2, 1, 0]);
    assert!(entry[4..] == long);
}

#[test]
fn refusals_have_numbers_and_words() {
    let refusals = [
        IntakeRefusal::BadOrder,
        IntakeRefusal::BadText,
        IntakeRefusal::BadName,
        IntakeRefusal::RepeatedKey,
        IntakeRefusal::MissingKey,
        IntakeRefusal::BadUsed,
        IntakeRefusal::Seen,
        IntakeRefusal::TooLong,
        IntakeRefusal::ShortBuffer,
    ];
    let numbers = [12, 13, 14, 15, 17, 18, 19, 1, 16];
    assert_eq!(refusals.map(IntakeRefusal::number), numbers);
    let words = [
        "the order is cut short or too long, or has more than 16 pairs",
        "the title or a value has a line end in it, or a blank at either end",
        "not every key is good: a key has 1 to 64 bytes, no blanks or line ends, no `+` at \
         its end, and is not END",
        "two keys are the same; capital and small letters count as one",
        "the order needs a REQUEST and a VIN, and neither may be empty",
        "the book is longer than its buffer, or than 65,536 bytes",
        "the book has an order with this REQUEST already",
        "with this order the book would be longer than 65,536 bytes",
        "the book has no room for this order",
    ];
    assert_eq!(refusals.map(|refusal| refusal.to_string()), words);
    assert_eq!(LogRefusal::CutShort.number(), 27);
    assert_eq!(LogRefusal::CutShort.to_string(), "the log is cut short");
}
