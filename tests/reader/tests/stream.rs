//! Document 02, order 9: a book that comes in pieces.

use std::collections::HashSet;

use plain_reader::{read, Reading, Record, Stream, StreamState};

/// A number that no list here is written with.
const FILL: u32 = 0xABCD_EF01;

/// Bytes that texts are made of where all small ones are tried.
const ALPHABET: &[u8] = b"* x\n\t";

/// The kind of a heading's record.
const HEADING: u32 = 2;

/// An open state.
fn open(total: u32, line: u32, stars: u32, title: u32) -> StreamState {
    StreamState {
        total,
        line,
        stars,
        title,
        ended: 0,
    }
}

/// The state after the declared end.
fn ended(state: StreamState) -> StreamState {
    StreamState { ended: 1, ..state }
}

/// The stream after these bytes, in one piece with room enough.
fn after(bytes: &[u8]) -> Stream {
    let mut stream = Stream::new();
    let answer = stream.piece(bytes, &mut vec![FILL; bytes.len()]);
    assert_eq!(answer.0, 0);
    stream
}

/// The state after these bytes.
fn state(bytes: &[u8]) -> StreamState {
    after(bytes).state()
}

/// What the pieces and, after them, the declared end hand out, each with room for just that.
fn handed_out(pieces: &[&[u8]]) -> Vec<Vec<u32>> {
    let mut stream = Stream::new();
    let mut calls: Vec<Vec<u32>> = Vec::new();
    for piece in pieces {
        calls.push(in_room(|list| stream.piece(piece, list)));
    }
    calls.push(in_room(|list| stream.end(list)));
    calls
}

/// The call in the room that it needs; without it, it is refused.
fn in_room(mut call: impl FnMut(&mut [u32]) -> (u32, usize)) -> Vec<u32> {
    let (number, count) = call(&mut []);
    if number == 0 {
        return Vec::new();
    }
    assert_eq!(number, 3);
    let mut list = vec![FILL; count * 3];
    assert_eq!(call(&mut list), (0, count));
    list
}

/// What a book hands out in one piece and at its end.
fn of_book(book: &[u8]) -> Vec<u32> {
    handed_out(&[book]).concat()
}

#[test]
fn headings_of_a_book() {
    for (book, headings) in [
        (b"".as_slice(), &[] as &[u32]),
        (b"* A\n", &[0, 1, 1]),
        (b"* A", &[0, 1, 1]),
        (b"* ", &[0, 1, 0]),
        (b"* \n", &[0, 1, 0]),
        (b"*** abc\nx\n** d", &[0, 3, 3, 10, 2, 1]),
        (b"\n\n* A\n\n* B\n", &[2, 1, 1, 7, 1, 1]),
        (b"#+begin_src\n* A\n#+end_src\n", &[12, 1, 1]),
        (b"* a\n* b\n* c\n", &[0, 1, 1, 4, 1, 1, 8, 1, 1]),
        (b"* * A\n", &[0, 1, 3]),
        (b"*  A\n", &[0, 1, 2]),
        (b"* \t\rA\n", &[0, 1, 3]),
        (b"* a b \t\r\n", &[0, 1, 3]),
        (b"* \t \r\n", &[0, 1, 0]),
        (b"* a\r", &[0, 1, 1]),
        (b"* \x0b\x0c\x00\xff\n", &[0, 1, 4]),
        (b"* a\x0c\n", &[0, 1, 2]),
    ] {
        assert_eq!(of_book(book), headings, "{book:?}");
    }
}

#[test]
fn lines_that_are_no_heading_lines() {
    for book in [
        "*",
        "*\n",
        "***\n",
        "*\tx\n",
        " * A\n",
        "\t* A\n",
        "\r* A\n",
        "*A\n",
        "*\r\n",
        "x* A\n",
        "\u{b}* A\n",
        "x",
        "**x \n",
        "**",
        "- * A\n",
    ] {
        assert_eq!(of_book(book.as_bytes()), [], "{book:?}");
    }
}

#[test]
fn each_call_hands_out_the_headings_whose_lines_it_finishes() {
    let none: &[u32] = &[];
    for (pieces, calls) in [
        (
            &["* A", "\n"] as &[&str],
            [none, &[0, 1, 1], none].as_slice(),
        ),
        (&["*", " A\n"], &[none, &[0, 1, 1], none]),
        (&["x\n*", " A\n"], &[none, &[2, 1, 1], none]),
        (&["**", "* A\n"], &[none, &[0, 3, 1], none]),
        (&["* A", "B\n"], &[none, &[0, 1, 2], none]),
        (&["* A ", " \n"], &[none, &[0, 1, 1], none]),
        (&["* A ", "B\n"], &[none, &[0, 1, 3], none]),
        (&["* A\n", "* B\n"], &[&[0, 1, 1], &[4, 1, 1], none]),
        (&["* A\n* B"], &[&[0, 1, 1], &[4, 1, 1]]),
        (&["* A\n* B\n"], &[&[0, 1, 1, 4, 1, 1], none]),
        (
            &["", "* A", "", "\n", ""],
            &[none, none, none, &[0, 1, 1], none, none],
        ),
        (&["x", "* A\n"], &[none, none, none]),
        (&["*", "\n"], &[none, none, none]),
        (&["* ", "\n"], &[none, &[0, 1, 0], none]),
        (&["* "], &[none, &[0, 1, 0]]),
    ] {
        let pieces: Vec<&[u8]> = pieces.iter().map(|piece| piece.as_bytes()).collect();
        assert_eq!(handed_out(&pieces), calls, "{pieces:?}");
    }
}

#[test]
fn the_state_after_some_bytes() {
    for (bytes, expected) in [
        ("", open(0, 0, 0, 0)),
        ("x", open(1, 1, 0, 0)),
        ("x\n", open(2, 0, 0, 0)),
        ("\n", open(1, 0, 0, 0)),
        ("*", open(1, 1, 1, 0)),
        ("***", open(3, 3, 3, 0)),
        ("* ", open(2, 2, 1, 0)),
        ("*\t", open(2, 2, 0, 0)),
        ("*x", open(2, 2, 0, 0)),
        (" *", open(2, 2, 0, 0)),
        ("** a", open(4, 4, 2, 1)),
        ("** a b", open(6, 6, 2, 3)),
        ("** a \t\r", open(7, 7, 2, 1)),
        ("**  \t", open(5, 5, 2, 0)),
        ("** a\n", open(5, 0, 0, 0)),
        ("** a\n* ", open(7, 2, 1, 0)),
        ("x\n**", open(4, 2, 2, 0)),
        ("* A\nxyz", open(7, 3, 0, 0)),
    ] {
        assert_eq!(state(bytes.as_bytes()), expected, "{bytes:?}");
    }
}

#[test]
fn the_end_leaves_the_other_numbers() {
    for bytes in ["", "x", "**", "** a ", "** a\n"] {
        let mut stream = after(bytes.as_bytes());
        let before = stream.state();
        assert_eq!(stream.end(&mut [FILL; 3]).0, 0);
        assert_eq!(stream.state(), ended(before), "{bytes:?}");
    }
}

#[test]
fn the_list_is_written_from_its_front() {
    let mut list = [FILL; 9];
    assert_eq!(Stream::new().piece(b"x\n** ab\n* ", &mut list), (0, 1));
    assert_eq!(list, [2, 2, 2, FILL, FILL, FILL, FILL, FILL, FILL]);
    let mut list = [FILL; 4];
    assert_eq!(after(b"* A").end(&mut list), (0, 1));
    assert_eq!(list, [0, 1, 1, FILL]);
}

#[test]
fn room_is_the_length_divided_by_3() {
    for length in 0..9 {
        let mut stream = after(b"y");
        let before = stream.clone();
        let mut list = vec![FILL; length];
        let answer = stream.piece(b"\n* A\n* B\n", &mut list);
        if length < 6 {
            assert_eq!(answer, (3, 2), "{length}");
            assert_eq!(stream, before);
            assert_eq!(list, vec![FILL; length]);
        } else {
            assert_eq!(answer, (0, 2), "{length}");
            assert_eq!(list[..6], [2, 1, 1, 6, 1, 1]);
            assert_eq!(list[6..], vec![FILL; length - 6]);
        }
    }
    for length in 0..3 {
        let mut stream = after(b"* A");
        assert_eq!(stream.end(&mut vec![FILL; length]), (3, 1));
        assert_eq!(stream, after(b"* A"));
        assert_eq!(stream.end(&mut [FILL; 3]), (0, 1));
    }
}

#[test]
fn after_the_declared_end() {
    let mut stream = after(b"* A");
    stream.end(&mut [FILL; 3]);
    let before = stream.clone();
    let mut list = [FILL; 3];
    assert_eq!(stream.piece(b"", &mut list), (21, 0));
    assert_eq!(stream.piece(b"* B\n* C\n", &mut list), (21, 0));
    assert_eq!(stream.piece(&[b'x'; 65_537], &mut list), (21, 0));
    assert_eq!(stream.end(&mut list), (21, 0));
    assert_eq!(stream.end(&mut []), (21, 0));
    assert_eq!((stream, list), (before, [FILL; 3]));
}

#[test]
fn up_to_65_536_bytes_in_all() {
    let mut stream = after(&[b'x'; 65_535]);
    let before = stream.clone();
    assert_eq!(stream.piece(b"\n\n", &mut []), (1, 0));
    assert_eq!(stream, before);
    assert_eq!(stream.piece(b"\n", &mut []), (0, 0));
    assert_eq!(stream.state(), open(65_536, 0, 0, 0));
    assert_eq!(stream.piece(b"", &mut []), (0, 0));
    assert_eq!(stream.piece(b"x", &mut []), (1, 0));
    assert_eq!(stream.end(&mut []), (0, 0));
    assert_eq!(Stream::new().piece(&[b'\n'; 65_536], &mut []), (0, 0));
    assert_eq!(Stream::new().piece(&[b'\n'; 65_537], &mut []), (1, 0));
    let headings = b"* \n".repeat(21_846);
    assert_eq!(Stream::new().piece(&headings, &mut []), (1, 0));
    assert_eq!(Stream::new().piece(&headings[2..], &mut []), (3, 21_845));
}

/// Every text of up to so many bytes.
fn small_texts(longest: usize) -> Vec<Vec<u8>> {
    let mut texts = vec![Vec::new()];
    let mut from = 0;
    for _ in 0..longest {
        let upto = texts.len();
        for place in from..upto {
            for byte in ALPHABET {
                texts.push([&texts[place][..], &[*byte]].concat());
            }
        }
        from = upto;
    }
    texts
}

#[test]
fn an_open_state_is_one_that_some_text_leaves() {
    let left: HashSet<[u32; 4]> = small_texts(6)
        .iter()
        .map(|text| state(text))
        .map(|state| [state.total, state.line, state.stars, state.title])
        .collect();
    for place in 0..7 * 8 * 8 * 8 {
        let numbers = [place / 512, place / 64 % 8, place / 8 % 8, place % 8];
        let [total, line, stars, title] = numbers;
        let state = open(total, line, stars, title);
        let stream = Stream::from_state(state);
        let is_open = matches!(stream, Stream::Open(_));
        assert_eq!(is_open, left.contains(&numbers), "{state:?}");
        assert_eq!(stream.state(), state);
        assert!(is_closed(ended(state)));
    }
}

/// Every call is answered with 21, and the state stays.
fn is_closed(state: StreamState) -> bool {
    let mut stream = Stream::from_state(state);
    let mut list = [FILL; 3];
    let answers = [stream.piece(b"", &mut list), stream.end(&mut list)];
    answers == [(21, 0); 2] && stream.state() == state && list == [FILL; 3]
}

#[test]
fn states_at_the_limit() {
    let most = u32::MAX;
    for state in [
        open(65_537, 0, 0, 0),
        open(most, 0, 0, 0),
        open(65_536, 65_537, 0, 0),
        open(65_536, 65_536, 65_537, 0),
        open(65_536, 65_536, 65_536, 1),
        open(65_536, 65_536, 1, 65_535),
        open(65_536, 65_536, 0, 1),
        open(3, most, most, 0),
        open(3, 3, most, 1),
        open(3, 3, 1, most),
        StreamState {
            ended: 2,
            ..open(0, 0, 0, 0)
        },
        StreamState {
            ended: most,
            ..open(0, 0, 0, 0)
        },
    ] {
        assert!(is_closed(state), "{state:?}");
    }
    for state in [
        open(65_536, 0, 0, 0),
        open(65_536, 65_536, 0, 0),
        open(65_536, 65_536, 65_536, 0),
        open(65_536, 65_536, 1, 65_534),
        open(65_536, 2, 1, 0),
    ] {
        assert!(!is_closed(state), "{state:?}");
    }
}

#[test]
fn a_state_is_as_good_as_its_bytes() {
    let ends: [&[u8]; 7] = [b"", b"*", b" a", b"\n", b" \n* ", b"a\n", b"* A\n"];
    for text in small_texts(4) {
        for more in ends {
            let mut own = after(&text);
            let mut from_state = Stream::from_state(state(&text));
            let (mut list, mut other) = ([FILL; 9], [FILL; 9]);
            let answer = own.piece(more, &mut list);
            assert_eq!(from_state.piece(more, &mut other), answer, "{text:?}");
            assert_eq!((from_state.state(), other), (own.state(), list));
            let answer = own.end(&mut list);
            assert_eq!(from_state.end(&mut other), answer, "{text:?}");
            assert_eq!((from_state.state(), other), (own.state(), list));
        }
    }
}

/// Start and detail of the text's heading records.
fn heading_records(text: &[u8]) -> Vec<[u32; 2]> {
    let Reading::Table(records) = read(text) else {
        return Vec::new();
    };
    let headings = records.iter().filter(|record| record.kind == HEADING);
    headings
        .map(|record: &Record| [record.start, record.detail])
        .collect()
}

#[test]
fn split_anywhere_the_headings_are_those_of_the_book() {
    let book = b"*\n** a \t\n* b* \n\n***\n* \n **x\n*** c\r\n* d e ";
    let whole = of_book(book);
    let starts_and_stars: Vec<[u32; 2]> = whole
        .chunks_exact(3)
        .map(|heading| [heading[0], heading[1]])
        .collect();
    assert_eq!(starts_and_stars, heading_records(book));
    for first in 0..=book.len() {
        for second in first..=book.len() {
            let pieces = [&book[..first], &book[first..second], &book[second..]];
            assert_eq!(handed_out(&pieces).concat(), whole, "{first} {second}");
        }
    }
    let bytes: Vec<&[u8]> = book.chunks(1).collect();
    assert_eq!(handed_out(&bytes).concat(), whole);
}
