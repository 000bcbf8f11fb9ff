//! Headings of a book that comes in pieces (document 02, order 9), through the safe interface.
//! What is wanted is computed from the bytes of the whole book, with no state.

use std::collections::HashMap;

use comaltzex::{
    HeadingStream, Kind, StreamRefusal, StreamState, StreamedHeading, Table, HEADING_SIZE,
    TEXT_LIMIT,
};

/// Bytes that make a difference.
const BYTES: &[u8; 6] = b"* \na\t\r";

/// Books whose every split matters.
const BOOKS: [&[u8]; 13] = [
    b"** A b\n",
    b"***  t \t\r\nx\n* B",
    b"x\n\n* \n** \n*\n",
    b"* a \r",
    b"*x\n *y\n* z\n",
    b"**\t* a\n** a*\n",
    b"* * *\n** ** ",
    b"\r\n*  \r\n\r*",
    b"* a\t\tb\t\n\n\n**",
    b"* A\n:PROPERTIES:\n:VIN: 7\n:END:\n** n",
    b"#+begin_src\n* A\n#+end_src\n",
    b"* \xC3\x96l \xFF\n* \0ab\0\n",
    b"* a\x0b\n* b\x0c\n* c\xA0\n",
];

fn numbers(total: u32, line: u32, stars: u32, title: u32) -> StreamState {
    StreamState {
        total,
        line,
        stars,
        title,
        ended: false,
    }
}

fn ended(state: StreamState) -> StreamState {
    StreamState {
        ended: true,
        ..state
    }
}

fn stars_of(line: &[u8]) -> usize {
    line.iter().take_while(|&&byte| byte == b'*').count()
}

fn is_heading_line(line: &[u8]) -> bool {
    let stars = stars_of(line);
    stars > 0 && line.get(stars) == Some(&b' ')
}

/// The title's length of a heading line without its line end.
fn title_of(line: &[u8]) -> usize {
    let title = &line[stars_of(line) + 1..];
    let last = title.iter().rposition(|byte| !b" \t\r".contains(byte));
    last.map_or(0, |last| last + 1)
}

/// Where the last line starts, the empty one after a line end too.
fn last_line(book: &[u8]) -> usize {
    let last = book.iter().rposition(|&byte| byte == b'\n');
    last.map_or(0, |last| last + 1)
}

/// The state that a text leaves.
fn state_after(text: &[u8]) -> StreamState {
    let line = &text[last_line(text)..];
    let mut state = numbers(text.len() as u32, line.len() as u32, 0, 0);
    if is_heading_line(line) {
        state.title = title_of(line) as u32;
    }
    if is_heading_line(line) || stars_of(line) == line.len() {
        state.stars = stars_of(line) as u32;
    }
    state
}

/// The heading that starts at this byte, if one does.
fn heading_at(book: &[u8], start: usize) -> Option<StreamedHeading> {
    let line = book[start..].split(|&byte| byte == b'\n').next()?;
    is_heading_line(line).then(|| StreamedHeading {
        start,
        stars: stars_of(line),
        title_len: title_of(line),
    })
}

/// The headings whose line ends stand from this byte on.
fn finished(book: &[u8], from: usize) -> Vec<StreamedHeading> {
    let mut start = last_line(&book[..from]);
    let mut headings = Vec::new();
    for (at, _) in book.iter().enumerate().filter(|(_, &byte)| byte == b'\n') {
        if at >= from {
            headings.extend(heading_at(&book[..=at], start));
            start = at + 1;
        }
    }
    headings
}

/// The heading that is the last line, if that has no line end.
fn last_heading(book: &[u8]) -> Option<StreamedHeading> {
    heading_at(book, last_line(book))
}

/// A list in which every number is its own, with some more after it.
fn marked(length: usize) -> Vec<u32> {
    (0xABCD_0000..).take(length + 8).collect()
}

/// The list after these headings were written to its front.
fn written(length: usize, headings: &[StreamedHeading]) -> Vec<u32> {
    let mut list = marked(length);
    let rows = headings
        .iter()
        .flat_map(|h| [h.start, h.stars, h.title_len]);
    for (number, wanted) in list.iter_mut().zip(rows) {
        *number = wanted as u32;
    }
    list
}

/// Checks a piece that is refused: every number of the list is as it was.
#[track_caller]
fn check_refused(state: StreamState, piece: &[u8], length: usize, refusal: StreamRefusal) {
    let mut list = marked(length);
    let answer = state.piece(piece, &mut list[..length]);
    assert_eq!(answer.unwrap_err(), refusal, "{state:?}");
    assert!(list == marked(length), "{state:?}");
}

#[track_caller]
fn check_end_refused(state: StreamState, length: usize, refusal: StreamRefusal) {
    let mut list = marked(length);
    let answer = state.end(&mut list[..length]);
    assert_eq!(answer.unwrap_err(), refusal, "{state:?}");
    assert!(list == marked(length), "{state:?}");
}

/// Checks a piece that is taken: state, headings, and every number of the list.
#[track_caller]
fn check_taken(
    state: StreamState,
    piece: &[u8],
    length: usize,
    after: StreamState,
    wanted: &[StreamedHeading],
) {
    let mut list = marked(length);
    let (seen, headings) = state.piece(piece, &mut list[..length]).unwrap();
    assert_eq!(seen, after);
    assert!(headings.eq(wanted.iter().copied()), "{state:?} {piece:?}");
    assert!(list == written(length, wanted), "{state:?} {piece:?}");
}

#[track_caller]
fn check_end_taken(state: StreamState, length: usize, wanted: &[StreamedHeading]) {
    let mut list = marked(length);
    let (seen, headings) = state.end(&mut list[..length]).unwrap();
    assert_eq!(seen, ended(state));
    assert!(headings.eq(wanted.iter().copied()), "{state:?}");
    assert!(list == written(length, wanted), "{state:?}");
}

/// Checks a book in pieces that end at these places: refused with too little room, then taken.
#[track_caller]
fn check_split(book: &[u8], places: impl IntoIterator<Item = usize>) {
    let mut state = StreamState::new();
    let mut stream = HeadingStream::new();
    let mut from = 0;
    for to in places.into_iter().chain([book.len()]) {
        // a copy, so that no byte of the book stands next to it
        let piece = book[from..to].to_vec();
        let wanted = finished(&book[..to], from);
        let needed = HEADING_SIZE * wanted.len();
        if needed > 0 {
            let refusal = StreamRefusal::NoRoom {
                needed: wanted.len(),
            };
            check_refused(state, &piece, needed - 1, refusal);
            check_refused(state, &piece, 0, refusal);
        }
        let after = state_after(&book[..to]);
        check_taken(state, &piece, needed + to % 4, after, &wanted);
        assert!(stream.push(&piece).unwrap().eq(wanted));
        assert_eq!(stream.state(), after);
        (state, from) = (after, to);
    }
    check_end(state, stream, last_heading(book));
}

#[track_caller]
fn check_end(state: StreamState, stream: HeadingStream, last: Option<StreamedHeading>) {
    let needed = HEADING_SIZE * usize::from(last.is_some());
    for length in 0..needed {
        check_end_refused(state, length, StreamRefusal::NoRoom { needed: 1 });
    }
    check_end_taken(state, needed, last.as_slice());
    check_end_taken(state, needed + 1, last.as_slice());
    assert_eq!(stream.finish(), last);
}

/// Checks a book in pieces of one length.
#[track_caller]
fn check_pieces(book: &[u8], length: usize) {
    check_split(book, (length..book.len()).step_by(length));
}

/// Every text of so many bytes that make a difference.
fn texts(length: u32) -> impl Iterator<Item = Vec<u8>> {
    let sides = BYTES.len();
    (0..sides.pow(length)).map(move |number| {
        let places = (0..length).map(|place| number / sides.pow(place) % sides);
        places.map(|byte| BYTES[byte]).collect()
    })
}

/// Bytes again and again, up to a length.
fn filled(bytes: &str, length: usize) -> Vec<u8> {
    bytes.bytes().cycle().take(length).collect()
}

#[track_caller]
fn check_not_open(state: StreamState) {
    for length in [0, 3] {
        for piece in [&b""[..], b"\n", b"* A\n* B\n"] {
            check_refused(state, piece, length, StreamRefusal::NotOpen);
        }
        check_end_refused(state, length, StreamRefusal::NotOpen);
    }
}

#[test]
fn samples() {
    let book = b"x\n** B \t\r\n*   c d  \n*\n*a\n* ";
    let heading = |[start, stars, title_len]: [usize; 3]| StreamedHeading {
        start,
        stars,
        title_len,
    };
    let [first, second, last] = [[2, 2, 1], [10, 1, 5], [25, 1, 0]].map(heading);
    let mut stream = HeadingStream::new();
    assert!(stream.push(book).unwrap().eq([first, second]));
    assert_eq!(stream.state(), numbers(27, 2, 1, 0));
    assert_eq!(&book[first.title()], b"B");
    assert_eq!(&book[second.title()], b"  c d");
    assert_eq!(last.title(), 27..27);
    assert_eq!(stream.finish(), Some(last));
    assert_eq!(HeadingStream::new().finish(), None);
    assert_eq!(StreamState::new(), numbers(0, 0, 0, 0));
}

#[test]
fn iterators_know_their_length() {
    let mut list = [0; 9];
    let book = b"* a\n* b\n* c\n";
    let (_, mut headings) = StreamState::new().piece(book, &mut list).unwrap();
    assert_eq!(headings.len(), 3);
    assert_eq!(headings.clone().nth(2).map(|h| h.start), Some(8));
    assert_eq!(headings.nth(1).map(|h| h.start), Some(4));
    assert_eq!(headings.len(), 1);
    assert_eq!(headings.by_ref().count(), 1);
    assert_eq!(headings.next(), None);
}

/// In one, two and three pieces, each byte by itself with empty pieces between, and in pieces of
/// one length.
#[test]
fn splits() {
    for book in BOOKS {
        for first in 0..=book.len() {
            for second in first..=book.len() {
                check_split(book, [first, second]);
            }
        }
        check_split(book, []);
        check_split(book, (0..book.len()).flat_map(|place| [place; 3]));
        (1..=book.len()).for_each(|length| check_pieces(book, length));
    }
    check_split(b"", []);
    check_split(b"", [0, 0]);
}

/// Whole, byte by byte and in every two pieces.
#[test]
fn all_small_texts() {
    for text in (0..=5).flat_map(texts) {
        check_pieces(&text, 1);
        (0..text.len()).for_each(|place| check_split(&text, [place]));
    }
}

/// Small states are open exactly where a text leaves them, and go on as the text does.
#[test]
fn small_states() {
    let left: HashMap<StreamState, Vec<u8>> = (0..=5)
        .flat_map(texts)
        .map(|text| (state_after(&text), text))
        .collect();
    let grid = (0..7 * 7 * 7 * 6).map(|n| numbers(n / 343, n / 49 % 7, n / 7 % 7, n % 7));
    for state in grid {
        let Some(text) = left.get(&state) else {
            check_not_open(state);
            check_not_open(ended(state));
            continue;
        };
        for byte in 0..=255 {
            let book = [&text[..], &[byte]].concat();
            let wanted = finished(&book, text.len());
            check_taken(state, &[byte], 3, state_after(&book), &wanted);
        }
        check_end_taken(state, 3, last_heading(text).as_slice());
        check_not_open(ended(state));
    }
}

/// Each inequality on both sides, and numbers as great as can be.
#[test]
fn great_states() {
    let limit = TEXT_LIMIT as u32;
    let open = [
        [limit, 0, 0, 0],
        [limit, limit, 0, 0],
        [limit, limit, limit, 0],
        [limit, limit, limit - 1, 0],
        [limit, limit, 1, limit - 2],
        [limit, 1, 1, 0],
        [limit, 2, 1, 0],
        [limit, 3, 1, 1],
    ];
    for [total, line, stars, title] in open {
        let state = numbers(total, line, stars, title);
        let heading = StreamedHeading {
            start: (total - line) as usize,
            stars: stars as usize,
            title_len: title as usize,
        };
        let is_heading = 0 < stars && stars < line;
        let wanted = is_heading.then_some(heading);
        check_taken(state, b"", 3, state, &[]);
        check_end_taken(state, 3, wanted.as_slice());
    }
    let closed = [
        [limit + 1, 0, 0, 0],
        [limit + 1, limit + 1, 0, 0],
        [limit + 1, limit + 1, limit + 1, 0],
        [limit, limit + 1, 0, 0],
        [limit - 1, limit, 0, 0],
        [limit, limit, limit + 1, 0],
        [limit, limit, limit - 1, 1],
        [limit, limit, 1, limit - 1],
        [limit, limit, 0, 1],
        [limit, limit, limit, 1],
        [limit, 0, 1, 0],
        [limit, 0, 0, 1],
        [limit, 1, 1, 1],
        [limit, 2, 1, 1],
        [0, limit, 0, 0],
        [2 * limit, 0, 0, 0],
        [limit, 3, limit + 1, 0],
        [limit, 3, 1, limit],
        [u32::MAX, 0, 0, 0],
        [limit, u32::MAX, 0, 0],
        [limit, limit, u32::MAX, 0],
        [limit, limit, 1, u32::MAX],
        [limit, limit, u32::MAX, u32::MAX],
        [0, 0, u32::MAX, 0],
        [u32::MAX; 4],
    ];
    for [total, line, stars, title] in closed {
        check_not_open(numbers(total, line, stars, title));
    }
}

#[test]
fn refusals_in_turn() {
    let long = filled("* \n", TEXT_LIMIT + 1);
    let open = numbers(TEXT_LIMIT as u32, 3, 1, 1);
    let new = StreamState::new();
    for length in [0, 8, 3 * TEXT_LIMIT] {
        check_refused(ended(new), &long, length, StreamRefusal::NotOpen);
        check_refused(ended(open), b"\n", length, StreamRefusal::NotOpen);
        check_refused(numbers(1, 2, 0, 0), &long, length, StreamRefusal::NotOpen);
        check_refused(new, &long, length, StreamRefusal::TooLong);
        check_refused(open, b"\n", length, StreamRefusal::TooLong);
    }
    check_refused(ended(new), b"* A\n", 0, StreamRefusal::NotOpen);
    check_end_refused(ended(open), 0, StreamRefusal::NotOpen);
    check_end_refused(open, 0, StreamRefusal::NoRoom { needed: 1 });
}

#[test]
fn list_lengths() {
    let wanted = finished(b"* A\nx\n** B\n* C", 0);
    for length in 0..=8 {
        let new = StreamState::new();
        let after = numbers(14, 3, 1, 1);
        if length < 6 {
            let refusal = StreamRefusal::NoRoom { needed: 2 };
            check_refused(new, b"* A\nx\n** B\n* C", length, refusal);
        } else {
            check_taken(new, b"* A\nx\n** B\n* C", length, after, &wanted);
        }
        if length < 3 {
            let refusal = StreamRefusal::NoRoom { needed: 1 };
            check_refused(new, b"* A\nx\n", length, refusal);
            check_end_refused(after, length, refusal);
        } else {
            check_taken(new, b"* A\nx\n", length, numbers(6, 0, 0, 0), &wanted[..1]);
            let last = last_heading(b"* A\nx\n** B\n* C");
            check_end_taken(after, length, last.as_slice());
        }
        check_taken(new, b"*\nx\n", length, numbers(4, 0, 0, 0), &[]);
        check_end_taken(numbers(4, 0, 0, 0), length, &[]);
        check_end_taken(numbers(4, 2, 2, 0), length, &[]);
    }
}

/// A piece that has no room gives its headings once, when it is handed in again; and so does an
/// end, which has not ended the state before.
#[test]
fn tried_again_with_room() {
    let mut list = [7; 6];
    let state = StreamState::new();
    let refusal = state.piece(b"* A\n** B\n*** C", &mut list[..5]);
    assert_eq!(refusal.unwrap_err(), StreamRefusal::NoRoom { needed: 2 });
    let (state, _) = state.piece(b"* A\n** B\n*** C", &mut list).unwrap();
    assert_eq!(list, [0, 1, 1, 4, 2, 1]);
    let refusal = state.end(&mut list[..2]);
    assert_eq!(refusal.unwrap_err(), StreamRefusal::NoRoom { needed: 1 });
    let (state, _) = state.piece(b"c", &mut []).unwrap();
    let (state, _) = state.end(&mut list[3..]).unwrap();
    assert_eq!(list, [0, 1, 1, 9, 3, 2]);
    check_not_open(state);
}

/// 65,535 and 65,536 bytes in pieces, and one byte more.
#[test]
fn limits() {
    for lines in ["* \n", "* a b \t\r\n", "x\n", "*\n", "** c"] {
        let book = filled(lines, TEXT_LIMIT);
        for length in [1460, 60_000, TEXT_LIMIT - 1, TEXT_LIMIT] {
            check_pieces(&book, length);
            check_pieces(&book[1..], length);
        }
        let mut stream = HeadingStream::new();
        for piece in [&book[..65_000], &book[65_000..]] {
            stream.push(piece).unwrap();
            assert_eq!(stream.push(&book).unwrap_err(), StreamRefusal::TooLong);
        }
        assert_eq!(stream.push(b"").unwrap().len(), 0);
        let full = stream.state();
        for piece in [&b"\n"[..], b"*", b"\n* A\n"] {
            assert_eq!(stream.push(piece).unwrap_err(), StreamRefusal::TooLong);
            check_refused(full, piece, 9, StreamRefusal::TooLong);
        }
        assert_eq!(stream.state(), full);
        assert_eq!(full, state_after(&book));
        assert_eq!(stream.finish(), last_heading(&book));
    }
    let long = filled("* \n", TEXT_LIMIT + 1);
    let mut stream = HeadingStream::new();
    assert_eq!(stream.push(&long).unwrap_err(), StreamRefusal::TooLong);
    assert_eq!(stream.push(&long[..TEXT_LIMIT]).unwrap().len(), 21_845);
}

/// One heading of 65,536 bytes byte by byte: a title, with blanks in it and after it.
#[test]
fn a_long_title() {
    let mut book = filled("t", TEXT_LIMIT);
    book[..2].copy_from_slice(b"* ");
    book[60_000..60_010].fill(b' ');
    book[65_500..].fill(b'\t');
    let mut stream = HeadingStream::new();
    for (at, &byte) in book.iter().enumerate() {
        assert_eq!(stream.push(&[byte]).unwrap().len(), 0);
        let length = at as u32 + 1;
        let title = match length {
            0..=2 => 0,
            60_001..=60_010 => 59_998,
            65_501.. => 65_498,
            _ => length - 2,
        };
        assert_eq!(stream.state(), numbers(length, length, 1, title));
    }
    let wanted = StreamedHeading {
        start: 0,
        stars: 1,
        title_len: 65_498,
    };
    assert_eq!(stream.finish(), Some(wanted));
}

/// As many stars as there can be, with a space last and without one.
#[test]
fn many_stars() {
    let limit = TEXT_LIMIT as u32;
    let mut stream = HeadingStream::new();
    for length in 1..limit {
        stream.push(b"*").unwrap();
        assert_eq!(stream.state(), numbers(length, length, length, 0));
    }
    let after = |byte| {
        let mut stream = stream.clone();
        stream.push(&[byte]).unwrap();
        (stream.state(), stream.finish())
    };
    assert_eq!(after(b'*'), (numbers(limit, limit, limit, 0), None));
    assert_eq!(after(b'x'), (numbers(limit, limit, 0, 0), None));
    assert_eq!(after(b'\n'), (numbers(limit, 0, 0, 0), None));
    let wanted = StreamedHeading {
        start: 0,
        stars: TEXT_LIMIT - 1,
        title_len: 0,
    };
    let state = numbers(limit, limit, limit - 1, 0);
    assert_eq!(after(b' '), (state, Some(wanted)));
}

/// The headings are those of a reading, and of the shipped books too.
#[test]
fn headings_of_a_reading() {
    let mut books = BOOKS.map(<[u8]>::to_vec).to_vec();
    books.push(include_bytes!("../../../tests/books/orders.org").to_vec());
    books.push(include_bytes!("../../../tests/books/double-click.org").to_vec());
    for book in books {
        let table = Table::read(&book).unwrap();
        let headings = table.records().filter(|r| r.kind == Kind::Heading);
        let read: Vec<_> = headings
            .map(|r| (r.span.start, r.detail as usize))
            .collect();
        for length in [1, 7, 1460, book.len()] {
            let mut stream = HeadingStream::new();
            let mut seen = Vec::new();
            for piece in book.chunks(length) {
                seen.extend(stream.push(piece).unwrap());
            }
            seen.extend(stream.finish());
            let numbers: Vec<_> = seen.iter().map(|h| (h.start, h.stars)).collect();
            assert_eq!(numbers, read);
            assert!(seen.iter().all(|h| heading_at(&book, h.start) == Some(*h)));
        }
        check_pieces(&book, 97);
    }
}

#[test]
fn refusals_have_numbers_and_words() {
    let refusals = [
        (
            StreamRefusal::NotOpen,
            21,
            "the book has ended already, or its state is none that a text leaves",
        ),
        (
            StreamRefusal::TooLong,
            1,
            "with this piece the book would be longer than 65,536 bytes",
        ),
        (
            StreamRefusal::NoRoom { needed: 2 },
            3,
            "the list has no room for 2 headings",
        ),
    ];
    for (refusal, number, words) in refusals {
        assert_eq!(refusal.number(), number);
        assert_eq!(refusal.to_string(), words);
    }
}
