//! A stack of 96 KB is enough for every text: the deepest nesting, more of it than is read, and texts of the greatest length.

mod nested;

use comaltzex::{
    find_closer, lookup, lookup_with_defaults, planning, read, timestamp, Book, HeadingStream,
    IntakeRefusal, Order, Refusal, DEPTH_LIMIT, KEY_LIMIT, PAIR_LIMIT, RECORD_SIZE, TEXT_LIMIT,
};
use nested::nested_lists;
use std::thread;

const STACK: usize = 96 * 1024;

/// The answer of a call that has only a small stack.
fn on_a_small_stack<T: Send + 'static>(call: impl FnOnce() -> T + Send + 'static) -> T {
    thread::Builder::new()
        .stack_size(STACK)
        .spawn(call)
        .unwrap()
        .join()
        .unwrap()
}

fn read_on_a_small_stack(text: Vec<u8>) -> Result<usize, Refusal> {
    let mut table = vec![0; RECORD_SIZE * (TEXT_LIMIT + 3)];
    on_a_small_stack(move || read(&text, &mut table).map(|records| records.count()))
}

/// Blocks in one another, each of another name, with a drawer in the innermost.
fn nested(depth: usize) -> Vec<u8> {
    let openers = (1..depth).map(|i| format!("#+begin_{i}\n"));
    let closers = (1..depth).rev().map(|i| format!("#+end_{i}\n"));
    openers
        .chain([":a:\n:end:\n".to_string()])
        .chain(closers)
        .collect::<String>()
        .into_bytes()
}

fn filled(line: &str) -> Vec<u8> {
    line.bytes().cycle().take(TEXT_LIMIT).collect()
}

#[test]
fn deep_texts() {
    assert_eq!(
        read_on_a_small_stack(nested(DEPTH_LIMIT)),
        Ok(DEPTH_LIMIT + 2)
    );
    assert_eq!(
        read_on_a_small_stack(nested(DEPTH_LIMIT + 1)),
        Err(Refusal::TooDeep)
    );
    assert_eq!(read_on_a_small_stack(nested(2500)), Err(Refusal::TooDeep));
}

#[test]
fn deep_lists() {
    for (with_blocks, count) in [(false, 2 + 3 * 32), (true, 2 + 3 * 16 + 16)] {
        let read = |depth| read_on_a_small_stack(nested_lists(depth, with_blocks));
        assert_eq!(read(DEPTH_LIMIT), Ok(count));
        assert_eq!(read(DEPTH_LIMIT + 1), Err(Refusal::TooDeep));
        assert_eq!(read(300), Err(Refusal::TooDeep));
    }
}

/// The store of the reading call is full before the deepest lists come.
#[test]
fn deep_lists_after_many_records() {
    for (with_blocks, count) in [(false, 3 * 32), (true, 3 * 16 + 16)] {
        let mut text = b"* a\n:properties:\n:a: b\n:end:\n".repeat(1000);
        text.extend(nested_lists(DEPTH_LIMIT, with_blocks));
        assert_eq!(read_on_a_small_stack(text.clone()), Ok(1 + 4000 + count));
        text.extend(b"* a\n");
        text.extend(nested_lists(DEPTH_LIMIT + 1, with_blocks));
        assert_eq!(read_on_a_small_stack(text), Err(Refusal::TooDeep));
    }
}

/// The store of the reading call is full before the deepest nesting comes.
#[test]
fn deep_after_many_records() {
    let mut text = b"* a\n:properties:\n:a: b\n:end:\n".repeat(1000);
    text.extend(nested(DEPTH_LIMIT));
    assert_eq!(
        read_on_a_small_stack(text.clone()),
        Ok(1 + 4000 + DEPTH_LIMIT)
    );
    text.extend(nested(DEPTH_LIMIT + 1));
    assert_eq!(read_on_a_small_stack(text), Err(Refusal::TooDeep));
}

#[test]
fn long_texts() {
    assert_eq!(read_on_a_small_stack(filled("* ")), Ok(2));
    // the last byte is a star alone: a section with a paragraph
    assert_eq!(read_on_a_small_stack(filled("* \n")), Ok(21845 + 3));
    assert_eq!(read_on_a_small_stack(filled("#+begin_x\n")), Ok(3));
    assert_eq!(read_on_a_small_stack(filled(":a:\n")), Ok(3));
    assert_eq!(read_on_a_small_stack(filled("|\n")), Ok(32768 + 3));
    assert_eq!(read_on_a_small_stack(filled("-\n")), Ok(32768 + 3));
    // with two blank lines between them: lists and items
    assert_eq!(read_on_a_small_stack(filled("-\n\n\n")), Ok(2 * 16384 + 2));
}

#[test]
fn long_lookup() {
    let text = filled("* a\n:properties:\n:a:\n:end:\n");
    assert!(on_a_small_stack(move || lookup(&text, 0, b"b")).is_err());
}

#[test]
fn long_refused_lookups() {
    let refused = |start: &[u8], again: &str, end: &[u8]| {
        let mut text = filled(again);
        text[..start.len()].copy_from_slice(start);
        text[TEXT_LIMIT - end.len()..].copy_from_slice(end);
        let refusal = on_a_small_stack(move || lookup(&text, 0, b"b")).unwrap_err();
        refusal.number()
    };
    let opened = b"* a\n:properties:\n:a:";
    assert_eq!(refused(b"* a", "\n", b":properties:"), 8);
    assert_eq!(refused(opened, ":a:\n", b":a:\n"), 10);
    assert_eq!(refused(opened, ":a:\n", b"x\n:end:"), 9);
}

/// The first heading of the defaults is their last line, or its drawer takes all of them.
#[test]
fn long_lookups_with_defaults() {
    let answered = |start: &[u8], again: &str, end: &[u8]| {
        let order = filled("* a\n:properties:\n:a:\n:end:\n");
        let mut text = filled(again);
        text[..start.len()].copy_from_slice(start);
        text[TEXT_LIMIT - end.len()..].copy_from_slice(end);
        let answer = on_a_small_stack(move || lookup_with_defaults(&order, 0, &text, b"b"));
        answer.map_err(|refused| (refused.whose.number(), refused.answer.number()))
    };
    assert_eq!(answered(b"", "x\n", b"\n* a"), Err((2, 5)));
    let opened = b"* a\n:properties:\n:a:";
    assert_eq!(answered(opened, ":a:\n", b":a:\n"), Err((2, 10)));
    let found = answered(opened, ":a:\n", b":b: 12\n:end:");
    assert_eq!(found.unwrap().answer, 65_528..65_530);
}

#[test]
fn long_search() {
    let text = filled(":a:\n");
    let search = on_a_small_stack(move || find_closer(&text, 0, TEXT_LIMIT));
    assert_eq!(search.compared, 16383);
}

#[test]
fn long_timestamp() {
    let text = format!("<2026-11-16{}Mon>", " ".repeat(TEXT_LIMIT)).into_bytes();
    let end = text.len();
    let found = on_a_small_stack(move || timestamp(&text, 0)).unwrap();
    assert_eq!(found.span, 0..end);
}

#[test]
fn long_planning_line() {
    let mut text = filled("* a\n");
    text[4..].fill(b' ');
    let part = b"DEADLINE: <2026-11-16 Mon 9:00 +1w -3d>--<2026-11-17> ";
    for chunk in text[4..].chunks_exact_mut(part.len()) {
        chunk.copy_from_slice(part);
    }
    let plan = on_a_small_stack(move || planning(&text, 0)).unwrap();
    assert!(plan.deadline.is_some());
}

/// Keys of the greatest length that differ in their last bytes only.
#[test]
fn long_sheet() {
    let value = [b'v'; 4000];
    let mut order = Order::new(b"").unwrap();
    for number in 0..PAIR_LIMIT {
        let key = format!("{number:0KEY_LIMIT$}");
        order.add(key.as_bytes(), &value).unwrap();
    }
    let mut output = vec![0; TEXT_LIMIT];
    let written = on_a_small_stack(move || order.write_sheet(&mut output));
    assert_eq!(written, Ok(22 + PAIR_LIMIT * (KEY_LIMIT + 4004)));
}

/// Books of many headings, none of which has the request, and a log of many orders.
#[test]
fn long_intakes() {
    let mut order = Order::new(b"").unwrap();
    order.add(b"REQUEST", b"r").unwrap();
    order.add(b"VIN", b"7").unwrap();
    let intake = |text: Vec<u8>, order: Order| {
        on_a_small_stack(move || Book::from_text(text).intake(&order))
    };
    for lines in [
        "* \n",
        "* \n:properties:\n",
        "* \n:properties:\n:request: q\n:end:\n",
    ] {
        let answer = intake(filled(lines), order.clone());
        assert_eq!(answer, Err(IntakeRefusal::TooLong));
    }
    let book = Book::from_text(Vec::new());
    let log = order.log_entry().repeat(2000);
    let played = on_a_small_stack(move || { book }.replay(&log));
    assert_eq!(played, Ok(order.sheet().len()));
}

/// Headings as short as can be, one title, and stars alone, in one piece and byte by byte.
#[test]
fn long_streams() {
    for (lines, count) in [("* \n", 21_845), ("* ", 1), ("*", 0)] {
        for length in [TEXT_LIMIT, 1] {
            let book = filled(lines);
            let streamed = on_a_small_stack(move || {
                let mut stream = HeadingStream::new();
                let headings = |piece| stream.push(piece).unwrap().len();
                let count: usize = book.chunks(length).map(headings).sum();
                count + usize::from(stream.finish().is_some())
            });
            assert_eq!(streamed, count);
        }
    }
}
