//! Document 02, order 5: an order's buffer and the sheet written from it.

use plain_reader::{lookup, read, write_sheet, Order, Pair, Reading};

/// A byte that no sheet here has.
const FILL: u8 = 0xAA;

/// A buffer with that title and those pairs, however many and whatever they hold.
fn buffer(title: &[u8], pairs: &[(&[u8], &[u8])]) -> Vec<u8> {
    let mut buffer = text(title);
    buffer.push(pairs.len() as u8);
    for (key, value) in pairs {
        buffer.push(key.len() as u8);
        buffer.extend(*key);
        buffer.extend(text(value));
    }
    buffer
}

/// A length in two bytes, low first, and so many bytes.
fn text(bytes: &[u8]) -> Vec<u8> {
    let length = [(bytes.len() % 256) as u8, (bytes.len() / 256) as u8];
    [&length, bytes].concat()
}

/// The answer in so much room, and the output after it.
fn in_room(buffer: &[u8], room: usize) -> (u32, usize, Vec<u8>) {
    let mut output = vec![FILL; room];
    let (number, count) = write_sheet(buffer, &mut output);
    (number, count, output)
}

/// The sheet of an order that has one.
fn sheet(buffer: &[u8]) -> Vec<u8> {
    let (number, count, mut output) = in_room(buffer, 65_536);
    assert_eq!(number, 0);
    assert!(output[count..].iter().all(|byte| *byte == FILL));
    output.truncate(count);
    output
}

/// The buffer is refused with that number and count 0 in little room and in much; no byte of the
/// output changes.
fn assert_refused(number: u32, buffer: &[u8]) {
    for room in [0, 22, 70_000] {
        let refused = (number, 0, vec![FILL; room]);
        assert!(in_room(buffer, room) == refused, "{number} in {room}");
    }
}

/// An order with that title and the pair `A`, `1`.
fn titled(title: &[u8]) -> Vec<u8> {
    buffer(title, &[(b"A", b"1")])
}

/// An order with the title `T` and that key.
fn keyed(key: &[u8]) -> Vec<u8> {
    buffer(b"T", &[(key, b"1")])
}

/// An order with the title `T` and that value.
fn valued(value: &[u8]) -> Vec<u8> {
    buffer(b"T", &[(b"A", value)])
}

#[test]
fn the_parts_of_a_buffer() {
    let pair = |key, value| Pair { key, value };
    let order = Order::of(b"\x02\x00ab\x02\x01K\x03\x00x y\x02kl\x00\x00").unwrap();
    assert_eq!(order.title, b"ab");
    assert_eq!(order.pairs, [pair(b"K", b"x y"), pair(b"kl", b"")]);
}

#[test]
fn lengths_of_titles_and_values_are_low_first() {
    let long = [b'a'; 258];
    let bytes = [b"\x02\x01", long.as_slice(), b"\x01\x01K\x02\x01", &long].concat();
    let order = Order::of(&bytes).unwrap();
    assert_eq!((order.title, order.pairs[0].value), (&long[..], &long[..]));
}

#[test]
fn the_sheet_of_an_order() {
    let order = buffer(
        b"Stage 1",
        &[(b"VIN", b"7"), (b"NOTE", b""), (b"a:b", b": x")],
    );
    let lines = "* Stage 1\n:PROPERTIES:\n:VIN: 7\n:NOTE:\n:a:b: : x\n:END:\n";
    assert_eq!(sheet(&order), lines.as_bytes());
}

#[test]
fn the_least_sheet() {
    assert_eq!(sheet(b"\x00\x00\x00"), b"* \n:PROPERTIES:\n:END:\n");
}

#[test]
fn each_key_gives_its_value_back_and_the_sheet_is_one_heading() {
    let pairs: [(&[u8], &[u8]); 5] = [
        (b"VIN", b"7"),
        (b"empty", b""),
        (b":", b":END:"),
        (b"+c", b"* x"),
        (b"PROPERTIES", b"a\tb"),
    ];
    let sheet = sheet(&buffer(b"* :END:", &pairs));
    for (key, value) in pairs {
        for key in [
            key.to_vec(),
            key.to_ascii_lowercase(),
            key.to_ascii_uppercase(),
        ] {
            let (number, start, end, further) = lookup(&sheet, 0, &key);
            assert_eq!((number, &sheet[start..end], further), (0, value, 0));
        }
    }
    let Reading::Table(records) = read(&sheet) else {
        panic!("refused");
    };
    let kinds: Vec<u32> = records.iter().map(|record| record.kind).collect();
    assert_eq!(kinds, [1, 2, 3, 5, 6, 6, 6, 6, 6]);
    assert_eq!(records[1].detail, 1);
}

#[test]
fn a_buffer_cut_anywhere_or_long() {
    let whole = buffer(b"ab", &[(b"K", b"xyz"), (b"L", b""), (b"MN", b"1")]);
    for end in 0..whole.len() {
        assert_refused(12, &whole[..end]);
    }
    for more in [b"\x00", b"x", b"\n"] {
        assert_refused(12, &[&whole[..], more].concat());
    }
    assert_eq!(in_room(&whole, 100).0, 0);
}

#[test]
fn sixteen_pairs_and_no_more() {
    let keys: Vec<[u8; 1]> = (0..17).map(|index| [b'a' + index]).collect();
    let pairs: Vec<(&[u8], &[u8])> = keys.iter().map(|key| (&key[..], &b""[..])).collect();
    assert_eq!(sheet(&buffer(b"T", &pairs[..16])).len(), 23 + 16 * 4);
    assert_refused(12, &buffer(b"T", &pairs));
    assert_refused(12, b"\x01\x00T\x11");
    assert_refused(12, b"\x01\x00T\xFF");
}

#[test]
fn titles_and_values_that_break_a_line_or_end_blank() {
    for bad in [
        "\n", "\r", " ", "\t", "a\nb", "a\rb", "a\n", "\na", "a\r", "\ra", " a", "a ", "\ta", "a\t",
    ] {
        assert_refused(13, &titled(bad.as_bytes()));
        assert_refused(13, &valued(bad.as_bytes()));
    }
    for good in [
        "", "a", "a b", "a\tb", "\x0B", "\x00", "\u{A0}", ":END:", "* A",
    ] {
        assert_eq!(in_room(&titled(good.as_bytes()), 100).0, 0, "{good:?}");
        assert_eq!(in_room(&valued(good.as_bytes()), 100).0, 0, "{good:?}");
    }
}

#[test]
fn bad_keys_and_end() {
    for bad in [
        "", "+", "a+", "a++", " ", "a b", "a\tb", "a\rb", "a\nb", "a ", "END", "end", "eNd",
    ] {
        assert_refused(14, &keyed(bad.as_bytes()));
    }
    for good in [
        "a",
        "+a",
        "a+b",
        ":",
        "ENDE",
        "EN",
        "\x0B",
        "\u{E9}",
        "PROPERTIES",
    ] {
        assert_eq!(in_room(&keyed(good.as_bytes()), 100).0, 0, "{good:?}");
    }
    assert_refused(14, &keyed(&[b'k'; 65]));
    assert_refused(14, &keyed(&[b'k'; 255]));
    assert_eq!(in_room(&keyed(&[b'k'; 64]), 100).0, 0);
}

#[test]
fn keys_repeated() {
    let pair_of = |one: &'static [u8], other: &'static [u8]| {
        buffer(b"T", &[(one, b"1"), (b"x", b""), (other, b"2")])
    };
    assert_refused(15, &pair_of(b"a", b"a"));
    assert_refused(15, &pair_of(b"Vin", b"vIN"));
    for (one, other) in [(b"a", b"b"), (b"[", b"{"), (b"@", b"`"), (b"\xE9", b"\xC9")] {
        assert_eq!(in_room(&pair_of(one, other), 100).0, 0);
    }
}

#[test]
fn sheets_up_to_the_limit() {
    let title = [b'a'; 65_535];
    assert_eq!(sheet(&buffer(&title[..65_514], &[])).len(), 65_536);
    assert_refused(1, &buffer(&title[..65_515], &[]));
    assert_refused(1, &buffer(&title, &[]));
    let value = valued(&title[..65_508]);
    assert_eq!(sheet(&value).len(), 65_536);
    assert_refused(1, &valued(&title[..65_509]));
}

#[test]
fn room_for_the_sheet() {
    let order = buffer(b"T", &[(b"VIN", b"7")]);
    let sheet = b"* T\n:PROPERTIES:\n:VIN: 7\n:END:\n";
    assert_eq!(in_room(&order, 0), (16, 31, vec![]));
    assert_eq!(in_room(&order, 30), (16, 31, vec![FILL; 30]));
    assert_eq!(in_room(&order, 31), (0, 31, sheet.to_vec()));
    let past = [sheet.as_slice(), &[FILL; 9]].concat();
    assert_eq!(in_room(&order, 40), (0, 31, past));
}

#[test]
fn each_refusal_over_the_whole_buffer_before_the_next() {
    let long = [b'a'; 65_535];
    let bad_value: (&[u8], &[u8]) = (b"Z", b" ");
    let bad_key: (&[u8], &[u8]) = (b"end", b"");
    let twice: [(&[u8], &[u8]); 2] = [(b"A", b"1"), (b"a", b"2")];
    assert_refused(12, &[buffer(b" ", &[bad_key]), b"x".to_vec()].concat());
    assert_refused(13, &buffer(b"T", &[bad_key, bad_value]));
    assert_refused(13, &buffer(b"T", &[twice[0], twice[1], bad_value]));
    assert_refused(13, &buffer(&long, &[bad_value]));
    assert_refused(14, &buffer(b"T", &[twice[0], twice[1], bad_key]));
    assert_refused(14, &buffer(&long, &[bad_key]));
    assert_refused(15, &buffer(&long, &twice));
    assert_refused(1, &buffer(&long, &[(b"A", &long)]));
}
