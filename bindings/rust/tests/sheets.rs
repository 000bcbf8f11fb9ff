//! Sheets (document 02, order 5), through the safe interface.

mod sent;

use comaltzex::{
    property, sheet, write_sheet, Kind, Order, OrderError, Record, SheetRefusal, Table, KEY_LIMIT,
    PAIR_LIMIT, TEXT_LIMIT,
};
use sent::{buffer, lines, Pair};

const UNTOUCHED: u8 = 0xAA;

/// What a sheet without pairs has beside its title.
const BARE: usize = "* \n:PROPERTIES:\n:END:\n".len();

/// Pairs of texts.
fn texts<'b, const N: usize>(pairs: [(&'b str, &'b str); N]) -> [Pair<'b>; N] {
    pairs.map(|(key, value)| (key.as_bytes(), value.as_bytes()))
}

/// Checks a call with so much room: the answer, and every byte of the output and past it.
#[track_caller]
fn check_room(order: &[u8], room: usize, wanted: Result<&[u8], SheetRefusal>) {
    let mut output = vec![UNTOUCHED; room + 100];
    let answer = write_sheet(order, &mut output[..room]);
    assert_eq!(answer, wanted.map(<[u8]>::len), "room {room}");
    let written = wanted.unwrap_or_default();
    assert!(output.starts_with(written), "room {room}");
    let after = &output[written.len()..];
    assert!(after.iter().all(|&byte| byte == UNTOUCHED), "room {room}");
}

#[track_caller]
fn check_refused(order: &[u8], refusal: SheetRefusal) {
    for room in [0, 1, 2, BARE, 100, TEXT_LIMIT + 100] {
        check_room(order, room, Err(refusal));
    }
    assert_eq!(sheet(order), Err(refusal));
}

/// Checks that an order is written as its sheet wherever there is room, and reads back.
#[track_caller]
fn check_written(title: &[u8], pairs: &[Pair]) {
    let (order, wanted) = (buffer(title, pairs), lines(title, pairs));
    let needed = wanted.len();
    for room in [needed, needed + 1, needed + 50] {
        check_room(&order, room, Ok(&wanted));
    }
    for room in [0, 1, needed / 2, needed - 1] {
        check_room(&order, room, Err(SheetRefusal::ShortOutput { needed }));
    }
    assert!(sheet(&order).as_ref() == Ok(&wanted));
    check_looked_up(&wanted, pairs);
    check_read(&wanted, title, pairs);
    check_built(title, pairs);
}

/// Checks that each key gives its value, with its letters in the other case too.
#[track_caller]
fn check_looked_up(sheet: &[u8], pairs: &[Pair]) {
    for &(key, value) in pairs {
        assert_eq!(property(sheet, 0, key), Ok(value));
        assert_eq!(property(sheet, 0, &other_case(key)), Ok(value));
    }
}

fn other_case(key: &[u8]) -> Vec<u8> {
    let swap = |byte: &u8| byte ^ (u8::from(byte.is_ascii_alphabetic()) << 5);
    key.iter().map(swap).collect()
}

/// Checks that the table has a heading with a section with a property drawer and its properties,
/// each to the end of the one around it, and nothing else.
#[track_caller]
fn check_read(sheet: &[u8], title: &[u8], pairs: &[Pair]) {
    let records: Vec<Record> = Table::read(sheet).unwrap().records().collect();
    let (around, properties) = records.split_at(4);
    let kinds = [
        Kind::Document,
        Kind::Heading,
        Kind::Section,
        Kind::PropertyDrawer,
    ];
    let drawer = title.len() + "* \n".len();
    let starts = [0, 0, drawer, drawer];
    for (index, record) in around.iter().enumerate() {
        assert_eq!(record.kind, kinds[index]);
        assert_eq!(record.span, starts[index]..sheet.len());
        assert_eq!(record.parent, index.saturating_sub(1));
    }
    assert_eq!(around[1].detail, 1);
    assert!(properties
        .iter()
        .all(|record| record.kind == Kind::NodeProperty && record.parent == 3));
    let values = properties.iter().map(|record| record.inner_text(sheet));
    assert!(values.eq(pairs.iter().map(|&(_, value)| Some(value))));
}

/// Checks that the builder makes the same buffer and sheet.
#[track_caller]
fn check_built(title: &[u8], pairs: &[Pair]) {
    let mut order = Order::new(title).unwrap();
    for (key, value) in pairs {
        order.add(key, value).unwrap();
    }
    let wanted = lines(title, pairs);
    assert!(order.to_bytes() == buffer(title, pairs));
    assert!(order.sheet() == wanted);
    let mut output = vec![UNTOUCHED; wanted.len() + 9];
    assert_eq!(order.write_sheet(&mut output), Ok(wanted.len()));
    assert!(output == [&wanted[..], &[UNTOUCHED; 9]].concat());
}

/// So many keys.
fn numbered(count: usize) -> Vec<String> {
    (0..count).map(|number| format!("Key{number}")).collect()
}

/// Each of these keys with this value.
fn pairs_of<'b>(keys: &'b [String], value: &'b [u8]) -> Vec<Pair<'b>> {
    keys.iter().map(|key| (key.as_bytes(), value)).collect()
}

#[test]
fn written_samples() {
    let sample = |order: &[u8], room, wanted: &str| check_room(order, room, Ok(wanted.as_bytes()));
    sample(
        b"\x01\x00T\x01\x03VIN\x01\x007",
        40,
        "* T\n:PROPERTIES:\n:VIN: 7\n:END:\n",
    );
    sample(b"\x00\x00\x00", 22, "* \n:PROPERTIES:\n:END:\n");
    sample(
        b"\x03\x00a b\x02\x01B\x03\x00x y\x01A\x01\x00:",
        50,
        "* a b\n:PROPERTIES:\n:B: x y\n:A: :\n:END:\n",
    );
    sample(
        b"\x01\x00T\x02\x03a:b\x01\x001\x02+c\x01\x002",
        50,
        "* T\n:PROPERTIES:\n:a:b: 1\n:+c: 2\n:END:\n",
    );
    sample(
        b"\x01\x00T\x10\x010\0\0\x011\0\0\x012\0\0\x013\0\0\x014\0\0\x015\0\0\x016\0\0\x017\0\0\
          \x018\0\0\x019\0\0\x01a\0\0\x01b\0\0\x01c\0\0\x01d\0\0\x01e\0\0\x01f\0\0",
        200,
        "* T\n:PROPERTIES:\n:0:\n:1:\n:2:\n:3:\n:4:\n:5:\n:6:\n:7:\n:8:\n:9:\n:a:\n:b:\n:c:\n:d:\n\
         :e:\n:f:\n:END:\n",
    );
}

#[test]
fn refused_samples() {
    let short = SheetRefusal::ShortOutput { needed: 31 };
    check_room(b"\x01\x00T\x01\x03VIN\x01\x007", 30, Err(short));
    check_refused(b"\x05\x00abc", SheetRefusal::BadOrder);
    check_refused(b"\x01\x00T\x01\x01A\x02\x001", SheetRefusal::BadOrder);
    check_refused(b"\x01\x00T\x00x", SheetRefusal::BadOrder);
    check_refused(b"\x01\x00T\x01\x01A\x03\x00a\rb", SheetRefusal::BadText);
    check_refused(b"\x02\x00 T\x00", SheetRefusal::BadText);
    check_refused(b"\x01\x00T\x01\x00\x01\x00x", SheetRefusal::BadName);
    check_refused(b"\x01\x00T\x01\x02a+\x01\x00x", SheetRefusal::BadName);
    check_refused(b"\x01\x00T\x01\x03eNd\x01\x00x", SheetRefusal::BadName);
    let last_value_first_key = b"\x01\x00T\x02\x00\x01\x00x\x01A\x01\x00 ";
    check_refused(last_value_first_key, SheetRefusal::BadText);
    let repeated_and_end = b"\x01\x00T\x03\x01A\x00\x00\x01a\x00\x00\x03END\x00\x00";
    check_refused(repeated_and_end, SheetRefusal::BadName);
}

#[test]
fn orders_read_back() {
    check_written(b"", &[]);
    let plain = texts([("VIN", "7"), ("Fuel", ""), ("bOOST", "1.2 bar")]);
    check_written(b"T", &plain);
    let signs = texts([("a:b", ":"), ("+c", "a: b"), ("::", "::"), ("++d", "+")]);
    check_written(b"\xC3\x96l", &signs);
    let words = texts([("E", "END"), ("ENDE", "1"), ("EN", ""), ("PROPERTIES", "2")]);
    check_written(b"T", &words);
}

/// What would mean something on a line of its own.
#[test]
fn hostile_texts() {
    let hostile: [&[u8]; 16] = [
        b":END:",
        b":PROPERTIES:",
        b"* x",
        b"** x",
        b"*",
        b"#+begin_src",
        b"#+end_src",
        b"# x",
        b"- x",
        b"| x |",
        b"-----",
        b":VIN: 8",
        b"SCHEDULED: <2026-11-16>",
        b"\0",
        b"\x0b",
        b"a\x0c\tb",
    ];
    for text in hostile {
        check_written(text, &[(b"VIN", text), (b"Fuel", b""), (b"Boost", text)]);
    }
}

#[test]
fn every_other_byte_is_ordinary() {
    for byte in (0..=255).filter(|byte| !b" \t\n\r".contains(byte)) {
        let text = [byte];
        let key = [b'k', byte, b'k'];
        check_written(&text, &[(b"VIN", &text), (&key, &text)]);
    }
    for blank in [" ", "\t"] {
        let text = format!("a{blank}{blank}b");
        check_written(text.as_bytes(), &[(b"VIN", text.as_bytes())]);
    }
}

#[test]
fn lengths_have_their_low_byte_first() {
    for length in [255, 256, 257, 258, 513] {
        let (title, value) = (vec![b't'; length], vec![b'v'; length + 1]);
        check_written(&title, &[(b"A", &value), (b"B", &title)]);
    }
    let title = [&b"\x02\x01"[..], &[b't'; 258], b"\x00"].concat();
    assert_eq!(sheet(&title).unwrap().len(), BARE + 258);
}

#[test]
fn an_order_is_neither_cut_nor_longer() {
    let order = buffer(b"Title", &texts([("VIN", "77"), ("Fuel", ""), ("A", "1")]));
    for length in 0..order.len() {
        check_refused(&order[..length], SheetRefusal::BadOrder);
    }
    for byte in [0, b'x', 255] {
        check_refused(&[&order[..], &[byte]].concat(), SheetRefusal::BadOrder);
    }
    check_refused(&order.repeat(2), SheetRefusal::BadOrder);
}

#[test]
fn pairs_up_to_the_limit() {
    let keys = numbered(PAIR_LIMIT + 1);
    check_written(b"T", &pairs_of(&keys[1..], b"7"));
    check_refused(
        &buffer(b"T", &pairs_of(&keys, b"7")),
        SheetRefusal::BadOrder,
    );
    // whatever follows, be it nothing or all that was said
    check_refused(b"\x00\x00\x11", SheetRefusal::BadOrder);
    let keys = numbered(255);
    check_refused(&buffer(b"", &pairs_of(&keys, b"")), SheetRefusal::BadOrder);
}

#[test]
fn bad_texts() {
    let bad = [
        "\n", "\r", "a\nb", "a\rb", "a\n", "\na", "a\r", "\ra", " ", "\t", " a", "a ", "\ta",
        "a\t", "a\r\nb",
    ];
    for text in bad {
        check_refused(&buffer(text.as_bytes(), &[]), SheetRefusal::BadText);
        let first = texts([("A", text), ("B", "b")]);
        check_refused(&buffer(b"T", &first), SheetRefusal::BadText);
        let last = texts([("A", "a"), ("B", ""), ("C", text)]);
        check_refused(&buffer(b"", &last), SheetRefusal::BadText);
    }
}

#[test]
fn bad_names() {
    let long = "k".repeat(KEY_LIMIT + 1);
    check_written(b"T", &texts([(&long[1..], "7")]));
    let bad = [
        "",
        "+",
        "VIN+",
        "V N",
        " V",
        "V ",
        "V\tN",
        "V\rN",
        "V\nN",
        "END",
        "end",
        "End",
        "eND",
        &long,
        &"k".repeat(255),
    ];
    for key in bad {
        let first = texts([(key, ""), ("B", "b")]);
        check_refused(&buffer(b"T", &first), SheetRefusal::BadName);
        let last = texts([("A", "a"), ("B", "b"), (key, "7")]);
        check_refused(&buffer(b"", &last), SheetRefusal::BadName);
    }
}

#[test]
fn repeated_keys() {
    let repeated = [
        ["VIN", "VIN", "A"],
        ["vin", "VIN", "A"],
        ["A", "Vin", "vIN"],
        ["z", "A", "Z"],
        ["a:B", "b", "A:b"],
    ];
    for keys in repeated {
        let pairs = texts(keys.map(|key| (key, "")));
        check_refused(&buffer(b"T", &pairs), SheetRefusal::RepeatedKey);
    }
    let mut keys = numbered(PAIR_LIMIT - 1);
    keys.push("kEY0".into());
    let pairs = pairs_of(&keys, b"1");
    check_refused(&buffer(b"T", &pairs), SheetRefusal::RepeatedKey);
}

/// Only ASCII letters have a case: what is 32 apart elsewhere differs.
#[test]
fn keys_that_only_resemble() {
    check_written(b"T", &texts([("VIN", "1"), ("VINS", "2"), ("VI", "3")]));
    let signs: [&[u8]; 8] = [b"[", b"{", b"@", b"`", b"]", b"}", b"^", b"~"];
    check_written(b"T", &signs.map(|key| (key, key)));
    let others: [&[u8]; 6] = [b"\xC4", b"\xE4", b"\x01", b"!", b"1", b"\x11"];
    check_written(b"T", &others.map(|key| (key, key)));
}

/// An order with the faults of two refusals, for each two that follow on one another.
#[test]
fn refusals_in_turn() {
    let long = vec![b'a'; TEXT_LIMIT - 1];
    let cut = [&buffer(b"", &texts([("A", " ")]))[..], b"x"].concat();
    check_refused(&cut, SheetRefusal::BadOrder);
    let keys = numbered(PAIR_LIMIT + 1);
    let many = buffer(b" ", &pairs_of(&keys, b"\n"));
    check_refused(&many, SheetRefusal::BadOrder);

    let text_and_name = texts([("", "x"), ("A", " ")]);
    check_refused(&buffer(b"T", &text_and_name), SheetRefusal::BadText);
    let title_and_name = texts([("END", "x"), ("A", "a")]);
    check_refused(&buffer(b"\n", &title_and_name), SheetRefusal::BadText);
    let name_and_repeated = texts([("A", "1"), ("a", "2"), ("A+", "3")]);
    check_refused(&buffer(b"T", &name_and_repeated), SheetRefusal::BadName);
    let text_and_repeated = texts([("A", "1"), ("a", "2\n")]);
    check_refused(&buffer(b"T", &text_and_repeated), SheetRefusal::BadText);
    let repeated = texts([("A", "1"), ("a", "2")]);
    check_refused(&buffer(&long, &repeated), SheetRefusal::RepeatedKey);
    let name = texts([("A", "1"), ("b c", "2")]);
    check_refused(&buffer(&long, &name), SheetRefusal::BadName);
    let text = texts([("A", "1"), ("B", "2\r")]);
    check_refused(&buffer(&long, &text), SheetRefusal::BadText);
    // too long comes before the room, which `check_refused` takes away
    check_refused(&buffer(&long, &[]), SheetRefusal::TooLong);
}

#[test]
fn a_sheet_has_at_most_65536_bytes() {
    let title = vec![b't'; TEXT_LIMIT - BARE + 1];
    check_written(&title[1..], &[]);
    check_refused(&buffer(&title, &[]), SheetRefusal::TooLong);

    let value = vec![b'v'; TEXT_LIMIT - BARE - ":VIN: \n".len() + 1];
    check_written(b"", &[(b"VIN", &value[1..])]);
    check_refused(&buffer(b"", &[(b"VIN", &value)]), SheetRefusal::TooLong);
    check_refused(
        &buffer(b"t", &[(b"VIN", &value[1..])]),
        SheetRefusal::TooLong,
    );

    let longest = vec![b'x'; usize::from(u16::MAX)];
    check_refused(&buffer(&longest, &[]), SheetRefusal::TooLong);
    let keys = numbered(PAIR_LIMIT);
    let all = buffer(&longest, &pairs_of(&keys, &longest));
    check_refused(&all, SheetRefusal::TooLong);
}

/// Sixteen pairs, one of which has no value and so no space.
#[test]
fn sixteen_pairs_up_to_65536_bytes() {
    let keys = numbered(PAIR_LIMIT);
    let value = [b'v'; 4000];
    let mut pairs = pairs_of(&keys, &value);
    pairs[7].1 = b"";
    let rest = vec![b't'; TEXT_LIMIT - lines(b"", &pairs).len() + 1];
    check_written(&rest[1..], &pairs);
    check_refused(&buffer(&rest, &pairs), SheetRefusal::TooLong);
}

/// Checks that an order with a VIN does not take in a pair, and stays as it was.
#[track_caller]
fn check_not_added(key: &[u8], value: &[u8], wanted: fn(Vec<u8>) -> OrderError, words: &str) {
    let mut order = Order::new(b"T").unwrap();
    order.add(b"VIN", b"7").unwrap();
    let before = order.clone();
    let error = wanted(key.to_vec());
    assert_eq!(order.add(key, value).err().as_ref(), Some(&error));
    assert_eq!(error.to_string(), words);
    assert_eq!(order, before);
}

#[test]
fn titles_that_are_not_taken_in() {
    for title in [&b" T"[..], b"T\t", b"T\r", b"a\nb"] {
        assert_eq!(Order::new(title).err(), Some(OrderError::BadTitle));
        let words = "the title has a line end in it, or a blank at either end";
        assert_eq!(OrderError::BadTitle.to_string(), words);
    }
    for length in [TEXT_LIMIT - BARE + 1, TEXT_LIMIT - 1, TEXT_LIMIT, 100_000] {
        let title = vec![b't'; length];
        assert_eq!(Order::new(&title).err(), Some(OrderError::LongTitle));
        let words = "the title makes the sheet longer than 65,536 bytes";
        assert_eq!(OrderError::LongTitle.to_string(), words);
    }
}

#[test]
fn values_that_are_not_taken_in() {
    for value in [&b" "[..], b"98 ", b"\t98", b"98\r\n", b"9\n8"] {
        let words = "the value of \"Fuel\" has a line end in it, or a blank at either end";
        let wanted = |key| OrderError::BadValue { key };
        check_not_added(b"Fuel", value, wanted, words);
    }
    for length in [TEXT_LIMIT - 38, TEXT_LIMIT - 1, TEXT_LIMIT, 100_000] {
        let words = "the value of \"Fuel\" makes the sheet longer than 65,536 bytes";
        let wanted = |key| OrderError::LongValue { key };
        check_not_added(b"Fuel", &vec![b'v'; length], wanted, words);
    }
}

#[test]
fn keys_that_are_not_taken_in() {
    let rule = "a key has 1 to 64 bytes, no blanks or line ends, no `+` at its end, and is not END";
    let long = "k".repeat(65);
    let longest = "k".repeat(300);
    let bad = ["", "Fuel+", "Fu el", "end", &long, &longest];
    for key in bad {
        let words = format!("{key:?} is no key: {rule}");
        let wanted = |key| OrderError::BadKey { key };
        check_not_added(key.as_bytes(), b"98", wanted, &words);
    }
    let words = "there is a key \"vin\" already; capital and small letters count as one";
    check_not_added(b"vin", b"7", |key| OrderError::RepeatedKey { key }, words);
    // no terminal is to see these bytes as they are
    let words = format!(r#""V\n\u{{1b}}{}\u{{202e}}" is no key: {rule}"#, '\u{fffd}');
    let key = b"V\n\x1b\xFF\xE2\x80\xAE";
    check_not_added(key, b"", |key| OrderError::BadKey { key }, &words);
}

#[test]
fn a_17th_pair_is_not_taken_in() {
    let keys = numbered(PAIR_LIMIT + 1);
    let mut order = Order::new(b"").unwrap();
    for key in &keys[..PAIR_LIMIT] {
        order.add(key.as_bytes(), b"").unwrap();
    }
    let error = order.add(b"Key16", b"1").unwrap_err();
    let key = b"Key16".to_vec();
    assert_eq!(error, OrderError::TooManyPairs { key });
    let words = "\"Key16\" is one key too many: an order has at most 16";
    assert_eq!(error.to_string(), words);
    assert_eq!(
        order.sheet(),
        lines(b"", &pairs_of(&keys[..PAIR_LIMIT], b""))
    );
}

#[test]
fn refusals_have_numbers_and_words() {
    let refusals = [
        SheetRefusal::BadOrder,
        SheetRefusal::BadText,
        SheetRefusal::BadName,
        SheetRefusal::RepeatedKey,
        SheetRefusal::TooLong,
        SheetRefusal::ShortOutput { needed: 31 },
    ];
    assert_eq!(refusals.map(SheetRefusal::number), [12, 13, 14, 15, 1, 16]);
    assert_eq!(
        refusals.map(|refusal| refusal.to_string()),
        [
            "the order is cut short or too long, or has more than 16 pairs",
            "the title or a value has a line end in it, or a blank at either end",
            "not every key is good: a key has 1 to 64 bytes, no blanks or line ends, no `+` at \
             its end, and is not END",
            "two keys are the same; capital and small letters count as one",
            "the sheet would be longer than 65,536 bytes",
            "the output has no room for a sheet of 31 bytes",
        ]
    );
}
