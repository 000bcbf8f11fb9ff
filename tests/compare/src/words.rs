//! The words that seeded texts are made of.

const NAME_OF_64: &[u8] = &[b'k'; 64];
const NAME_OF_65: &[u8] = &[b'k'; 65];
const LONG_REQUEST: &[u8] = &long_request(b'a');
const OTHER_LONG_REQUEST: &[u8] = &long_request(b'b');

/// 258 bytes, a number that is 2 in its low byte; the first two are `r1`.
const fn long_request(last: u8) -> [u8; 258] {
    let mut request = [b'r'; 258];
    request[1] = b'1';
    request[257] = last;
    request
}

/// Keys that the lookup takes; most are names in the seeded texts.
#[rustfmt::skip]
pub const KEYS: &[&[u8]] = &[
    b"VIN", b"vin", b"Request", b"a", b"END", b"a:b", b":", b"\xC3\xA9", NAME_OF_64, b"nowhere",
];

/// Keys that the lookup refuses.
#[rustfmt::skip]
pub const BAD_KEYS: &[&[u8]] = &[
    b"", b"a+", b"+", b"a b", b" vin", b"vin\n", b"v\tin", b"vin\r", NAME_OF_65,
];

/// Keys that the lookup takes and a sheet may not have.
pub const END_KEYS: &[&[u8]] = &[b"END", b"end", b"eNd"];

/// Keys of orders; no two are the same, case ignored.
#[rustfmt::skip]
pub const SHEET_KEYS: &[&[u8]] = &[
    b"VIN", b"REQUEST", b"a", b"B", b"a:b", b":", b"+c", b"Fuel", b"\xC3\xA9", b"[", b"{", b"@", b"`",
    b"ENDS", b"PROPERTIES", NAME_OF_64, b"#", b"\x0B", b"VI", b"\xFF",
];

/// Titles and values of orders.
#[rustfmt::skip]
pub const SHEET_TEXTS: &[&[u8]] = &[
    b"", b"", b"7", b"WVWZZZ1JZXW000001", b"Stage 1", b"a \t b", b"** B", b":END:", b":PROPERTIES:", b":",
    b"#+begin_src", b"CLOSED: [2026-01-05]", b"\x00", b"\x0B\xA0", b"\xC3\xA9", &[b'v'; 256], &[b'v'; 258],
];

/// Titles and values that a sheet may not have.
#[rustfmt::skip]
pub const BAD_TEXTS: &[&[u8]] = &[
    b" ", b"\t", b"\n", b"\r", b"a\nb", b"a\rb", b"a\n", b"\na", b"a\r", b"\ra", b" a", b"a ", b"\ta",
    b"a\t",
];

/// Requests of orders and of books written by hand: few, so that one comes often again.
#[rustfmt::skip]
pub const REQUESTS: &[&[u8]] = &[
    b"r1", b"r1", b"r1", b"r2", b"r2", b"R1", b"r1 r2", b"7", b"7", b"7 8", b"9", b":", b":END:", b"\xFF", b"r\x001",
    b"r\x002", LONG_REQUEST, OTHER_LONG_REQUEST,
];

/// VINs of orders.
pub const VINS: &[&[u8]] = &[b"7", b"8", b"WVW", b"r1"];

pub const REQUEST_KEYS: &[&[u8]] = &[b"REQUEST", b"REQUEST", b"REQUEST", b"request", b"rEQUESt"];
pub const VIN_KEYS: &[&[u8]] = &[b"VIN", b"VIN", b"VIN", b"vin", b"Vin"];

/// Other keys of orders that are taken in.
pub const OTHER_KEYS: &[&[u8]] = &[b"a", b"REQUESTS", b"VI", b"Fuel", b":"];

/// Heading lines of books written by hand.
#[rustfmt::skip]
pub const BOOK_HEADINGS: &[&[u8]] = &[
    b"* Z\n", b"* Z\n", b"* \n", b"** Y\n", b"*** X\n", b"x\n* W\n", b"#+begin_src\n* V\n", b"*U\n", b" * T\n",
];

/// What such a book may have between a heading line and its drawer.
#[rustfmt::skip]
pub const BEFORE_DRAWERS: &[&[u8]] = &[
    b"", b"", b"", b"", b"", b"", b"", b"", b"\n", b" \n", b"x\n", b"CLOSED: [2026-01-05]\n", b"CLOSED: [2026-01-05]\n",
    b"CLOSED: [2026-01-05]\n\n", b"SCHEDULED: soon\n",
];

/// Fronts of the lines of such a drawer; a request follows.
#[rustfmt::skip]
pub const DRAWER_LINES: &[&[u8]] = &[
    b":REQUEST: ", b":REQUEST: ", b":REQUEST: ", b":REQUEST: ", b":request:\t", b":Request:  ", b" :REQUEST: ",
    b":REQUEST+: ", b":VIN: ", b":VIN: ", b":REQUESTS: ", b":a: ", b"REQUEST: ",
];

/// Keys that are never taken from the defaults.
#[rustfmt::skip]
pub const RESERVED_KEYS: &[&[u8]] = &[
    b"VIN", b"vin", b"REQUEST", b"Request", b"rEQUESt",
];

/// Single bytes and short pieces that rules speak of.
#[rustfmt::skip]
pub const LOOSE_PIECES: &[&[u8]] = &[
    b"\n", b"\n", b"\n", b"\n", b" ", b"\t", b"\r", b"*", b"* ", b"** ", b":", b"#", b"+", b"#+",
    b"|", b"|-", b"-", b"-----", b"a", b"A", b"e", b"_", b":a:", b":END:", b":end:", b"#+begin_a",
    b"#+end_a", b"#+begin_src", b"#+END_SRC", b":PROPERTIES:", b"CLOSED:", b"#+TBLFM:", b"\x00",
    b"\x0B", b"\x0C", b"\xC3\xA9", b"\xFF", b"* \nCLOSED: ", b"<2026-01-05", b"[2026-01-05]", b">",
    b"--", b"\n- ", b"\n  ", b"\n -", b"1. ", b"a)", b"[ ]", b"[@1]", b"\n\n\n",
];

#[rustfmt::skip]
pub const BLOCK_NAMES: &[&[u8]] = &[
    b"src", b"example", b"export", b"comment", b"verse", b"quote", b"center", b"note", b"a", b"b",
    b"srcx", b"vers", b"a:", b":a:", b"_", b"\xFF", b"[", b"{", b"\xC9", b"\xE9",
];

/// What may follow a block's name.
#[rustfmt::skip]
pub const BLOCK_PARAMETERS: &[&[u8]] = &[
    b"", b"", b" lua", b"\t-n :x y", b"\rz", b" ",
];

/// Openers of drawers, and two that just miss.
#[rustfmt::skip]
pub const DRAWER_BODIES: &[&[u8]] = &[
    b":LOGBOOK:", b":a:", b":0-_Z:", b":PROPERTIES:", b":\xC3\xA9:", b":a.b:",
];

#[rustfmt::skip]
pub const ROWS: &[&[u8]] = &[
    b"| a | 1 |", b"|-", b"|--+--|", b"|", b"| -", b"|\t",
];

/// `#+TBLFM:` lines, and one that just misses.
#[rustfmt::skip]
pub const FORMULAS: &[&[u8]] = &[
    b"#+TBLFM: $2=1", b"#+tblfm:", b"#+TBLFM", b"#+TBLFM:x",
];

#[rustfmt::skip]
pub const BLANK_LINES: &[&[u8]] = &[
    b"\n", b"\n", b" \n", b"\t\n", b"\r\n", b" \r\t\n",
];

/// Bodies that hold a rule by themselves, and others that just miss one.
#[rustfmt::skip]
pub const LONE_BODIES: &[&[u8]] = &[
    b"text", b"text and more", b"*", b"**bold**", b"*\tA", b":END:", b":END", b":END: x",
    b":end:", b":a:", b":a: x", b":a b:", b"::", b":::", b":", b": x", b":\tx", b":\rx", b":x",
    b"#", b"# x", b"#\tx", b"#\rx", b"#x", b"----", b"-----", b"------", b"----- -", b"-----x",
    b"#+a: b", b"#+a:b", b"#+a:b: c", b"#+a", b"#+a b:", b"#+:", b"#+: a", b"#+:a", b"#+::",
    b"#+::a", b"#+ a:", b"#+", b"#+begin_", b"#+begin_ a", b"#+begin: x", b"#+end:",
    b"#+begin_a:", b"|", b"| a", b"|-", b"#+TBLFM: x", b"#+tblfm:", b"#+TBLFMS: x",
    b":PROPERTIES:", b":PROPERTIES: x", b":PROPERTIES", b"CLOSED:", b"DEADLINE", b"- item",
    b"+ item", b"1. item", b"[fn:1] note", b"\\begin{a}",
];

/// Pieces of heading lines, and of lines that just are none.
#[rustfmt::skip]
pub const HEADING_PIECES: &[&[u8]] = &[
    b"\n", b"\n", b"\n", b"\n", b"\n", b" \n", b"\t\n", b"\r\n", b" \t\r\n", b"*", b"**", b"* ", b"* ", b"** ", b"*** ",
    b"* a", b"** b c", b"* a \n", b"* \n", b"*\t", b"*\r\n", b"*\n", b"*a", b" * ", b"\t* ", b" ", b"  ", b"\t", b"\r", b"a", b"a",
    b"b c", b"x\n", b"\x00", b"\x0B", b"\x0C", b"\xFF", b"\x0C\n", b"\xA0\n", b" * a\n", b"****************",
    b"*  \ta", b"** \r b\n", b"* a \t b", b"** a\t \r\n", b"*  \t\r\n",
];

/// What a stream in some state is handed next.
#[rustfmt::skip]
pub const NEXT_PIECES: &[&[u8]] = &[
    b"", b"\n", b"\n", b"a\n", b" ", b" \n", b" a", b" a\n", b"*", b"*", b"* a\n", b"** b\n* c", b"\t\n", b"\r", b"a", b"x\n* d \n",
];

/// Numbers of a state that are large, or around where an unsigned difference wraps.
pub const STATE_NUMBERS: &[&usize] = &[
    &65_535,
    &65_536,
    &65_537,
    &65_538,
    &131_072,
    &0x7FFF_FFFF,
    &0x8000_0000,
    &0xFFFF_FFFE,
    &0xFFFF_FFFF,
];

#[rustfmt::skip]
pub const TITLES: &[&[u8]] = &[
    b"A", b"", b"TODO b :tag:", b"\r", b" ", b"* c", b":PROPERTIES:",
];

/// Bodies with a planning word, of which one is a planning line.
#[rustfmt::skip]
pub const PLANNING_BODIES: &[&[u8]] = &[
    b"CLOSED:", b"DEADLINE: <2026-02-03>", b"SCHEDULED: x", b"SCHEDULED:x CLOSED: y", b"CLOSED",
    b"DEADLINES: x", b"CLOSED :", b"XDEADLINE: x", b"CLOSED: <%%(diary-float t 4 2)>",
];

#[rustfmt::skip]
pub const PLANNING_WORDS: &[&[u8]] = &[
    b"CLOSED:", b"DEADLINE:", b"SCHEDULED:",
];

/// Words that just miss.
#[rustfmt::skip]
pub const OTHER_WORDS: &[&[u8]] = &[
    b"CLOSED", b"DEADLINES:", b"XSCHEDULED:", b"CLOCK:", b"CLOSED :", b"CLOSED::", b"", b"x",
];

#[rustfmt::skip]
pub const BRACKETS: &[&[u8]] = &[
    b"<>", b"[]",
];

/// What joins two dates, and what just does not.
#[rustfmt::skip]
pub const JOINTS: &[&[u8]] = &[
    b"--", b"--", b"--", b"--", b"--", b"--", b"--", b"--", b"--", b"--", b"--", b"--", b"--",
    b"--", b"--", b"--", b"--", b"--", b"-", b"---", b"", b" --", b"-- ", b"--\n",
];

/// Dates, and two that just miss.
#[rustfmt::skip]
pub const DATES: &[&[u8]] = &[
    b"2026-01-05", b"2024-02-30", b"0000-99-00", b"9999-12-31", b"2026-01-05", b"2024-02-29",
    b"2026-01-05", b"1999-03-31", b"2026-01-05", b"2000-00-77", b"2026-01-05", b"0001-01-01",
    b"2026-1-05", b"02026-01-05",
];

/// Day names, and some that just miss.
#[rustfmt::skip]
pub const DAY_NAMES: &[&[u8]] = &[
    b"Mon", b"Tue", b"x", b".", b"D\xC3\xA9c", b"<", b"[", b"a:b/", b"\x0B", b"Wed", b"Thu", b"\xFF",
    b"M0n", b"Mon-", b"+",
];

/// Times and time ranges, and some that just miss.
#[rustfmt::skip]
pub const TIMES: &[&[u8]] = &[
    b"9:05", b"09:05", b"23:59", b"99:77", b"0:00", b"9:05-10:30", b"10:30-9:05", b"00:00-99:99",
    b"9:05", b"9:05-10:30", b"19:05", b"1:00-2:00", b"009:05", b"9:5", b"9:05-", b"9:05--10:30",
];

/// Marks of repeaters, and some that just miss.
#[rustfmt::skip]
pub const REPEAT_MARKS: &[&[u8]] = &[
    b"+", b"++", b".+", b"+", b"++", b".+", b"+", b"++", b".+", b"+", b"++", b".+", b"+++", b".",
];

/// Marks of delays, and one that just misses.
#[rustfmt::skip]
pub const DELAY_MARKS: &[&[u8]] = &[
    b"-", b"--", b"-", b"--", b"-", b"--", b"-", b"--", b"-", b"--", b"---",
];

/// Units in both cases, and one that is none.
pub const UNITS: &[u8] = b"hdwmyHDWMYhdwmyHDWMYhdwmyx";

/// One or more blank bytes.
#[rustfmt::skip]
pub const GAPS: &[&[u8]] = &[
    b"\t", b"\r", b"  ", b" \t\r", b"\r\r ",
];

/// No blank bytes.
#[rustfmt::skip]
pub const NO_GAPS: &[&[u8]] = &[
    b"", b"\n", b"\x0B", b",",
];

/// What a damaged byte of a stamp becomes.
pub const STAMP_BYTES: &[u8] = b"0123456789-+.:/<>[] \t\r\nhdwmyHxA%\xFF\x0B";

#[rustfmt::skip]
pub const PROPERTY_NAMES: &[&[u8]] = &[
    b"VIN", b"REQUEST", b"a", b"a:b", b":", b"END", b"\xC3\xA9", b"[", NAME_OF_64, NAME_OF_65,
];

/// What may follow the name in a node property line.
#[rustfmt::skip]
pub const PROPERTY_ENDS: &[&[u8]] = &[
    b":", b":", b":", b":", b": 7", b": 7", b": 7 8", b":\t7", b":\r7", b": :", b"+:", b"+: 9",
    b"++: 9", b"", b":7",
];

/// Indentations, and two with byte 13, which does not indent.
#[rustfmt::skip]
pub const INDENTATIONS: &[&[u8]] = &[
    b" ", b"\t", b"  \t", b"\r", b" \r",
];

/// What may stand after a body; the last two belong to it.
#[rustfmt::skip]
pub const TAILS: &[&[u8]] = &[
    b" ", b"\t", b"\r", b" \t\r", b" x", b"\x0C",
];

#[rustfmt::skip]
pub const OPENERS: &[&[u8]] = &[
    b":a:\n", b"#+begin_a\n", b"#+begin_src\n", b":PROPERTIES:\n", b"\n",
];

#[rustfmt::skip]
pub const CLOSERS: &[&[u8]] = &[
    b":END:\n", b"#+end_a\n", b"#+end_src\n", b"* A\n", b"",
];

/// Openers and closers; the last is a heading line.
#[rustfmt::skip]
pub const MARKERS: &[&[u8]] = &[
    b"#+begin_a\n", b"#+end_a\n", b"#+begin_b\n", b"#+end_b\n", b"#+begin_src\n", b"#+end_src\n",
    b":a:\n", b":END:\n", b"\n", b"x\n", b"* A\n",
];

/// Lines that upset a nest of blocks.
#[rustfmt::skip]
pub const ODD_LINES: &[&[u8]] = &[
    b":a:\n", b"#+begin_src\n", b"* A\n", b"text\n", b"\n", b"#+end_b3\n",
];

/// What stands innermost in a nest of blocks.
#[rustfmt::skip]
pub const INNERMOST: &[&[u8]] = &[
    b"", b"text\n", b":a:\n:END:\n", b"#+begin_src\n#+end_src\n", b"#+begin_a\n",
];

/// First headings of defaults, some with text before them, and two that just miss.
#[rustfmt::skip]
pub const HOUSE_HEADINGS: &[&[u8]] = &[
    b"* House\n", b"* House\n", b"* \n", b"*** House\n", b"x\n* House\n", b"\n\n** House\n",
    b"*House\n", b" * House\n",
];

/// What may stand between that heading line and `:PROPERTIES:`; the last two do not belong there.
#[rustfmt::skip]
pub const UNDER_HOUSE_HEADINGS: &[&[u8]] = &[
    b"", b"", b"", b"", b"", b"", b"SCHEDULED: <2026-01-05>\n", b"\n", b"x\n",
];

/// Names in defaults: keys of orders, the two that are never taken, some that are nearly these, and
/// one that is too long for a key.
#[rustfmt::skip]
pub const HOUSE_NAMES: &[&[u8]] = &[
    b"VIN", b"vin", b"REQUEST", b"Request", b"VIN2", b"REQUESTS", b"FUEL", b"a", b"A", b"a:b", b":",
    b"END", b"\xC3\xA9", b"nowhere", NAME_OF_64, NAME_OF_65,
];

/// What follows the name.
#[rustfmt::skip]
pub const HOUSE_VALUES: &[&[u8]] = &[
    b": 1\n", b": 98 ron \n", b":\n", b"+: 2\n", b":\t3\r\n",
];

/// The ends of a drawer; those after the first four are wrong ones.
#[rustfmt::skip]
pub const HOUSE_CLOSERS: &[&[u8]] = &[
    b":END:\n", b":END:\n", b":END:\n", b":end:\n", b"\n:END:\n", b"x\n:END:\n", b"",
];

/// What may stand before lists.
#[rustfmt::skip]
pub const LIST_FRONTS: &[&[u8]] = &[
    b"", b"", b"", b"* A\n", b"* A\nCLOSED: [2026-01-05]\n", b"# note\n", b"text\n", b"#+begin_quote\n",
    b":d:\n", b"* A\n:PROPERTIES:\n:VIN: 7\n:END:\n", b"* A\n:PROPERTIES:\n", b"\n", b"-\n", b":PROPERTIES:\n:END:\n",
];

/// What may stand after lists; some are closers of what stands far above.
#[rustfmt::skip]
pub const LIST_ENDS: &[&[u8]] = &[
    b"", b"", b"", b"#+end_quote\n", b"  #+end_quote\n", b":END:\n", b"    :END:\nx\n", b"#+end_a\n", b"* B\n",
    b"text\n", b"\n", b"\n\n", b"\n* B\n", b"\ntext\n", b"-", b"  -", b"-----\n",
];

#[rustfmt::skip]
pub const BULLETS: &[&[u8]] = &[
    b"-", b"-", b"-", b"-", b"+", b"+", b"*", b"1.", b"2)", b"0123456789.", b"a.", b"B)", b"-", b"1)", b"z)", b"19.",
    b"90)",
];

/// What just misses.
#[rustfmt::skip]
pub const NO_BULLETS: &[&[u8]] = &[
    b"--", b"1", b"ab.", b"1a)", b"-----", b"----", b"\r-", b"**", b".", b"(1)", b"\xE9.", b"12a)", b"1-.", b"{.",
    b"`)",
];

/// What may follow a bullet; the last two make none of it.
#[rustfmt::skip]
pub const AFTER_BULLETS: &[&[u8]] = &[
    b" ", b" ", b" ", b" ", b" ", b" ", b" ", b" ", b"  ", b"\t", b"\r", b" \r\t", b"", b"\x0B",
];

/// Counter sets, and some that just miss.
#[rustfmt::skip]
pub const COUNTER_SETS: &[&[u8]] = &[
    b"[@5] ", b"[@a] ", b"[@Z]\t", b"[@012]  ", b"[@5]", b"[@] ", b"[@ab] ", b"[@5 ] ", b"[5] ", b"[@1a] ", b"[@{] ",
];

/// Check boxes, and some that just miss.
#[rustfmt::skip]
pub const CHECK_BOXES: &[&[u8]] = &[
    b"[ ] ", b"[X] ", b"[x]\r", b"[-] ", b"[\t]  ", b"[\r] ", b"[X]", b"[] ", b"[Y] ", b"[  ] ",
];

/// What may stand on an item's first line; most looks like something else.
#[rustfmt::skip]
pub const ITEM_TEXTS: &[&[u8]] = &[
    b"part", b"part", b"part", b"part", b"a :: b", b"| r", b"# c", b": f", b"#+k: v", b"-----", b"- b", b"1. b",
    b"#+begin_a", b"#+begin_src", b":d:", b":END:", b"#+end_a", b"* b", b"CLOSED: [2026-01-05]", b"[", b"",
    b"[@5] b", b"[X] b",
];

#[rustfmt::skip]
pub const LINE_ENDS: &[&[u8]] = &[
    b"\n", b"\n", b"\n", b"\n", b"\n", b"\n", b"\n", b"\r\n", b" \n",
];

/// What may stand between items.
#[rustfmt::skip]
pub const ITEM_GAPS: &[&[u8]] = &[
    b"", b"", b"", b"", b"", b"", b"\n", b"\n", b"\n", b" \n", b"\r\n", b"\n\n", b" \n\t\n",
];

/// Openers of blocks, each with its closer.
#[rustfmt::skip]
pub const BLOCK_PAIRS: &[&[&[u8]; 2]] = &[
    &[b"#+begin_a", b"#+end_a"], &[b"#+BEGIN_src lua", b"#+end_SRC"], &[b"#+begin_quote", b"#+end_quote"],
    &[b"#+begin_example", b"#+end_example"],
];

/// Openers of drawers, each with its closer.
#[rustfmt::skip]
pub const DRAWER_PAIRS: &[&[&[u8]; 2]] = &[
    &[b":d:", b":END:"], &[b":PROPERTIES:", b":end:"], &[b":LOG:", b":END: "],
];

/// Bodies of lines in and around lists.
#[rustfmt::skip]
pub const HEAP_BODIES: &[&[u8]] = &[
    b"text", b"text", b"- a", b"-", b"+ b", b"1. c", b"* d", b"", b"", b":d:", b":END:", b"#+begin_a", b"#+end_a",
    b"#+begin_src", b"#+end_src", b"#+begin_quote", b"#+end_quote", b"| r", b"#+TBLFM: x", b"# c", b": f", b"-----",
    b"#+k: v", b"\rx", b":PROPERTIES:", b":VIN: 7",
];
