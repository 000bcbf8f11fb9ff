//! Seeded texts: loose bytes, lines of Org, mutated order books, hostile texts, lists, long texts.

use crate::parts::{add_list, list_text};
use crate::random::Random;
use crate::stamps::{planning_body, stamp};
use crate::words::*;

/// A kind of seeded text.
#[derive(Clone, Copy, Debug, PartialEq, Eq)]
pub enum Class {
    Bytes,
    Lines,
    Mutated,
    Hostile,
    Lists,
    Long,
}

pub const CLASSES: [Class; 6] = [
    Class::Bytes,
    Class::Lines,
    Class::Mutated,
    Class::Hostile,
    Class::Lists,
    Class::Long,
];

/// Texts that every run begins its mutations from.
const SAMPLES: &[&[u8]] = &[
    b"* A\n:PROPERTIES:\n:VIN: 7\n:END:\n\nhi\n",
    b"* A\n\n:PROPERTIES:\n:VIN: 7\n:END:\n",
    b"#+begin_src\n* A\n#+end_src\n",
    b"* A\nSCHEDULED: <2026-01-05>\n:PROPERTIES:\n:VIN: 7\n:a+: 8\n:END:\n| a |\n|-\n#+TBLFM: x\n",
    b"* A\nCLOSED: [2026-01-05 Mon 9:05] DEADLINE: <2026-01-05 +1w/2w -3d>\n:PROPERTIES:\n:END:\n",
    b"\n# note\n:PROPERTIES:\n:a: 1\n:END:\n# note\n#+title: x\n-----\n: fixed\n",
    b"#+begin_quote\n:LOG:\n#+begin_src c\n:END:\n#+end_src\n:END:\n#+end_quote\n",
    b"** B\n:LOG:\n\ntext\n\n:END:\n\n* C\n:PROPERTIES:\n:END: x\n:END:\n:END:\n",
    b"* A\nCLOSED: [2026-01-05]\n\n:PROPERTIES:\n:VIN: 7\n* B\n\n* C\n:PROPERTIES:\n:END:\nx\n:END:\n",
    b"* A\n:PROPERTIES:\n:VIN: 7\n  x\n\n:END:\n* B\n:PROPERTIES:\n:a: 1\n** C\n:END:\n",
    b"- a\n  - b\n\n    c\n\n  - [X] d\n- e\n\n\n1. [@5] f\n2) g\n",
    b"- a\n  #+begin_a\n- x\n\n\n#+end_a\n  | r\n| s\n#+TBLFM: x\n  b\n-\n\n  :d:\n:END:\n\nx\n",
];

const BOOK: &[u8] = include_bytes!("../../books/orders.org");
const SMALL_BOOK: &[u8] = include_bytes!("../../books/double-click.org");

/// A class and a text of it.
pub fn text(random: &mut Random) -> (Class, Vec<u8>) {
    let class = class(random);
    let text = match class {
        Class::Bytes => loose_bytes(random),
        Class::Lines => lines(random),
        Class::Mutated => mutated(random),
        Class::Hostile => hostile(random),
        Class::Lists => list_text(random),
        Class::Long => long(random),
    };
    (class, text)
}

fn class(random: &mut Random) -> Class {
    match random.below(1000) {
        0..210 => Class::Bytes,
        210..540 => Class::Lines,
        540..700 => Class::Mutated,
        700..820 => Class::Hostile,
        820..998 => Class::Lists,
        _ => Class::Long,
    }
}

/// Single bytes and short pieces that rules speak of, with nothing to hold them together.
fn loose_bytes(random: &mut Random) -> Vec<u8> {
    let mut text = Vec::new();
    for _ in 0..random.below(40) {
        text.extend(random.pick(LOOSE_PIECES));
    }
    text
}

fn joined(parts: &[&[u8]]) -> Vec<u8> {
    parts.concat()
}

/// A small book from the grammar below; sometimes its last byte 10 is missing.
fn lines(random: &mut Random) -> Vec<u8> {
    let mut text = Vec::new();
    for _ in 0..random.between(1, 6) {
        add_part(&mut text, random, 3);
    }
    if random.chance(30) {
        text.pop();
    }
    text
}

/// A part of a book: mostly whole shapes, else any line.
fn add_part(text: &mut Vec<u8>, random: &mut Random, levels: usize) {
    match random.below(13) {
        0..3 => add_order(text, random),
        3 => add_property_drawer(text, random),
        4 | 5 if levels > 0 => add_block(text, random, levels - 1),
        6 if levels > 0 => add_drawer(text, random, levels - 1),
        7 => add_table(text, random),
        8 => add_blank_lines(text, random),
        9 => add_list(text, 0, 1, random),
        _ => add_any_line(text, random),
    }
}

/// A heading, perhaps planning, perhaps a property drawer; now and then a line slips between.
fn add_order(text: &mut Vec<u8>, random: &mut Random) {
    add_heading(text, random);
    if random.chance(10) {
        add_slip(text, random);
    }
    if random.chance(50) {
        add_line(text, planning_body(random), random);
    }
    if random.chance(15) {
        add_slip(text, random);
    }
    if random.chance(80) {
        add_property_drawer(text, random);
    }
}

fn add_property_drawer(text: &mut Vec<u8>, random: &mut Random) {
    add_line(text, b":PROPERTIES:".to_vec(), random);
    for _ in 0..random.below(4) {
        if random.chance(5) {
            add_slip(text, random);
        }
        add_line(text, node_property_body(random), random);
    }
    if random.chance(90) {
        add_line(text, b":END:".to_vec(), random);
    }
}

/// What does not belong between the parts of an order: blank lines, any line, planning, a heading.
fn add_slip(text: &mut Vec<u8>, random: &mut Random) {
    match random.below(10) {
        0..4 => add_blank_lines(text, random),
        4..6 => add_any_line(text, random),
        6 | 7 => add_line(text, planning_body(random), random),
        8 => add_heading(text, random),
        _ => {
            add_blank_lines(text, random);
            add_heading(text, random);
        }
    }
}

fn add_block(text: &mut Vec<u8>, random: &mut Random, levels: usize) {
    let name = random.pick(BLOCK_NAMES);
    let opener = joined(&[b"#+begin_", name, random.pick(BLOCK_PARAMETERS)]);
    add_line(text, opener, random);
    for _ in 0..random.below(4) {
        add_part(text, random, levels);
    }
    if random.chance(90) {
        add_line(text, joined(&[b"#+end_", name]), random);
    }
}

fn add_drawer(text: &mut Vec<u8>, random: &mut Random, levels: usize) {
    add_line(text, random.pick(DRAWER_BODIES).to_vec(), random);
    for _ in 0..random.below(4) {
        add_part(text, random, levels);
    }
    if random.chance(90) {
        add_line(text, b":END:".to_vec(), random);
    }
}

fn add_table(text: &mut Vec<u8>, random: &mut Random) {
    for _ in 0..random.between(1, 3) {
        add_line(text, random.pick(ROWS).to_vec(), random);
    }
    for _ in 0..random.below(3) {
        add_line(text, random.pick(FORMULAS).to_vec(), random);
    }
}

fn add_blank_lines(text: &mut Vec<u8>, random: &mut Random) {
    for _ in 0..random.between(1, 2) {
        text.extend(random.pick(BLANK_LINES));
    }
}

fn add_any_line(text: &mut Vec<u8>, random: &mut Random) {
    let body = match random.below(16) {
        0 => stamp(random),
        1 => planning_body(random),
        2 | 3 => node_property_body(random),
        4 | 5 => joined(&[b"#+begin_", random.pick(BLOCK_NAMES)]),
        6 | 7 => joined(&[b"#+end_", random.pick(BLOCK_NAMES)]),
        _ => random.pick(LONE_BODIES).to_vec(),
    };
    add_line(text, body, random);
}

fn add_heading(text: &mut Vec<u8>, random: &mut Random) {
    text.resize(text.len() + random.between(1, 4), b'*');
    text.push(if random.chance(95) { b' ' } else { b'\t' });
    text.extend(random.pick(TITLES));
    text.push(b'\n');
}

fn node_property_body(random: &mut Random) -> Vec<u8> {
    joined(&[
        b":",
        random.pick(PROPERTY_NAMES),
        random.pick(PROPERTY_ENDS),
    ])
}

/// A line with that body: any letter case, some indentation, some blank bytes after.
fn add_line(text: &mut Vec<u8>, mut body: Vec<u8>, random: &mut Random) {
    if random.chance(20) {
        text.extend(random.pick(INDENTATIONS));
    }
    match random.below(100) {
        0..25 => body.make_ascii_lowercase(),
        25..50 => body.make_ascii_uppercase(),
        50..75 => change_letter_case(&mut body, random),
        75..78 => change_as_letters(&mut body),
        _ => {}
    }
    text.extend(body);
    if random.chance(20) {
        text.extend(random.pick(TAILS));
    }
    text.push(b'\n');
}

fn change_letter_case(bytes: &mut [u8], random: &mut Random) {
    for byte in bytes.iter_mut().filter(|byte| byte.is_ascii_alphabetic()) {
        if random.chance(50) {
            *byte ^= 32;
        }
    }
}

/// Changes the last bytes as letter case would be changed, though most are no letters.
fn change_as_letters(bytes: &mut [u8]) {
    for byte in bytes.iter_mut().rev().take(2) {
        *byte ^= 32;
    }
}

/// A sample, a piece of an order book or, seldom, a whole one, changed in a few places.
fn mutated(random: &mut Random) -> Vec<u8> {
    let mut text = original(random);
    for _ in 0..random.between(1, 6) {
        mutate(&mut text, random);
    }
    text
}

fn original(random: &mut Random) -> Vec<u8> {
    match random.below(400) {
        0 => BOOK.to_vec(),
        1..150 => random.pick(SAMPLES).to_vec(),
        150..200 => SMALL_BOOK.to_vec(),
        200..390 => piece(BOOK, 300, random),
        _ => piece(BOOK, 4000, random),
    }
}

/// Up to `longest` bytes of `book`, from the beginning of some line on.
fn piece(book: &[u8], longest: usize, random: &mut Random) -> Vec<u8> {
    let from = random.below(book.len());
    let line = book[..from].iter().rposition(|byte| *byte == 10);
    let start = line.map_or(0, |newline| newline + 1);
    let end = book.len().min(start + random.between(1, longest));
    book[start..end].to_vec()
}

/// Bytes that a changed byte becomes.
const ORG_BYTES: &[u8] = b" \t\r\n*:#+|-aZ_\xFF<>[]19";

fn mutate(text: &mut Vec<u8>, random: &mut Random) {
    let start = random.below(text.len() + 1);
    let end = text.len().min(start + random.below(12));
    match random.below(7) {
        0 => drop(text.drain(start..end)),
        1 => insert(text, start, text[start..end].to_vec()),
        2 => insert(text, start, random.pick(LONE_BODIES).to_vec()),
        3 => insert(text, start, piece(random.pick(SAMPLES), 40, random)),
        4 => insert(text, start, b"\n".to_vec()),
        5 => drop(text.drain(line_around(text, start))),
        _ if start < text.len() => text[start] = ORG_BYTES[random.below(ORG_BYTES.len())],
        _ => text.truncate(start),
    }
}

fn insert(text: &mut Vec<u8>, at: usize, bytes: Vec<u8>) {
    text.splice(at..at, bytes);
}

/// The line that holds byte `at`.
fn line_around(text: &[u8], at: usize) -> std::ops::Range<usize> {
    let before = text[..at].iter().rposition(|byte| *byte == 10);
    let after = text[at..].iter().position(|byte| *byte == 10);
    before.map_or(0, |newline| newline + 1)..after.map_or(text.len(), |distance| at + distance + 1)
}

/// What no shop writes: openers without closers, deep nesting, many stars.
fn hostile(random: &mut Random) -> Vec<u8> {
    match random.below(5) {
        0 => unclosed(random, 60),
        1 => nested(random),
        2 => stars(random),
        3 => crossed(random),
        _ => repeated(random, 80),
    }
}

/// Openers without closers, perhaps one closer far down.
fn unclosed(random: &mut Random, most: usize) -> Vec<u8> {
    let mixed = random.chance(40);
    let only = random.pick(OPENERS);
    let mut text = Vec::new();
    for _ in 0..random.between(1, most) {
        text.extend(if mixed { random.pick(OPENERS) } else { only });
    }
    text.extend(random.pick(CLOSERS));
    text
}

/// Greater blocks one in the other around the greatest depth, perhaps with a drawer, a verbatim
/// block or a heading line on the way.
fn nested(random: &mut Random) -> Vec<u8> {
    let depth = random.between(28, 40);
    let odd_level = random.below(depth * 2);
    let oddity = random.pick(ODD_LINES);
    let mut text = random.pick(&[b"* A\n".as_slice(), b""]).to_vec();
    for level in 0..depth {
        if level == odd_level {
            text.extend(oddity);
        }
        text.extend(format!("#+begin_b{level}\n").bytes());
    }
    text.extend(random.pick(INNERMOST));
    for level in (0..depth).rev() {
        text.extend(format!("#+end_b{level}\n").bytes());
        if level == odd_level {
            text.extend(random.pick(&[b":END:\n".as_slice(), b"#+end_src\n", b""]));
        }
    }
    text
}

/// Heading lines with up to hundreds of stars.
fn stars(random: &mut Random) -> Vec<u8> {
    let most = random.pick(&[&2, &5, &300]);
    let mut text = Vec::new();
    for _ in 0..random.between(1, 12) {
        text.resize(text.len() + random.between(1, *most), b'*');
        text.extend(random.pick(&[
            b" \n".as_slice(),
            b" A\na\n\n",
            b"\n",
            b" A\n:PROPERTIES:\n:a: 1\n:END:\n",
        ]));
    }
    text
}

/// Openers and closers of few names in any order.
fn crossed(random: &mut Random) -> Vec<u8> {
    let mut text = Vec::new();
    for _ in 0..random.between(2, 30) {
        let choices = MARKERS.len() - usize::from(random.chance(90));
        text.extend(random.pick(&MARKERS[..choices]));
    }
    text
}

/// One line again and again.
fn repeated(random: &mut Random, most: usize) -> Vec<u8> {
    let mut line = Vec::new();
    add_any_line(&mut line, random);
    line.repeat(random.between(1, most))
}

/// Texts near 65,536 bytes, to either side.
fn long(random: &mut Random) -> Vec<u8> {
    let length = 65_536 + random.between(0, 8) - 4;
    let mut text = match random.below(64) {
        0 => unclosed(random, 40_000),
        1 => repeated(random, 60_000),
        2..20 => repeated(random, 1_500),
        20..30 => nested(random),
        30..40 => b"a\n\n".repeat(21_846),
        40..44 => b"* \n".repeat(21_846),
        44..46 => b"|\n".repeat(32_769),
        46 => b"-\n".repeat(32_769),
        47 => list_text(random).repeat(random.between(1, 1_500)),
        48..56 => BOOK.to_vec(),
        _ => Vec::new(),
    };
    while text.len() < length {
        add_part(&mut text, random, 3);
    }
    text.truncate(length);
    text
}
