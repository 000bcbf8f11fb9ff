//! Document 02, order 1: "A planning line must be dates all through."

use crate::line::{heading_line_starts, is_blank_byte, lines_of, starts_with_letters};
use crate::numbers::{StampNumbers, NO_STAMP};
use crate::stamp::{stamp_of, Stamp};
use crate::LONGEST_TEXT;

/// The keywords, in the order of the answer.
const KEYWORDS: [&[u8]; 3] = [b"CLOSED", b"DEADLINE", b"SCHEDULED"];

/// The planning of the heading whose line starts at byte `at`: the answer's number, and the stamp of
/// each keyword.
///
/// 1 is tried before 4. "When a keyword is repeated in a planning element, the last instance of it
/// has priority."
pub fn planning(text: &[u8], at: usize) -> (u32, [StampNumbers; 3]) {
    let mut stamps = [NO_STAMP; 3];
    if text.len() > LONGEST_TEXT {
        return (1, stamps);
    }
    if !heading_line_starts(text, at) {
        return (4, stamps);
    }
    for (keyword, stamp) in parts_under(&text[at..]) {
        stamps[keyword] = stamp.numbers();
    }
    (0, stamps)
}

/// The parts of the planning line right after the first line of `text`; none where there is no such
/// line.
fn parts_under(text: &[u8]) -> Vec<(usize, Stamp)> {
    let mut lines = text.split_inclusive(|byte| *byte == 10);
    let second = lines.nth(1).unwrap_or_default();
    let line = lines_of(second);
    let parts = line.first().and_then(|line| planning_parts(line.body));
    parts.unwrap_or_default()
}

/// The keyword's place and the stamp of each part, when the body is a planning line's: "one or more
/// `KEYWORD: TIMESTAMP` parts, one or more blank bytes after each colon and between parts, and
/// nothing else".
pub fn planning_parts(body: &[u8]) -> Option<Vec<(usize, Stamp)>> {
    let mut parts = Vec::new();
    let mut rest = body;
    loop {
        let (keyword, after_colon) = keyword_of(rest)?;
        let bracketed = after_blank_bytes(after_colon)?;
        let (stamp, length) = stamp_of(bracketed)?;
        parts.push((keyword, stamp));
        if bracketed.len() == length {
            return Some(parts);
        }
        rest = after_blank_bytes(&bracketed[length..])?;
    }
}

/// Which keyword and colon `bytes` start with, and what follows them.
fn keyword_of(bytes: &[u8]) -> Option<(usize, &[u8])> {
    let starts = |keyword: &&[u8]| {
        starts_with_letters(bytes, keyword) && bytes.get(keyword.len()) == Some(&b':')
    };
    let place = KEYWORDS.iter().position(starts)?;
    Some((place, &bytes[KEYWORDS[place].len() + 1..]))
}

/// What follows one or more blank bytes.
fn after_blank_bytes(bytes: &[u8]) -> Option<&[u8]> {
    let blank = bytes.iter().take_while(|byte| is_blank_byte(**byte));
    let count = blank.count();
    (count > 0).then_some(&bytes[count..])
}
