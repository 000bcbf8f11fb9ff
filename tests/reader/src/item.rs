//! Document 02, order 4: the line that begins an item.

use crate::line::{is_blank_byte, Line};

/// What an item's first line tells.
#[derive(Clone, Copy, Debug)]
pub struct ItemLine {
    /// It has "a number or letter bullet".
    pub is_ordered: bool,
    /// "its inner span runs from after bullet, counter set, check box (as present) and the blank
    /// bytes after them".
    pub inner_start: usize,
}

/// The line begins an item: it has a bullet, "then a blank byte or line end".
pub fn item_line(line: &Line) -> Option<ItemLine> {
    let bullet = bullet(line)?;
    let after_bullet = after_mark(line.body, bullet.length)?;
    let after_set = after_mark(after_bullet, counter_set(after_bullet));
    let rest = after_set.unwrap_or(after_bullet);
    let rest = after_mark(rest, check_box(rest)).unwrap_or(rest);
    Some(ItemLine {
        is_ordered: bullet.is_ordered,
        inner_start: match rest.len() {
            0 => line.line_end(),
            length => line.body_span.end - length,
        },
    })
}

struct Bullet {
    length: usize,
    is_ordered: bool,
}

/// "A bullet is `-`, `+`, an indented `*`, or a number or one letter with `.` or `)`".
fn bullet(line: &Line) -> Option<Bullet> {
    match line.body.first()? {
        b'-' | b'+' => return Some(Bullet::of_one_byte()),
        b'*' if line.indentation() > 0 => return Some(Bullet::of_one_byte()),
        _ => {}
    }
    let counter = counter(line.body);
    let marked = matches!(line.body.get(counter), Some(b'.' | b')'));
    (counter > 0 && marked).then_some(Bullet {
        length: counter + 1,
        is_ordered: true,
    })
}

impl Bullet {
    fn of_one_byte() -> Self {
        Bullet {
            length: 1,
            is_ordered: false,
        }
    }
}

/// The length of the number or the one letter that `bytes` start with, else 0.
fn counter(bytes: &[u8]) -> usize {
    match bytes.first() {
        Some(byte) if byte.is_ascii_alphabetic() => 1,
        _ => bytes
            .iter()
            .take_while(|byte| byte.is_ascii_digit())
            .count(),
    }
}

/// The length of the counter set that `bytes` start with, else 0. Source 000: "An instance of the
/// pattern `[@COUNTER]`".
fn counter_set(bytes: &[u8]) -> usize {
    let inside = bytes.strip_prefix(b"[@").unwrap_or_default();
    let counter = counter(inside);
    if counter > 0 && inside.get(counter) == Some(&b']') {
        b"[@".len() + counter + b"]".len()
    } else {
        0
    }
}

/// The length of the check box that `bytes` start with, else 0. Source 000: "A single whitespace
/// character, an `X` character, or a hyphen enclosed by square brackets"; case counts for nothing.
fn check_box(bytes: &[u8]) -> usize {
    match bytes {
        [b'[', b'X' | b'x' | b'-', b']', ..] => 3,
        [b'[', byte, b']', ..] if is_blank_byte(*byte) => 3,
        _ => 0,
    }
}

/// What follows a mark of that length, if it has one, and the blank bytes after it. Such a byte or
/// the line's end must come right after the mark. `bytes` end with the line's body.
fn after_mark(bytes: &[u8], length: usize) -> Option<&[u8]> {
    let rest = &bytes[length..];
    let blank = rest.iter().take_while(|byte| is_blank_byte(**byte)).count();
    let stands_alone = blank > 0 || rest.is_empty();
    (length > 0 && stands_alone).then_some(&rest[blank..])
}
