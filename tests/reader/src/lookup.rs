//! Document 01, "Numbers of an answer": the lookup; document 02, order 2: "Say why the drawer isn't
//! one."

use crate::line::{heading_line_starts, is_blank_byte, lines_of, same_letters, Line, Span};
use crate::planning::planning_parts;
use crate::rules::{is_end_line, is_property_drawer_opener, node_property};
use crate::{LONGEST_KEY, LONGEST_TEXT};

/// The answer's number, the value's two ends and the further number.
type Answer = (u32, usize, usize, usize);

/// Looks `key` up at the heading line that starts at byte `at`.
///
/// "Lookup tries 1 (empty part too), 7, 4, 5, 6", and "8, 10, 9, 5 replace 5 in its turn".
pub fn lookup(text: &[u8], at: usize, key: &[u8]) -> Answer {
    if let Some(number) = refused_anywhere(text, key) {
        return refusal(number);
    }
    if !heading_line_starts(text, at) {
        return refusal(4);
    }
    let lines = lines_of(text);
    let heading = lines.iter().position(|line| line.span.start == at);
    let after = heading.map_or(&[][..], |heading| &lines[heading + 1..]);
    answer_under(after, key)
}

/// The lookup at each heading line in turn.
pub fn lookup_at_each_heading(text: &[u8], key: &[u8]) -> Vec<Answer> {
    let refused = refused_anywhere(text, key);
    let lines = lines_of(text);
    let headings = (0..lines.len()).filter(|index| lines[*index].is_heading());
    headings
        .map(|heading| match refused {
            Some(number) => refusal(number),
            None => answer_under(&lines[heading + 1..], key),
        })
        .collect()
}

/// 1 and 7, which no place in the text changes.
fn refused_anywhere(text: &[u8], key: &[u8]) -> Option<u32> {
    if text.len() > LONGEST_TEXT {
        return Some(1);
    }
    is_bad_key(key).then_some(7)
}

/// The answer at a heading line, by the lines after it.
fn answer_under(after: &[Line], key: &[u8]) -> Answer {
    let under = lines_up_to_heading(after);
    match property_lines(lines_from_place(under)) {
        Err(refusal) => refusal,
        Ok(properties) => match value_of(properties, key) {
            Some(value) => (0, value.start, value.end, 0),
            None => refusal(6),
        },
    }
}

/// "The empty part of a refusal is at byte 0." The further number is for 9, "else 0".
fn refusal(number: u32) -> Answer {
    (number, 0, 0, 0)
}

/// "A bad key is empty, over 64 bytes, holds a blank byte or byte 10, or ends in `+`."
pub fn is_bad_key(key: &[u8]) -> bool {
    let forbidden = |byte: &u8| is_blank_byte(*byte) || *byte == 10;
    key.is_empty() || key.len() > LONGEST_KEY || key.iter().any(forbidden) || key.ends_with(b"+")
}

/// The lines before the next heading line.
fn lines_up_to_heading<'l, 't>(lines: &'l [Line<'t>]) -> &'l [Line<'t>] {
    let next = lines.iter().position(Line::is_heading);
    &lines[..next.unwrap_or(lines.len())]
}

/// "The place is the line after the heading line or its planning line."
fn lines_from_place<'l, 't>(under: &'l [Line<'t>]) -> &'l [Line<'t>] {
    match under {
        [first, after @ ..] if planning_parts(first.body).is_some() => after,
        _ => under,
    }
}

/// The lines between opener and closer of the property drawer that begins with the first of `lines`;
/// else the refusal: 8, 10, 9 or 5, which "exclude one another".
fn property_lines<'l, 't>(lines: &'l [Line<'t>]) -> Result<&'l [Line<'t>], Answer> {
    if is_drawer_after_blank_lines(lines) {
        return Err(refusal(8));
    }
    let Some(after) = after_opener(lines) else {
        return Err(refusal(5));
    };
    let Some(closer) = after.iter().position(is_end_line) else {
        return Err(refusal(10));
    };
    let between = &after[..closer];
    match between.iter().find(|line| node_property(line).is_none()) {
        Some(other) => Err((9, 0, 0, other.span.start)),
        None => Ok(between),
    }
}

/// "8 when the next non-blank line from the place on is `:PROPERTIES:` but blank lines come first".
fn is_drawer_after_blank_lines(lines: &[Line]) -> bool {
    let next = lines.iter().position(|line| !line.is_blank());
    next.is_some_and(|next| next > 0 && is_property_drawer_opener(&lines[next]))
}

/// The lines after `:PROPERTIES:`, when that is the first line.
fn after_opener<'l, 't>(lines: &'l [Line<'t>]) -> Option<&'l [Line<'t>]> {
    let (first, after) = lines.split_first()?;
    is_property_drawer_opener(first).then_some(after)
}

/// The value on the first line with that key, case ignored.
fn value_of(properties: &[Line], key: &[u8]) -> Option<Span> {
    let mut found = properties.iter().filter_map(node_property);
    let line = found.find(|property| same_letters(property.name, key));
    line.map(|property| property.value)
}
