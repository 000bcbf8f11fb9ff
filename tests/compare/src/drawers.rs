//! One text against both readers: has a heading a property drawer, and if not, why (document 02,
//! order 2)?

use plain_reader::Record;

use crate::check::{star_places, SMALL};
use crate::subject::{LookupAnswer, LIBRARY};

/// The kind of a heading.
pub const HEADING: u32 = 2;

/// In a small text: the reading has a property drawer under a heading exactly when the lookup has.
pub fn check_drawers(text: &[u8], records: &[Record]) -> Result<(), String> {
    if text.len() > SMALL {
        return Ok(());
    }
    let kinds: Vec<u32> = records.iter().map(|record| record.kind).collect();
    let headings = (0..kinds.len()).filter(|index| kinds[*index] == HEADING);
    for index in headings {
        let at = records[index].start as usize;
        let number = (LIBRARY.lookup)(text, at, b"VIN").0;
        if matches!(number, 0 | 6) != starts_with_drawer(&kinds[index + 1..]) {
            return Err(format!(
                "the reading does not bear out number {number} of the lookup at {at}"
            ));
        }
    }
    Ok(())
}

/// What follows a heading is a section that starts with a property drawer, or with planning and a
/// property drawer.
fn starts_with_drawer(kinds: &[u32]) -> bool {
    kinds.starts_with(&[3, 5]) || kinds.starts_with(&[3, 4, 5])
}

/// Has a lookup met something?
type Meets = fn(&Lookup) -> bool;

/// What a lookup may meet on its way to the drawer; one lookup may meet several.
pub const REASONS: [(&str, Meets); 10] = [
    ("8 under planning", |lookup| {
        lookup.gave(8) && !is_blank(lookup.under(0))
    }),
    ("8 without an end line", |lookup| {
        lookup.gave(8) && lookup.end_lines() == 0
    }),
    ("9 under planning", |lookup| {
        lookup.gave(9) && !is_opener(lookup.under(0))
    }),
    ("9 at a blank line", |lookup| {
        lookup.gave(9) && is_blank(lookup.further_line())
    }),
    ("9 at an indented line", |lookup| {
        lookup.gave(9) && is_indented(lookup.further_line())
    }),
    ("10 under planning", |lookup| {
        lookup.gave(10) && !is_opener(lookup.under(0))
    }),
    ("10 before a heading and an end line", |lookup| {
        lookup.gave(10) && lookup.lines_under().any(is_end_line)
    }),
    ("5 before a heading with an opener", |lookup| {
        lookup.gave(5) && lookup.is_opener_past_heading()
    }),
    ("5 under a line that plans nothing", |lookup| {
        lookup.gave(5) && has_colon(lookup.under(0)) && is_opener(lookup.under(1))
    }),
    ("drawer before another end line", |lookup| {
        (lookup.gave(0) || lookup.gave(6)) && lookup.end_lines() > 1
    }),
];

/// How many lookups met each of `REASONS`.
pub type Met = [usize; REASONS.len()];

/// A lookup and the plain reader's answer.
pub struct Lookup<'t> {
    pub text: &'t [u8],
    pub at: usize,
    pub answer: LookupAnswer,
}

impl<'t> Lookup<'t> {
    /// Counts what the lookup met.
    pub fn count(&self, met: &mut Met) {
        for (count, (_, meets)) in met.iter_mut().zip(REASONS) {
            *count += usize::from(meets(self));
        }
    }

    fn gave(&self, number: u32) -> bool {
        self.answer.0 == number
    }

    /// The lines after the heading line, to the text's end.
    fn lines_under(&self) -> impl Iterator<Item = &'t [u8]> {
        lines_from(self.text, self.at).skip(1)
    }

    /// The line so many lines below the one after the heading line; empty past the text.
    fn under(&self, distance: usize) -> &'t [u8] {
        self.lines_under().nth(distance).unwrap_or_default()
    }

    /// The line that the further number names.
    fn further_line(&self) -> &'t [u8] {
        let (.., further) = self.answer;
        lines_from(self.text, further).next().unwrap_or_default()
    }

    /// How many `:END:` lines stand before the next heading line.
    fn end_lines(&self) -> usize {
        let own = self.lines_under().take_while(|line| !is_heading(line));
        own.filter(|line| is_end_line(line)).count()
    }

    /// Blank lines, then a heading line, and after it `:PROPERTIES:`.
    fn is_opener_past_heading(&self) -> bool {
        let mut lines = self.lines_under().skip_while(|line| is_blank(line));
        is_blank(self.under(0))
            && lines.next().is_some_and(is_heading)
            && lines.next().is_some_and(is_opener)
    }
}

/// The lines from byte `at` on.
fn lines_from(text: &[u8], at: usize) -> impl Iterator<Item = &[u8]> {
    let rest = text.get(at..).unwrap_or_default();
    rest.split_inclusive(|byte| *byte == 10)
}

/// Where the heading lines of a text start.
pub fn headings(text: &[u8]) -> impl Iterator<Item = usize> + '_ {
    star_places(text).filter(|at| is_heading(&text[*at..]))
}

/// The line begins with stars and byte 32.
pub fn is_heading(line: &[u8]) -> bool {
    let stars = line.iter().take_while(|byte| **byte == b'*').count();
    stars > 0 && line.get(stars) == Some(&32)
}

fn is_blank(line: &[u8]) -> bool {
    body(line).is_empty()
}

fn is_indented(line: &[u8]) -> bool {
    matches!(line.first(), Some(32 | 9)) && !is_blank(line)
}

fn is_opener(line: &[u8]) -> bool {
    body(line).eq_ignore_ascii_case(b":PROPERTIES:")
}

fn is_end_line(line: &[u8]) -> bool {
    body(line).eq_ignore_ascii_case(b":END:")
}

/// A colon stands in the body, though not in front.
fn has_colon(line: &[u8]) -> bool {
    let colon = body(line).iter().position(|byte| *byte == b':');
    colon.is_some_and(|place| place > 0)
}

fn body(mut line: &[u8]) -> &[u8] {
    while let [before @ .., 9 | 10 | 13 | 32] = line {
        line = before;
    }
    while let [9 | 32, after @ ..] = line {
        line = after;
    }
    line
}
