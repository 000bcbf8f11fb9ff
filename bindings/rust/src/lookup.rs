use std::ops::Range;

use crate::ffi::{self, number, Part};
use crate::lines::line_of;
use crate::LookupRefusal;

/// Finds where the value of a property stands. The heading is the one whose line
/// starts at byte `at`, a heading record's `span.start`; only its own property
/// drawer counts. The key's ASCII letters match in either case. The value may be
/// empty.
///
/// # Errors
///
/// The first that holds of [`TooLong`](LookupRefusal::TooLong),
/// [`BadKey`](LookupRefusal::BadKey), [`NoHeading`](LookupRefusal::NoHeading);
/// [`BlankFirst`](LookupRefusal::BlankFirst),
/// [`NotClosed`](LookupRefusal::NotClosed),
/// [`NotProperty`](LookupRefusal::NotProperty) or
/// [`NoDrawer`](LookupRefusal::NoDrawer), which exclude one another; and
/// [`NoKey`](LookupRefusal::NoKey).
pub fn lookup(text: &[u8], at: usize, key: &[u8]) -> Result<Range<usize>, LookupRefusal> {
    answer(text, ffi::lookup(text, at, key))
}

/// What a lookup's numbers mean. The text is the one whose answer they are.
pub(crate) fn answer(text: &[u8], part: Part) -> Result<Range<usize>, LookupRefusal> {
    match part.number {
        number::OK => Ok(part.start..part.end),
        number::TOO_LONG => Err(LookupRefusal::TooLong),
        number::NO_HEADING => Err(LookupRefusal::NoHeading),
        number::NO_DRAWER => Err(LookupRefusal::NoDrawer),
        number::NO_KEY => Err(LookupRefusal::NoKey),
        number::BAD_KEY => Err(LookupRefusal::BadKey),
        number::BLANK_FIRST => Err(LookupRefusal::BlankFirst),
        number::NOT_PROPERTY => Err(not_property(text, part.further)),
        number::NOT_CLOSED => Err(LookupRefusal::NotClosed),
        other => unreachable!("a lookup answers 0, 1 or 4 to 10, not {other}"),
    }
}

/// The refusal for a line that starts at this byte.
fn not_property(text: &[u8], start: usize) -> LookupRefusal {
    let line = line_of(text, start);
    LookupRefusal::NotProperty { start, line }
}

/// The value that [`lookup`] finds, itself.
///
/// # Errors
///
/// As for [`lookup`], in the same turn.
pub fn property<'t>(text: &'t [u8], at: usize, key: &[u8]) -> Result<&'t [u8], LookupRefusal> {
    lookup(text, at, key).map(|part| &text[part])
}
