//! Document 02, order 13: "House defaults."

use crate::line::{lines_of, same_letters};
use crate::lookup::lookup;

/// The answer's number, whose it is, the value's two ends and the further number.
type Answer = (u32, u32, usize, usize, usize);

/// "What comes back is a part of the order text or of the defaults text, and a number, 1 or 2, says
/// which; for a refusal it says whose answer this is."
const OF_THE_ORDER: u32 = 1;
const OF_THE_DEFAULTS: u32 = 2;

/// "No line with that key".
const NO_SUCH_KEY: u32 = 6;

/// Looks `key` up at the heading line that starts at byte `at` of `order`, then in the defaults.
///
/// "Any answer but 6 from the order stands; after 6 it is the defaults' own, [..] but the order's 6
/// for those two keys."
pub fn lookup_with_defaults(order: &[u8], at: usize, defaults: &[u8], key: &[u8]) -> Answer {
    let (number, start, end, further) = lookup(order, at, key);
    if number != NO_SUCH_KEY || is_never_from_defaults(key) {
        return (number, OF_THE_ORDER, start, end, further);
    }
    let (number, start, end, further) = lookup(defaults, first_heading(defaults), key);
    (number, OF_THE_DEFAULTS, start, end, further)
}

/// "`VIN` and `REQUEST`, in any case, are never taken from the defaults."
fn is_never_from_defaults(key: &[u8]) -> bool {
    same_letters(key, b"VIN") || same_letters(key, b"REQUEST")
}

/// Defaults "sit in a second Org text, under its first heading"; "4 where these have no heading": a
/// lookup at byte 0 gives just that, after the number 1 of its own turn.
fn first_heading(defaults: &[u8]) -> usize {
    let lines = lines_of(defaults);
    let heading = lines.iter().find(|line| line.is_heading());
    heading.map_or(0, |line| line.span.start)
}
