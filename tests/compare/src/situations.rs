//! What a lookup with house defaults may meet (document 02, order 13).

use crate::check::property_name;
use crate::drawers::headings;
use crate::subject::{DefaultedAnswer, PLAIN_READER};

/// Has a call met something?
type Meets = fn(&Call) -> bool;

/// What a call may meet; one call may meet several. An answer stands when it is the order's though
/// the defaults have the key.
pub const SITUATIONS: [(&str, Meets); 23] = [
    ("found in the order", |call| call.gave(0, 1)),
    ("empty in the order", |call| {
        call.stands(0) && call.is_empty()
    }),
    ("found in the defaults", |call| call.gave(0, 2)),
    ("VIN withheld", |call| call.withholds(b"VIN")),
    ("vin withheld", |call| call.withholds(b"vin")),
    ("REQUEST withheld", |call| call.withholds(b"REQUEST")),
    ("Request withheld", |call| call.withholds(b"Request")),
    ("1 stands", |call| call.stands(1)),
    ("4 stands", |call| call.stands(4)),
    ("5 stands", |call| call.stands(5)),
    ("7 stands", |call| call.gave(7, 1) && call.is_named()),
    ("8 stands", |call| call.stands(8)),
    ("9 stands", |call| call.stands(9)),
    ("10 stands", |call| call.stands(10)),
    ("1 of the defaults", |call| call.gave(1, 2)),
    ("4 of the defaults", |call| call.gave(4, 2)),
    ("5 of the defaults", |call| call.gave(5, 2)),
    ("6 of the defaults", |call| call.gave(6, 2)),
    ("8 of the defaults", |call| call.gave(8, 2)),
    ("9 of the defaults", |call| call.gave(9, 2)),
    ("10 of the defaults", |call| call.gave(10, 2)),
    ("in a drawer before their first heading", |call| {
        call.is_refused_by_defaults() && call.is_in_front()
    }),
    ("in their second heading's drawer", |call| {
        call.is_refused_by_defaults() && call.is_under(1)
    }),
];

/// How many calls met each of `SITUATIONS`.
pub type Met = [usize; SITUATIONS.len()];

/// The defaults and the key of a call, and the plain reader's answer.
pub struct Call<'t> {
    pub defaults: &'t [u8],
    pub key: &'t [u8],
    pub answer: DefaultedAnswer,
}

impl Call<'_> {
    /// Counts what the call met.
    pub fn count(&self, met: &mut Met) {
        for (count, (_, meets)) in met.iter_mut().zip(SITUATIONS) {
            *count += usize::from(meets(self));
        }
    }

    fn gave(&self, number: u32, whose: u32) -> bool {
        (self.answer.0, self.answer.1) == (number, whose)
    }

    fn is_refused_by_defaults(&self) -> bool {
        self.answer.0 != 0 && self.answer.1 == 2
    }

    fn is_empty(&self) -> bool {
        let (_, _, start, end, _) = self.answer;
        start == end
    }

    /// The order's answer is that number, though the defaults have the key.
    fn stands(&self, number: u32) -> bool {
        self.gave(number, 1) && self.is_under(0)
    }

    /// The order's 6 for that very key, though the defaults have it.
    fn withholds(&self, key: &[u8]) -> bool {
        self.key == key && self.stands(6)
    }

    /// The defaults have the key under the heading of that place among theirs.
    fn is_under(&self, place: usize) -> bool {
        let mut headings = headings(self.defaults).skip(place);
        let Some(start) = headings.next() else {
            return false;
        };
        let end = headings.next().unwrap_or(self.defaults.len());
        has_key(&self.defaults[start..end], self.key)
    }

    /// A drawer at the very front of the defaults has the key: it would be a heading's, stood one
    /// before it.
    fn is_in_front(&self) -> bool {
        let end = headings(self.defaults).next();
        let front = &self.defaults[..end.unwrap_or(self.defaults.len())];
        has_key(&[b"* \n", front].concat(), self.key)
    }

    /// A line of the defaults has that name, which may be a bad key.
    fn is_named(&self) -> bool {
        let mut lines = self.defaults.split(|byte| *byte == 10);
        !self.key.is_empty() && lines.any(|line| property_name(line) == self.key)
    }
}

/// The heading at the front of the text has the key.
fn has_key(text: &[u8], key: &[u8]) -> bool {
    (PLAIN_READER.lookup)(text, 0, key).0 == 0
}
