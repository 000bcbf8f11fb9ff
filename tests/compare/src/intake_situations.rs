//! What an intake call may meet (document 02, order 6).

use std::cell::OnceCell;

use plain_reader::{lookup_at_each_heading, write_sheet, Order, LONGEST_TEXT};

use crate::calls::Book;
use crate::check::property_name;
use crate::drawers::headings;
use crate::run_promise::Added;
use crate::subject::{IntakeAnswer, LookupAnswer};

/// Has a call met something?
type Meets = fn(&Call) -> bool;

/// What a call may meet; one call may meet several. What the book has by hand stood in it before the
/// run.
pub const SITUATIONS: [(&str, Meets); 74] = [
    ("into an empty book", |call| call.gave(0) && call.used == 0),
    ("byte 10 added", |call| call.gave(0) && call.lacks_newline()),
    ("no byte 10 added", |call| {
        call.gave(0) && call.used > 0 && !call.lacks_newline()
    }),
    ("after a byte 13", |call| {
        call.gave(0) && call.text.ends_with(b"\r")
    }),
    ("keys in other letters", |call| {
        call.gave(0) && !call.has_key(b"REQUEST") && !call.has_key(b"VIN")
    }),
    ("VIN before REQUEST", |call| {
        call.gave(0) && call.is_vin_first()
    }),
    ("request past the bytes in use", |call| call.is_past_use()),
    ("accepted though refused before", |call| {
        call.gave(0) && call.is_of(call.refused)
    }),
    ("12", |call| call.gave(12)),
    ("12 empty", |call| call.gave(12) && call.buffer.is_empty()),
    ("13", |call| call.gave(13)),
    ("14", |call| call.gave(14)),
    ("15", |call| call.gave(15)),
    ("17 no REQUEST", |call| {
        call.gave(17) && call.value(b"REQUEST").is_none()
    }),
    ("17 empty REQUEST", |call| {
        call.gave(17) && call.value(b"REQUEST") == Some(b"")
    }),
    ("17 no VIN", |call| {
        call.gave(17) && call.request().is_some() && call.value(b"VIN").is_none()
    }),
    ("17 empty VIN", |call| {
        call.gave(17) && call.request().is_some() && call.value(b"VIN") == Some(b"")
    }),
    ("18 over the buffer", |call| {
        call.gave(18) && call.used <= LONGEST_TEXT
    }),
    ("18 by one byte", |call| {
        call.gave(18) && call.used == call.room + 1
    }),
    ("18 over 65,536 in the buffer", |call| {
        call.gave(18) && call.used <= call.room
    }),
    ("18 far over", |call| {
        call.gave(18) && call.used > usize::MAX - 60
    }),
    ("double click", |call| call.is_double_click()),
    ("double click, other VIN", |call| {
        call.is_double_click() && call.is_other_vin()
    }),
    ("double click after another request", |call| {
        call.is_double_click() && call.earlier.len() > 1
    }),
    ("seen by hand", |call| call.is_by_hand(|_| true)),
    ("by hand in other letters", |call| {
        call.is_by_hand(|hit| hit.name.eq_ignore_ascii_case(b"REQUEST") && hit.name != b"REQUEST")
    }),
    ("by hand with plus", |call| {
        call.is_by_hand(|hit| hit.has_plus)
    }),
    ("by hand, not at the first heading", |call| {
        call.is_by_hand(|hit| hit.index > 0)
    }),
    ("by hand at two stars or more", |call| {
        call.is_by_hand(|hit| hit.stars > 1)
    }),
    ("by hand under planning", |call| {
        call.is_by_hand(|hit| hit.is_planned)
    }),
    ("by hand, no byte 10 at the end", |call| {
        call.is_by_hand(|_| true) && call.lacks_newline()
    }),
    ("by hand at two headings", |call| {
        call.is_by_hand(|_| true) && call.hits().len() > 1
    }),
    ("by hand after an order added", |call| {
        call.is_by_hand(|_| true) && !call.earlier.is_empty()
    }),
    ("not seen in other letters", |call| {
        call.is_unlike(|value, request| value.eq_ignore_ascii_case(request))
    }),
    ("not seen as a longer value", |call| {
        call.is_unlike(|value, request| value.len() > request.len() && value.starts_with(request))
    }),
    ("not seen as a shorter value", |call| {
        call.is_unlike(|value, request| !value.is_empty() && request.starts_with(value))
    }),
    ("not seen on a second line", |call| call.is_hidden(0)),
    ("not seen without a drawer", |call| call.is_hidden(5)),
    ("not seen after blank lines", |call| call.is_hidden(8)),
    ("not seen with a foreign line", |call| call.is_hidden(9)),
    ("not seen in an open drawer", |call| call.is_hidden(10)),
    ("65,536 bytes, byte 10 added", |call| {
        call.gave(0) && call.answer.1 == LONGEST_TEXT && call.lacks_newline()
    }),
    ("65,536 bytes, none added", |call| {
        call.gave(0) && call.answer.1 == LONGEST_TEXT && !call.lacks_newline()
    }),
    ("65,537 bytes, byte 10 added", |call| {
        call.gave(1) && call.need() == Some(LONGEST_TEXT + 1) && call.lacks_newline()
    }),
    ("65,537 bytes, none added", |call| {
        call.gave(1) && call.need() == Some(LONGEST_TEXT + 1) && !call.lacks_newline()
    }),
    ("65,536 in use", |call| {
        call.gave(1) && call.used == LONGEST_TEXT
    }),
    ("room exact, byte 10 added", |call| {
        call.gave(0) && call.answer.1 == call.room && call.lacks_newline()
    }),
    ("room exact, none added", |call| {
        call.gave(0) && call.answer.1 == call.room && !call.lacks_newline()
    }),
    ("a byte short, byte 10 added", |call| {
        call.is_short_by_one() && call.lacks_newline()
    }),
    ("a byte short, none added", |call| {
        call.is_short_by_one() && !call.lacks_newline()
    }),
    ("16 in use is the buffer", |call| {
        call.gave(16) && call.used == call.room
    }),
    ("13 before 17", |call| call.gave(13) && call.holds_17()),
    ("14 before 17", |call| call.gave(14) && call.holds_17()),
    ("15 before 17", |call| call.gave(15) && call.holds_17()),
    ("12 before 18", |call| call.gave(12) && call.holds_18()),
    ("13 before 18", |call| call.gave(13) && call.holds_18()),
    ("14 before 18", |call| call.gave(14) && call.holds_18()),
    ("15 before 18", |call| call.gave(15) && call.holds_18()),
    ("17 before 18", |call| call.gave(17) && call.holds_18()),
    ("13 before 19", |call| call.gave(13) && call.holds_19()),
    ("14 before 19", |call| call.gave(14) && call.holds_19()),
    ("15 before 19", |call| call.gave(15) && call.holds_19()),
    ("17 before 19", |call| call.gave(17) && call.holds_19()),
    ("18 over the buffer before 19", |call| {
        call.gave(18) && call.used > call.room && call.holds_19()
    }),
    ("18 over 65,536 before 19", |call| {
        call.gave(18) && call.used <= call.room && call.has_line_with_request()
    }),
    ("12 before 1", |call| call.gave(12) && call.is_full()),
    ("13 to 15 before 1", |call| {
        matches!(call.answer.0, 13..=15) && call.is_full()
    }),
    ("17 before 1", |call| call.gave(17) && call.is_full()),
    ("19 before 1", |call| {
        call.gave(19) && call.need() > Some(LONGEST_TEXT)
    }),
    ("12 to 15 before 16", |call| {
        matches!(call.answer.0, 12..=15) && call.used == call.room
    }),
    ("17 before 16", |call| {
        call.gave(17) && call.used <= call.room && call.need() > Some(call.room)
    }),
    ("19 before 16", |call| {
        call.gave(19) && call.need() > Some(call.room)
    }),
    ("1 before 16", |call| {
        call.gave(1) && call.need() > Some(call.room)
    }),
    ("16 where the sheet alone has room", |call| {
        call.gave(16) && call.sheet_length() <= Some(call.room)
    }),
];

/// How many calls met each of `SITUATIONS`.
pub type Met = [usize; SITUATIONS.len()];

/// A call of a run, and the plain reader's answer.
pub struct Call<'r> {
    /// The book before the run.
    first: &'r Book,
    /// The bytes in use before the call; all that are lent when there are more in use than these.
    text: &'r [u8],
    room: usize,
    used: usize,
    buffer: &'r [u8],
    order: Option<Order<'r>>,
    /// What the calls before it added.
    earlier: &'r [Added],
    /// What the refused calls before it did not add.
    refused: &'r [Added],
    answer: IntakeAnswer,
    /// The lookups of `REQUEST` in the text and the length of the sheet, once they were asked for.
    lookups: OnceCell<Vec<LookupAnswer>>,
    sheet_length: OnceCell<Option<usize>>,
}

/// A heading where the request is looked up.
struct Hit<'t> {
    /// Its place among the headings.
    index: usize,
    stars: usize,
    is_planned: bool,
    /// The name on the line of the value, less its plus.
    name: &'t [u8],
    has_plus: bool,
}

impl<'r> Call<'r> {
    /// A call for `buffer` with so many bytes of `book` in use, whose bytes are those after it: the
    /// earlier ones are as they were.
    pub fn new(
        first: &'r Book,
        book: &'r [u8],
        used: usize,
        buffer: &'r [u8],
        [earlier, refused]: [&'r [Added]; 2],
        answer: IntakeAnswer,
    ) -> Self {
        Call {
            first,
            text: &book[..used.min(first.room)],
            room: first.room,
            used,
            buffer,
            order: Order::of(buffer),
            earlier,
            refused,
            answer,
            lookups: OnceCell::new(),
            sheet_length: OnceCell::new(),
        }
    }

    /// Counts what the call met.
    pub fn count(&self, met: &mut Met) {
        for (count, (_, meets)) in met.iter_mut().zip(SITUATIONS) {
            *count += usize::from(meets(self));
        }
    }

    fn gave(&self, number: u32) -> bool {
        self.answer.0 == number
    }

    fn value(&self, key: &[u8]) -> Option<&'r [u8]> {
        self.order.as_ref()?.value(key)
    }

    /// The request, if there is one that is not empty.
    fn request(&self) -> Option<&'r [u8]> {
        let request = self.value(b"REQUEST");
        request.filter(|request| !request.is_empty())
    }

    /// A key in just these letters.
    fn has_key(&self, key: &[u8]) -> bool {
        let order = self.order.as_ref();
        order.is_some_and(|order| order.keys().any(|own| own == key))
    }

    fn is_vin_first(&self) -> bool {
        let keys = self.order.iter().flat_map(|order| order.keys());
        let mut keys = keys.filter(|key| key.len() == 3 || key.len() == 7);
        keys.next()
            .is_some_and(|key| key.eq_ignore_ascii_case(b"VIN"))
    }

    /// The text's last line lacks byte 10.
    fn lacks_newline(&self) -> bool {
        self.text.last().is_some_and(|byte| *byte != 10)
    }

    /// The length of the sheet, of an order that has one but for its length.
    fn sheet_length(&self) -> Option<usize> {
        let worked_out = || match write_sheet(self.buffer, &mut []) {
            (16, length) => Some(length),
            (1, _) => Some(LONGEST_TEXT + 1),
            _ => None,
        };
        *self.sheet_length.get_or_init(worked_out)
    }

    /// The lookup of `REQUEST` at each heading of the text.
    fn lookups(&self) -> &[LookupAnswer] {
        let lookups = || lookup_at_each_heading(self.text, b"REQUEST");
        self.lookups.get_or_init(lookups)
    }

    /// The length of the new book; over 65,536 where the sheet itself is.
    fn need(&self) -> Option<usize> {
        let newline = usize::from(self.lacks_newline());
        Some(self.used.saturating_add(newline + self.sheet_length()?))
    }

    fn is_short_by_one(&self) -> bool {
        self.gave(16) && self.need() == Some(self.room + 1)
    }

    /// No sheet has room in a book of at most 65,536 bytes.
    fn is_full(&self) -> bool {
        !self.holds_18() && self.used > LONGEST_TEXT - b"* \n:PROPERTIES:\n:END:\n".len()
    }

    fn holds_17(&self) -> bool {
        let is_filled = |key: &[u8]| self.value(key).is_some_and(|value| !value.is_empty());
        !is_filled(b"REQUEST") || !is_filled(b"VIN")
    }

    fn holds_18(&self) -> bool {
        self.used > self.room || self.used > LONGEST_TEXT
    }

    /// The book has the request, as far as it is lent.
    fn holds_19(&self) -> bool {
        !self.hits().is_empty()
    }

    /// Some line names `REQUEST` and has the request, where no lookup is to be had.
    fn has_line_with_request(&self) -> bool {
        let request = self.request();
        request.is_some_and(|request| has_line(self.text, request))
    }

    /// The request is that of one of these calls.
    fn is_of(&self, calls: &[Added]) -> bool {
        calls.iter().any(|call| self.has_request_of(call))
    }

    fn has_request_of(&self, call: &Added) -> bool {
        self.request() == Some(&call.request[..])
    }

    /// Refused with 19 for what an earlier call of the run added.
    fn is_double_click(&self) -> bool {
        self.gave(19) && self.is_of(self.earlier)
    }

    fn is_other_vin(&self) -> bool {
        let mut earlier = self.earlier.iter();
        let first = earlier.find(|call| self.has_request_of(call));
        first.is_some_and(|call| self.value(b"VIN") != Some(&call.vin[..]))
    }

    /// Refused with 19 for such a heading that the book had before the run.
    fn is_by_hand(&self, is_such: fn(&Hit) -> bool) -> bool {
        self.gave(19) && !self.is_double_click() && self.hits().iter().any(is_such)
    }

    /// Where the request is looked up.
    fn hits(&self) -> Vec<Hit<'r>> {
        let Some(request) = self.request() else {
            return Vec::new();
        };
        let places = headings(self.text).zip(self.lookups()).enumerate();
        let hits = places.filter(|(_, (_, (number, start, end, _)))| {
            *number == 0 && self.text[*start..*end] == *request
        });
        hits.map(|(index, (at, (_, start, ..)))| self.hit(index, at, *start))
            .collect()
    }

    fn hit(&self, index: usize, at: usize, value: usize) -> Hit<'r> {
        let heading = &self.text[at..];
        let line = self.text[..value].rsplit(|byte| *byte == 10).next();
        let line = line.unwrap_or_default();
        Hit {
            index,
            stars: heading.iter().take_while(|byte| **byte == b'*').count(),
            is_planned: heading
                .split(|byte| *byte == 10)
                .nth(1)
                .is_some_and(is_planning),
            name: property_name(line),
            has_plus: line.contains(&b'+'),
        }
    }

    /// Accepted though some heading has a value that is like the request, and another.
    fn is_unlike(&self, is_like: fn(&[u8], &[u8]) -> bool) -> bool {
        let Some(request) = self.request().filter(|_| self.gave(0)) else {
            return false;
        };
        let mut found = self.lookups().iter().filter(|(number, ..)| *number == 0);
        found.any(|(_, start, end, _)| is_like(&self.text[*start..*end], request))
    }

    /// Accepted though a line under a heading has the request: the lookup there gives that number, and 0
    /// for an earlier line.
    fn is_hidden(&self, number: u32) -> bool {
        let Some(request) = self.request().filter(|_| self.gave(0)) else {
            return false;
        };
        let starts: Vec<usize> = headings(self.text).collect();
        let ends = starts.iter().skip(1).copied().chain([self.text.len()]);
        let mut sections = starts.iter().zip(ends).zip(self.lookups());
        sections.any(|((start, end), answer)| {
            answer.0 == number && has_line(&self.text[*start..end], request)
        })
    }

    /// Accepted though a heading past the bytes in use has the request.
    fn is_past_use(&self) -> bool {
        let lent = &self.first.buffer[..self.room];
        let is_first = self.gave(0) && self.used == self.first.used && self.used < lent.len();
        let Some(request) = self
            .request()
            .filter(|_| is_first && lent.len() <= LONGEST_TEXT)
        else {
            return false;
        };
        let past = headings(lent).zip(lookup_at_each_heading(lent, b"REQUEST"));
        let mut past = past.filter(|(at, _)| *at >= self.used);
        past.any(|(_, (number, start, end, _))| number == 0 && lent[start..end] == *request)
    }
}

fn is_planning(line: &[u8]) -> bool {
    line.starts_with(b"CLOSED")
}

/// A line of the text names `REQUEST`, and ends with that value.
fn has_line(text: &[u8], request: &[u8]) -> bool {
    let mut lines = text.split(|byte| *byte == 10).map(<[u8]>::trim_ascii);
    lines
        .any(|line| property_name(line).eq_ignore_ascii_case(b"REQUEST") && line.ends_with(request))
}
