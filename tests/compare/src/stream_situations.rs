//! What a piece of a book, or its declared end, may meet (document 02, order 9).

use plain_reader::{StreamState, LONGEST_TEXT};

use crate::pieces::{Call, Given, NUMBERS_OF_A_HEADING};
use crate::splits::Split;

/// Has a call met something?
type Meets = fn(&Tried) -> bool;

/// What a call may meet; one call may meet several. A cut is where a piece that was taken begins.
pub const SITUATIONS: [(&str, Meets); 96] = [
    ("whole", |tried| tried.is_split(Split::Whole)),
    ("byte by byte", |tried| tried.is_split(Split::Bytes)),
    ("line by line", |tried| tried.is_split(Split::Lines)),
    ("split near headings", |tried| {
        tried.is_split(Split::NearHeadings)
    }),
    ("split anywhere", |tried| tried.is_split(Split::Anywhere)),
    ("empty piece", |tried| tried.is_empty_piece()),
    ("empty piece without a list", |tried| {
        tried.is_empty_piece() && tried.length == 0
    }),
    ("empty piece after stars alone", |tried| {
        tried.is_empty_piece() && tried.is_stars_alone()
    }),
    ("empty piece in a title", |tried| {
        tried.is_empty_piece() && tried.is_right_after_title()
    }),
    ("empty piece after blank bytes in a title", |tried| {
        tried.is_empty_piece() && tried.is_past_title()
    }),
    ("cut between stars", |tried| {
        tried.is_stars_alone() && tried.begins(|byte| byte == b'*')
    }),
    ("cut between star and space", |tried| {
        tried.is_stars_alone() && tried.begins(|byte| byte == 32)
    }),
    ("cut between star and tab", |tried| {
        tried.is_stars_alone() && tried.begins(|byte| byte == 9)
    }),
    ("cut between star and byte 13", |tried| {
        tried.is_stars_alone() && tried.begins(|byte| byte == 13)
    }),
    ("cut between star and byte 10", |tried| {
        tried.is_stars_alone() && tried.begins(|byte| byte == 10)
    }),
    ("cut between star and letter", |tried| {
        tried.is_stars_alone() && tried.begins(|byte| byte.is_ascii_alphabetic())
    }),
    ("cut after the stars' space", |tried| {
        tried.is_right_after_space() && tried.begins(is_in_title)
    }),
    ("cut before an empty title's byte 10", |tried| {
        tried.is_right_after_space() && tried.begins(|byte| byte == 10)
    }),
    ("cut in a title", |tried| {
        tried.is_right_after_title() && tried.begins(is_in_title)
    }),
    ("cut before a title's byte 10", |tried| {
        tried.is_right_after_title() && tried.begins(|byte| byte == 10)
    }),
    ("cut before blank bytes at a title's end", |tried| {
        tried.is_right_after_title() && tried.begins(is_blank) && tried.ends_blank()
    }),
    ("cut before blank bytes within a title", |tried| {
        tried.is_right_after_title() && tried.begins(is_blank) && tried.goes_on()
    }),
    ("cut in blank bytes at a title's end", |tried| {
        tried.is_past_title() && tried.begins(is_blank) && tried.ends_blank()
    }),
    ("cut in blank bytes within a title", |tried| {
        tried.is_past_title() && tried.begins(is_blank) && tried.goes_on()
    }),
    ("cut after blank bytes within a title", |tried| {
        tried.is_past_title() && tried.begins(is_in_title)
    }),
    ("cut after blank bytes at a title's end", |tried| {
        tried.is_past_title() && tried.begins(|byte| byte == 10)
    }),
    ("cut between bytes 13 and 10", |tried| {
        tried.is_past_title() && tried.line.ends_with(b"\r") && tried.begins(|byte| byte == 10)
    }),
    ("cut in blank bytes at a title's front", |tried| {
        tried.is_in_front_of_title() && tried.begins(is_blank) && tried.goes_on()
    }),
    ("cut after blank bytes at a title's front", |tried| {
        tried.is_in_front_of_title() && tried.begins(is_in_title)
    }),
    ("cut in a title of blank bytes", |tried| {
        tried.is_in_front_of_title() && tried.ends_blank()
    }),
    ("cut before another line's byte 10", |tried| {
        tried.is_in_other_line() && tried.begins(|byte| byte == 10)
    }),
    ("cut before star and space in another line", |tried| {
        tried.is_in_other_line() && tried.begins_with(b"* ")
    }),
    ("cut before star and space after indentation", |tried| {
        tried.is_in_other_line()
            && tried.line.iter().all(|byte| is_blank(*byte))
            && tried.begins_with(b"* ")
    }),
    ("cut before star and space in a title", |tried| {
        tried.is_in_heading() && tried.begins_with(b"* ")
    }),
    ("cut before a star in a title", |tried| {
        tried.is_in_heading() && tried.begins_with(b"*")
    }),
    (
        "cut before a space in a line that lost its stars",
        |tried| {
            tried.is_in_other_line()
                && tried.line.starts_with(b"*")
                && tried.begins(|byte| byte == 32)
        },
    ),
    ("cut after byte 10", |tried| {
        tried.is_after_newline() && tried.begins(|byte| byte != b'*')
    }),
    ("cut after byte 10 and before a star", |tried| {
        tried.is_after_newline() && tried.begins(|byte| byte == b'*')
    }),
    ("no heading by a piece", |tried| tried.hands_out(0)),
    ("one heading by a piece", |tried| tried.hands_out(1)),
    ("two headings by a piece", |tried| tried.hands_out(2)),
    ("eight headings or more by a piece", |tried| {
        tried.count() >= 8 && tried.hands_out(tried.count())
    }),
    ("heading begun before and another", |tried| {
        tried.is_in_heading() && tried.count() > 1 && tried.hands_out(tried.count())
    }),
    ("another line begun before and a heading", |tried| {
        tried.is_in_other_line() && tried.hands_out(1)
    }),
    ("empty title", |tried| tried.has_title(<[u8]>::is_empty)),
    ("title with a blank front", |tried| {
        tried.has_title(|title| title.first().is_some_and(|byte| is_blank(*byte)))
    }),
    ("title that ends in byte 0", |tried| {
        tried.has_title(|title| title.ends_with(b"\x00"))
    }),
    ("title that ends in byte 11", |tried| {
        tried.has_title(|title| title.ends_with(b"\x0B"))
    }),
    ("title that ends in byte 12", |tried| {
        tried.has_title(|title| title.ends_with(b"\x0C"))
    }),
    ("title that ends in a byte over 127", |tried| {
        tried.has_title(|title| title.last().is_some_and(|byte| *byte > 127))
    }),
    ("title that ends in a star", |tried| {
        tried.has_title(|title| title.ends_with(b"*"))
    }),
    ("16 stars or more", |tried| {
        tried.headings().any(|heading| heading[1] >= 16)
    }),
    ("end of an empty book", |tried| {
        tried.is_end() && tried.before.total == 0
    }),
    ("end after byte 10", |tried| {
        tried.is_end() && tried.is_after_newline()
    }),
    ("end of a title", |tried| {
        tried.is_end() && tried.is_right_after_title()
    }),
    ("end of an empty title", |tried| {
        tried.is_end() && tried.is_right_after_space()
    }),
    ("end of blank bytes at a title's end", |tried| {
        tried.is_end() && tried.is_past_title()
    }),
    ("end of a title of blank bytes", |tried| {
        tried.is_end() && tried.is_in_front_of_title()
    }),
    ("end of stars alone", |tried| {
        tried.is_end() && tried.is_stars_alone()
    }),
    ("end of another line", |tried| {
        tried.is_end() && tried.is_in_other_line()
    }),
    ("list just long enough", |tried| tried.spares(0)),
    ("one number more", |tried| tried.spares(1)),
    ("two numbers more", |tried| tried.spares(2)),
    ("room for one heading more", |tried| tried.spares(3)),
    ("list left alone", |tried| {
        tried.gave(0) && tried.count() == 0 && tried.length > 2
    }),
    ("3 without a list", |tried| {
        tried.gave(3) && tried.length == 0
    }),
    ("3 one number short", |tried| {
        tried.gave(3) && tried.length + 1 == tried.count() * NUMBERS_OF_A_HEADING
    }),
    ("3 with room for some", |tried| {
        tried.gave(3) && tried.length >= NUMBERS_OF_A_HEADING
    }),
    ("3 then the same piece taken", |tried| {
        tried.is_piece() && tried.last == Some((tried.call, 3)) && tried.gave(0)
    }),
    ("3 then another piece taken", |tried| {
        tried.is_piece()
            && tried.is_after_piece(3)
            && tried.last != Some((tried.call, 3))
            && tried.gave(0)
    }),
    ("3 of a piece then an end", |tried| {
        tried.is_end() && tried.is_after_piece(3)
    }),
    ("3 of an end", |tried| {
        tried.call == Call::End && tried.gave(3)
    }),
    ("3 of an end then the end", |tried| {
        tried.is_end() && tried.last == Some((Call::End, 3))
    }),
    ("3 of an end then a piece taken", |tried| {
        tried.is_piece() && tried.last == Some((Call::End, 3)) && tried.gave(0)
    }),
    ("1 by one byte", |tried| {
        tried.gave(1) && tried.reach() == LONGEST_TEXT + 1
    }),
    ("1 by more", |tried| {
        tried.gave(1) && tried.reach() > LONGEST_TEXT + 1
    }),
    ("1 before 3", |tried| tried.gave(1) && tried.length == 0),
    ("1 in a heading line", |tried| {
        tried.gave(1) && tried.is_in_heading()
    }),
    ("1 then a piece taken", |tried| {
        tried.is_piece() && tried.is_after_piece(1) && tried.gave(0)
    }),
    ("1 then an end", |tried| {
        tried.is_end() && tried.is_after_piece(1)
    }),
    ("65,536 bytes", |tried| {
        tried.is_in_book()
            && tried.gave(0)
            && tried.begins(|_| true)
            && tried.reach() == LONGEST_TEXT
    }),
    ("1 in a full book", |tried| tried.gave(1) && tried.is_full()),
    ("empty piece in a full book", |tried| {
        tried.is_empty_piece() && tried.is_full()
    }),
    ("end of a full book", |tried| {
        tried.is_end() && tried.is_full()
    }),
    ("21 of a piece", |tried| {
        tried.is_in_book() && tried.is_piece() && tried.gave(21)
    }),
    ("21 of an empty piece", |tried| {
        tried.is_in_book() && tried.call == Call::Piece(b"") && tried.gave(21)
    }),
    ("21 of an end", |tried| {
        tried.is_in_book() && tried.call == Call::End && tried.gave(21)
    }),
    ("21 before 1", |tried| {
        tried.is_in_book() && tried.gave(21) && tried.reach() > LONGEST_TEXT
    }),
    ("21 of a piece before 3", |tried| {
        tried.is_in_book() && tried.gave(21) && tried.length < 3 && tried.holds_heading()
    }),
    ("21 of an end before 3", |tried| {
        tried.is_in_book()
            && tried.call == Call::End
            && tried.gave(21)
            && tried.length < 3
            && tried.is_in_heading()
    }),
    ("from numbers: a heading by a piece", |tried| {
        !tried.is_in_book()
            && tried.is_in_heading()
            && tried.is_piece()
            && tried.gave(0)
            && tried.count() > 0
    }),
    ("from numbers: a heading by an end", |tried| {
        !tried.is_in_book() && tried.call == Call::End && tried.gave(0) && tried.count() > 0
    }),
    ("from numbers: a title that fills its line", |tried| {
        !tried.is_in_book() && tried.is_right_after_title() && tried.gave(0)
    }),
    ("from numbers: stars alone", |tried| {
        !tried.is_in_book() && tried.is_stars_alone() && tried.gave(0)
    }),
    ("from numbers: 1", |tried| {
        !tried.is_in_book() && tried.gave(1)
    }),
    ("from numbers: 3", |tried| {
        !tried.is_in_book() && tried.gave(3)
    }),
];

/// Has a state a flaw?
type Has = fn(&StreamState) -> bool;

/// What keeps a text from leaving a state; counted where it is the only thing.
pub const FLAWS: [(&str, Has); 9] = [
    ("ended", |state| state.ended == 1),
    ("ended with another number", |state| state.ended > 1),
    ("over 65,536 bytes", |state| {
        state.total as usize > LONGEST_TEXT
    }),
    ("line longer than the book", |state| {
        state.line > state.total
    }),
    ("more stars than bytes", |state| state.stars > state.line),
    ("title as long as what is after the stars", |state| {
        is_heading(state) && state.title == state.line - state.stars
    }),
    ("title longer than that", |state| {
        is_heading(state) && state.title > state.line - state.stars
    }),
    ("title after stars alone", |state| {
        state.title > 0 && state.stars > 0 && state.stars == state.line
    }),
    ("title without stars", |state| {
        state.title > 0 && state.stars == 0
    }),
];

/// How many calls met each of `SITUATIONS`, and how many pieces and ends each of `FLAWS`.
pub struct Met {
    pub situations: [usize; SITUATIONS.len()],
    pub pieces: [usize; FLAWS.len()],
    pub ends: [usize; FLAWS.len()],
}

impl Default for Met {
    fn default() -> Self {
        Met {
            situations: [0; SITUATIONS.len()],
            pieces: [0; FLAWS.len()],
            ends: [0; FLAWS.len()],
        }
    }
}

impl Met {
    /// Everything that may be met, with how often.
    pub fn seen(&self) -> Vec<(String, usize)> {
        let situations = SITUATIONS.iter().zip(self.situations);
        let mut seen: Vec<(String, usize)> = situations
            .map(|((name, _), count)| (name.to_string(), count))
            .collect();
        for (what, counts) in [("a piece", self.pieces), ("an end", self.ends)] {
            let flaws = FLAWS.iter().zip(counts);
            seen.extend(flaws.map(|((name, _), count)| (format!("21 of {what}: {name}"), count)));
        }
        seen
    }
}

/// A call, and what the plain reader gave.
pub struct Tried<'r> {
    pub call: Call<'r>,
    /// How many numbers the list holds.
    pub length: usize,
    /// The state before the call.
    pub before: StreamState,
    pub given: &'r Given,
    /// How the book is split; none of a call from a state of any numbers.
    pub split: Option<Split>,
    /// The bytes of the unfinished line before the call.
    pub line: &'r [u8],
    /// The call before, and its number.
    pub last: Option<(Call<'r>, u32)>,
}

impl Tried<'_> {
    /// Counts what the call met.
    pub fn count_in(&self, met: &mut Met) {
        for (count, (_, meets)) in met.situations.iter_mut().zip(SITUATIONS) {
            *count += usize::from(meets(self));
        }
        if self.is_in_book() {
            return;
        }
        let flaws = FLAWS.map(|(_, has)| has(&self.before));
        let is_only = flaws.iter().filter(|has| **has).count() == 1;
        let counts = match self.call {
            Call::Piece(_) => &mut met.pieces,
            Call::End => &mut met.ends,
        };
        for (count, has) in counts.iter_mut().zip(flaws) {
            *count += usize::from(has && is_only);
        }
    }

    fn is_in_book(&self) -> bool {
        self.split.is_some()
    }

    fn is_split(&self, split: Split) -> bool {
        self.split == Some(split) && self.is_piece() && self.gave(0)
    }

    fn is_piece(&self) -> bool {
        matches!(self.call, Call::Piece(_))
    }

    fn is_empty_piece(&self) -> bool {
        self.is_in_book() && self.call == Call::Piece(b"") && self.gave(0)
    }

    /// An end that was accepted.
    fn is_end(&self) -> bool {
        self.is_in_book() && self.call == Call::End && self.gave(0)
    }

    fn gave(&self, number: u32) -> bool {
        self.given.answer.0 == number
    }

    fn count(&self) -> usize {
        self.given.answer.1
    }

    fn hands_out(&self, count: usize) -> bool {
        self.is_in_book() && self.begins(|_| true) && self.count() == count
    }

    /// The bytes of a piece that was taken.
    fn taken(&self) -> &[u8] {
        match self.call {
            Call::Piece(bytes) if self.gave(0) => bytes,
            _ => b"",
        }
    }

    /// The piece was taken and begins with such a byte.
    fn begins(&self, is_such: fn(u8) -> bool) -> bool {
        self.is_in_book() && self.taken().first().is_some_and(|byte| is_such(*byte))
    }

    fn begins_with(&self, front: &[u8]) -> bool {
        self.is_in_book() && self.taken().starts_with(front)
    }

    /// The bytes that the piece adds to the unfinished line.
    fn rest_of_line(&self) -> &[u8] {
        let rest = self.taken().split(|byte| *byte == 10).next();
        rest.unwrap_or_default()
    }

    /// The piece finishes the line and adds blank bytes only, at least one.
    fn ends_blank(&self) -> bool {
        let rest = self.rest_of_line();
        let is_finished = rest.len() < self.taken().len();
        is_finished && !rest.is_empty() && rest.iter().all(|byte| is_blank(*byte))
    }

    /// The piece adds a byte that is not blank to the line.
    fn goes_on(&self) -> bool {
        self.rest_of_line().iter().any(|byte| is_in_title(*byte))
    }

    fn is_after_newline(&self) -> bool {
        self.before.line == 0 && self.before.total > 0
    }

    fn is_stars_alone(&self) -> bool {
        self.before.stars > 0 && self.before.stars == self.before.line
    }

    fn is_in_heading(&self) -> bool {
        is_heading(&self.before)
    }

    fn is_in_other_line(&self) -> bool {
        self.before.line > 0 && self.before.stars == 0
    }

    /// How many bytes the line has after the stars' space.
    fn after_space(&self) -> u32 {
        self.before.line - self.before.stars - 1
    }

    fn is_right_after_space(&self) -> bool {
        self.is_in_heading() && self.after_space() == 0
    }

    fn is_in_front_of_title(&self) -> bool {
        self.is_in_heading() && self.before.title == 0 && self.after_space() > 0
    }

    fn is_right_after_title(&self) -> bool {
        self.is_in_heading() && self.before.title > 0 && self.after_space() == self.before.title
    }

    fn is_past_title(&self) -> bool {
        self.is_in_heading() && self.before.title > 0 && self.after_space() > self.before.title
    }

    /// The list has so many numbers more than the headings need, of which there are some.
    fn spares(&self, numbers: usize) -> bool {
        let need = self.count() * NUMBERS_OF_A_HEADING;
        self.gave(0) && need > 0 && self.length == need + numbers
    }

    /// The headings that were handed out.
    fn headings(&self) -> impl Iterator<Item = &[u32]> {
        self.given.headings().chunks_exact(NUMBERS_OF_A_HEADING)
    }

    /// Some heading that was handed out has such a title.
    fn has_title(&self, is_such: fn(&[u8]) -> bool) -> bool {
        if !self.is_in_book() || self.given.headings().is_empty() {
            return false;
        }
        let first = self.before.total - self.before.line;
        let text = [self.line, self.taken()].concat();
        let mut headings = self.headings();
        headings.any(|heading| {
            let start = (heading[0] - first + heading[1] + 1) as usize;
            is_such(&text[start..start + heading[2] as usize])
        })
    }

    fn is_after_piece(&self, number: u32) -> bool {
        matches!(self.last, Some((Call::Piece(_), given)) if given == number)
    }

    /// The bytes in all, with the piece.
    fn reach(&self) -> usize {
        let piece = match self.call {
            Call::Piece(bytes) => bytes.len(),
            Call::End => 0,
        };
        self.before.total as usize + piece
    }

    fn is_full(&self) -> bool {
        self.is_in_book() && self.before.total as usize == LONGEST_TEXT
    }

    /// The piece has a whole heading line.
    fn holds_heading(&self) -> bool {
        match self.call {
            Call::Piece(bytes) => bytes.starts_with(b"* a\n") || bytes.starts_with(b"* A\n"),
            Call::End => false,
        }
    }
}

fn is_heading(state: &StreamState) -> bool {
    state.stars > 0 && state.stars < state.line
}

fn is_blank(byte: u8) -> bool {
    matches!(byte, 32 | 9 | 13)
}

/// Neither blank nor byte 10.
fn is_in_title(byte: u8) -> bool {
    !is_blank(byte) && byte != 10
}
