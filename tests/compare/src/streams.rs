//! Seeded books that come in pieces against both readers (document 02, order 9).

use plain_reader::{StreamState, LONGEST_TEXT};

use crate::escape::shown;
use crate::pieces::{Call, Given, Joined, NUMBERS_OF_A_HEADING};
use crate::random::Random;
use crate::splits::{book, pieces, Split};
use crate::stream_situations::{Met, Tried};
use crate::subject::{Stream, StreamAnswer, LIBRARY, PLAIN_READER};
use crate::words::{NEXT_PIECES, STATE_NUMBERS};

/// The bytes of pieces that would pass 65,536 bytes, or just not.
static LONG: [u8; LONGEST_TEXT + 64] = heading_lines();

/// Lists of some length that most pieces have room in.
const MUCH_ROOM: usize = 60;

/// A book as long as this is not filled up to 65,536 bytes.
const MUCH: usize = 4_000;

/// One book in pieces, with refused calls on the way, and calls from other states.
pub fn check_streams(text: &[u8], random: &mut Random, met: &mut Met) -> Result<(), String> {
    let book = book(text, random);
    let (split, pieces) = pieces(&book, random);
    let mut run = Run::new(split, random, met);
    let outcome = run.check(&pieces);
    outcome.map_err(|difference| {
        let calls: Vec<String> = run.calls.iter().map(told).collect();
        let calls = calls.join(", ");
        format!(
            "{split:?} book {}, calls {calls}: {difference}",
            shown(&book)
        )
    })?;
    check_states(random, met)
}

/// Both readers' streams, and what has come of the calls so far.
struct Run<'r, 'b> {
    expected: Box<dyn Stream>,
    seen: Box<dyn Stream>,
    state: StreamState,
    joined: Joined,
    split: Split,
    /// The call before, and its number.
    last: Option<(Call<'b>, u32)>,
    /// The calls, each with the length of its list.
    calls: Vec<(Call<'b>, usize)>,
    random: &'r mut Random,
    met: &'r mut Met,
}

impl<'r, 'b> Run<'r, 'b> {
    fn new(split: Split, random: &'r mut Random, met: &'r mut Met) -> Self {
        Run {
            expected: (PLAIN_READER.stream)(),
            seen: (LIBRARY.stream)(),
            state: StreamState::default(),
            joined: Joined::default(),
            split,
            last: None,
            calls: Vec::new(),
            random,
            met,
        }
    }

    fn check(&mut self, pieces: &[&'b [u8]]) -> Result<(), String> {
        if self.seen.state() != self.state || self.expected.state() != self.state {
            return Err(format!("a new {:?}", self.seen.state()));
        }
        let early_end = self.random.below(pieces.len() * 8 + 1);
        for (index, piece) in pieces.iter().enumerate() {
            if index == early_end {
                break;
            }
            if self.random.chance(3) {
                self.pass_the_limit()?;
            }
            if self.random.chance(3) {
                self.refused_end()?;
            }
            self.until_taken(Call::Piece(piece))?;
        }
        if self.joined.book.len() <= MUCH && self.random.below(300) == 0 {
            self.fill()?;
        }
        if self.random.chance(5) {
            self.pass_the_limit()?;
        }
        if self.random.chance(90) {
            self.until_taken(Call::End)?;
            self.after_the_end()?;
        }
        self.joined.check(self.state, &LIBRARY)
    }

    /// The call in some list; where that has no room, in others, the last of which has. Now and then it
    /// is given up.
    fn until_taken(&mut self, call: Call<'b>) -> Result<(), String> {
        let length = self.some_length();
        let (number, count) = self.call(call, length)?;
        if number != 3 {
            return Ok(());
        }
        let need = count * NUMBERS_OF_A_HEADING;
        if self.random.chance(40) {
            let less = self.random.between(1, NUMBERS_OF_A_HEADING);
            self.call(call, need - less)?;
        }
        if self.random.chance(5) {
            return Ok(());
        }
        let more = self.random.below(5);
        self.call(call, need + more)?;
        Ok(())
    }

    fn some_length(&mut self) -> usize {
        match self.random.below(10) {
            0..3 => 0,
            3..6 => self.random.below(8),
            _ => MUCH_ROOM,
        }
    }

    /// A piece that is too long for what has come so far, and perhaps one that just is not.
    fn pass_the_limit(&mut self) -> Result<(), String> {
        let left = LONGEST_TEXT.saturating_sub(self.joined.book.len());
        let over = *self.random.pick(&[&1, &1, &2, &63]);
        let length = self.some_length();
        self.call(Call::Piece(&LONG[..left + over]), length)?;
        Ok(())
    }

    /// An end without room, which is refused where a heading line is not finished.
    fn refused_end(&mut self) -> Result<(), String> {
        if (1..self.state.line).contains(&self.state.stars) {
            let length = self.random.below(NUMBERS_OF_A_HEADING);
            self.call(Call::End, length)?;
        }
        Ok(())
    }

    /// Pieces up to 65,536 bytes, and then one byte more.
    fn fill(&mut self) -> Result<(), String> {
        let left = LONGEST_TEXT - self.joined.book.len();
        let last = self.random.below(3);
        for part in [&LONG[..left - last], &LONG[..last], &LONG[..1], &LONG[..0]] {
            self.call(Call::Piece(part), LONGEST_TEXT)?;
        }
        Ok(())
    }

    fn after_the_end(&mut self) -> Result<(), String> {
        for _ in 0..self.random.below(4) {
            let length = self.some_length();
            let call = match self.random.below(8) {
                0 => Call::Piece(b""),
                1 => Call::Piece(&LONG),
                2..5 => Call::Piece(self.random.pick(NEXT_PIECES)),
                _ => Call::End,
            };
            self.call(call, length)?;
        }
        Ok(())
    }

    /// Both readers' calls with a list of that length, compared whole.
    fn call(&mut self, call: Call<'b>, length: usize) -> Result<StreamAnswer, String> {
        self.calls.push((call, length));
        let before = self.state;
        let expected = compared(&mut *self.expected, &mut *self.seen, call, length)?;
        let tried = Tried {
            call,
            length,
            before,
            given: &expected,
            split: Some(self.split),
            line: last_line(&self.joined.book),
            last: self.last,
        };
        tried.count_in(self.met);
        self.last = Some((call, expected.answer.0));
        self.state = expected.state;
        self.joined.add(call, &expected);
        Ok(expected.answer)
    }
}

/// Calls from a state of any numbers, of which a text may leave it or none.
fn check_states(random: &mut Random, met: &mut Met) -> Result<(), String> {
    let state = match random.below(100) {
        0 => state_of_long_line(random),
        _ => some_state(random),
    };
    let mut expected = (PLAIN_READER.stream_from)(state);
    let mut seen = (LIBRARY.stream_from)(state);
    let (mut before, mut last) = (state, None);
    for _ in 0..2 {
        let call = match random.below(5) {
            0 | 1 => Call::End,
            2 if random.chance(10) => Call::Piece(&LONG),
            _ => Call::Piece(random.pick(NEXT_PIECES)),
        };
        let length = random.below(8);
        let given = compared(&mut *expected, &mut *seen, call, length);
        let given = given
            .map_err(|difference| format!("{state:?}, {}: {difference}", told(&(call, length))))?;
        let tried = Tried {
            call,
            length,
            before,
            given: &given,
            split: None,
            line: b"",
            last,
        };
        tried.count_in(met);
        (before, last) = (given.state, Some((call, given.answer.0)));
    }
    Ok(())
}

/// A line that is the whole book and around as long as it may be: of stars, with a title, or another.
fn state_of_long_line(random: &mut Random) -> StreamState {
    let line = (LONGEST_TEXT - random.below(3)) as u32;
    let stars = *random.pick(&[&line, &line, &line, &(line - 1), &(line - 2), &1, &0]);
    let title = match random.below(2) {
        0 if stars > 0 => (line - stars).saturating_sub(1),
        _ => 0,
    };
    StreamState {
        total: line,
        line,
        stars,
        title,
        ended: 0,
    }
}

/// Mostly small numbers, near each other; now and then those around the limit, or any.
fn some_state(random: &mut Random) -> StreamState {
    let total = match random.below(40) {
        0 => LONGEST_TEXT + 2 - random.below(4),
        1 | 2 => *random.pick(STATE_NUMBERS),
        _ => random.below(12),
    };
    let line = near(total, random);
    let stars = near(line, random);
    let title = match random.below(3) {
        0 => 0,
        1 => line.wrapping_sub(stars).saturating_sub(random.below(3)),
        _ => near(line, random),
    };
    let ended = match random.below(20) {
        0 => 1,
        1 => 2,
        2 => *random.pick(STATE_NUMBERS),
        _ => 0,
    };
    let [total, line, stars, title, ended] =
        [total, line, stars, title, ended].map(|number| number as u32);
    StreamState {
        total,
        line,
        stars,
        title,
        ended,
    }
}

/// 0, at most that number, that number, or one more; seldom any.
fn near(number: usize, random: &mut Random) -> usize {
    match random.below(12) {
        0..3 => 0,
        3..8 => random.below(number.saturating_add(1)),
        8..10 => number,
        10 => number.wrapping_add(1),
        _ => *random.pick(STATE_NUMBERS),
    }
}

/// Both calls; they must give the same.
fn compared(
    expected: &mut dyn Stream,
    seen: &mut dyn Stream,
    call: Call,
    length: usize,
) -> Result<Given, String> {
    let expected = call.on(expected, length);
    expected.check(&call.on(seen, length))?;
    Ok(expected)
}

/// The last line of the book, where it lacks byte 10.
fn last_line(book: &[u8]) -> &[u8] {
    book.rsplit(|byte| *byte == 10).next().unwrap_or_default()
}

fn told((call, length): &(Call, usize)) -> String {
    match call {
        Call::Piece(bytes) => format!("piece {} in {length}", shown(bytes)),
        Call::End => format!("end in {length}"),
    }
}

/// `* A` and byte 10, again and again.
const fn heading_lines() -> [u8; LONGEST_TEXT + 64] {
    let mut bytes = [b'\n'; LONGEST_TEXT + 64];
    let mut place = 0;
    while place + 4 <= bytes.len() {
        bytes[place] = b'*';
        bytes[place + 1] = b' ';
        bytes[place + 2] = b'A';
        place += 4;
    }
    bytes
}
