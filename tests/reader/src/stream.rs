//! Document 02, order 9: "Headings while the upload is still running."

use crate::line::{lines_of, Line};
use crate::LONGEST_TEXT;

/// "Three numbers each": a heading line's start, its stars, its title's length.
const NUMBERS_OF_A_HEADING: usize = 3;

/// The answer's number and the count it returns.
type Answer = (u32, usize);

/// The state in numbers, in the order of the library's header.
#[derive(Clone, Copy, Debug, Default, PartialEq, Eq)]
pub struct StreamState {
    /// The bytes so far.
    pub total: u32,
    /// The bytes of the last line so far; 0 right after a byte 10.
    pub line: u32,
    /// That line's stars, when it is a heading line or stars alone, else 0.
    pub stars: u32,
    /// The length of that line's title so far, when it is a heading line, else 0.
    pub title: u32,
    /// 1 after the declared end, else 0.
    pub ended: u32,
}

/// A book that comes in pieces.
///
/// It keeps all bytes so far and asks each time which heading lines are finished in them.
#[derive(Clone, Debug, PartialEq, Eq)]
pub enum Stream {
    Open(Vec<u8>),
    /// After the declared end, or in a state that no text of at most 65,536 bytes leaves.
    Closed(StreamState),
}

impl Stream {
    pub fn new() -> Self {
        Stream::Open(Vec::new())
    }

    /// The stream in that state. Where a text leaves it, its bytes are such a text's: which one it is
    /// makes no difference, as all that is still to be handed out stands in the state.
    pub fn from_state(state: StreamState) -> Self {
        text_that_leaves(state).map_or(Stream::Closed(state), Stream::Open)
    }

    pub fn state(&self) -> StreamState {
        match self {
            Stream::Open(bytes) => open_state(bytes),
            Stream::Closed(state) => *state,
        }
    }

    /// "Refusals in order, state and list as before: 21 a piece [..] after the declared end; 1 a piece
    /// that would pass 65,536 bytes in all; 3 no room in the list, with the count needed."
    pub fn piece(&mut self, piece: &[u8], list: &mut [u32]) -> Answer {
        let Stream::Open(bytes) = self else {
            return (21, 0);
        };
        if bytes.len() + piece.len() > LONGEST_TEXT {
            return (1, 0);
        }
        let longer = [bytes, piece].concat();
        let before = finished(bytes).len();
        let answer = hand_out(&finished(&longer)[before..], list);
        if answer.0 == 0 {
            *bytes = longer;
        }
        answer
    }

    /// "21 [..] an end after the declared end; [..] 3 no room in the list, with the count needed." The
    /// end finishes the last line where that lacks byte 10.
    pub fn end(&mut self, list: &mut [u32]) -> Answer {
        let Stream::Open(bytes) = self else {
            return (21, 0);
        };
        let before = finished(bytes).len();
        let answer = hand_out(&headings(&lines_of(bytes))[before..], list);
        if answer.0 == 0 {
            let state = open_state(bytes);
            *self = Stream::Closed(StreamState { ended: 1, ..state });
        }
        answer
    }
}

impl Default for Stream {
    fn default() -> Self {
        Stream::new()
    }
}

/// "Each heading line's start, stars and title length in bytes".
fn headings(lines: &[Line]) -> Vec<[u32; NUMBERS_OF_A_HEADING]> {
    let lines = lines.iter().filter(|line| line.is_heading());
    lines
        .map(|line| [line.span.start, line.stars, line.title().len()].map(as_number))
        .collect()
}

/// The headings "whose lines" are finished by a byte 10.
fn finished(bytes: &[u8]) -> Vec<[u32; NUMBERS_OF_A_HEADING]> {
    let mut lines = lines_of(bytes);
    lines.retain(is_finished);
    headings(&lines)
}

/// The last line, where it lacks byte 10: what stands after the last byte 10.
fn unfinished_line(bytes: &[u8]) -> Option<Line<'_>> {
    let newline = bytes.iter().rposition(|byte| *byte == 10);
    let last = &bytes[newline.map_or(0, |place| place + 1)..];
    lines_of(last).pop()
}

fn is_finished(line: &Line) -> bool {
    line.bytes().ends_with(b"\n")
}

/// "Writes the headings [..] into a lent list, three numbers each, and gives their count."
fn hand_out(headings: &[[u32; NUMBERS_OF_A_HEADING]], list: &mut [u32]) -> Answer {
    let room = list.len() / NUMBERS_OF_A_HEADING;
    if headings.len() > room {
        return (3, headings.len());
    }
    let numbers = headings.concat();
    list[..numbers.len()].copy_from_slice(&numbers);
    (0, headings.len())
}

fn open_state(bytes: &[u8]) -> StreamState {
    let total = as_number(bytes.len());
    let Some(line) = unfinished_line(bytes) else {
        return StreamState {
            total,
            ..StreamState::default()
        };
    };
    let is_stars_alone = line.bytes().iter().all(|byte| *byte == b'*');
    let (stars, title) = if line.is_heading() {
        (line.stars, line.title().len())
    } else if is_stars_alone {
        (line.bytes().len(), 0)
    } else {
        (0, 0)
    };
    StreamState {
        total,
        line: as_number(line.bytes().len()),
        stars: as_number(stars),
        title: as_number(title),
        ended: 0,
    }
}

/// Some text of at most 65,536 bytes that leaves this state, if there is one.
///
/// If any does, this one does: empty lines, then a line of stars, a space, a title of that length and
/// blank bytes, or of stars alone, or without stars.
fn text_that_leaves(state: StreamState) -> Option<Vec<u8>> {
    let [total, line, stars, title] =
        [state.total, state.line, state.stars, state.title].map(|number| number as usize);
    let is_small = total <= LONGEST_TEXT && line <= total && stars <= line && title <= line;
    if !is_small {
        return None;
    }
    let heading = [vec![b'*'; stars], b" ".to_vec(), vec![b'x'; title]].concat();
    let (mut last, more) = match stars {
        0 => (Vec::new(), b'x'),
        _ => (heading, b' '),
    };
    last.resize(line, more);
    let text = [vec![b'\n'; total - line], last].concat();
    (open_state(&text) == state).then_some(text)
}

fn as_number(number: usize) -> u32 {
    u32::try_from(number).expect("a book has at most 65,536 bytes")
}
