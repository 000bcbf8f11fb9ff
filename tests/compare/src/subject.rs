//! What is tested: a reading call, a lookup, one with house defaults, a search for a closer, the
//! calls about dates, the writing of a sheet, the intake of an order or of a log of orders, and a book
//! that comes in pieces.

use plain_reader::{Date, StampNumbers, StreamState};

use crate::library;

/// The answer of a reading call: its number and its count.
pub type ReadAnswer = (u32, usize);

/// The answer of a lookup: its number, the two ends of its part and the further number.
pub type LookupAnswer = (u32, usize, usize, usize);

/// The answer of a lookup with house defaults: its number, whose it is (1 the order's, 2 the
/// defaults'), the two ends of its part in that text and the further number.
pub type DefaultedAnswer = (u32, u32, usize, usize, usize);

/// The answer of a search for a closer: is it found (1, else 0), the two ends of its line, and how
/// many lines were compared.
pub type CloserAnswer = (u32, usize, usize, usize);

/// The answer of a timestamp call: the stamp's end and its numbers.
pub type TimestampAnswer = (usize, StampNumbers);

/// The answer of a planning call: its number and the stamps of `CLOSED`, `DEADLINE`, `SCHEDULED`.
pub type PlanningAnswer = (u32, [StampNumbers; 3]);

/// The answer of a day count: its number and the days.
pub type DaysAnswer = (u32, i32);

/// The answer of a sheet call: its number and its count.
pub type SheetAnswer = (u32, usize);

/// The answer of an intake call, and of a log: its number and the bytes in use after it.
pub type IntakeAnswer = (u32, usize);

/// The answer of a piece, and of a declared end: its number and its count.
pub type StreamAnswer = (u32, usize);

/// A book that comes in pieces.
pub trait Stream {
    fn piece(&mut self, bytes: &[u8], list: &mut [u32]) -> StreamAnswer;
    fn end(&mut self, list: &mut [u32]) -> StreamAnswer;
    fn state(&self) -> StreamState;
}

#[derive(Clone, Copy)]
pub struct Subject {
    pub name: &'static str,
    pub read: fn(&[u8], &mut [u32]) -> ReadAnswer,
    pub lookup: fn(&[u8], usize, &[u8]) -> LookupAnswer,
    pub lookup_with_defaults: fn(&[u8], usize, &[u8], &[u8]) -> DefaultedAnswer,
    pub find_closer: fn(&[u8], usize, usize) -> CloserAnswer,
    pub timestamp: fn(&[u8], usize) -> TimestampAnswer,
    pub planning: fn(&[u8], usize) -> PlanningAnswer,
    pub days_between: fn(Date, Date) -> DaysAnswer,
    pub write_sheet: fn(&[u8], &mut [u8]) -> SheetAnswer,
    pub intake: fn(&mut [u8], usize, &[u8]) -> IntakeAnswer,
    pub intake_log: fn(&mut [u8], usize, &[u8]) -> IntakeAnswer,
    /// A new stream.
    pub stream: fn() -> Box<dyn Stream>,
    /// A stream in that state, whatever its numbers are.
    pub stream_from: fn(StreamState) -> Box<dyn Stream>,
}

pub const PLAIN_READER: Subject = Subject {
    name: "plain reader",
    read: plain_reader::answer,
    lookup: plain_reader::lookup,
    lookup_with_defaults: plain_reader::lookup_with_defaults,
    find_closer: plain_reader::closer_search,
    timestamp: plain_reader::timestamp,
    planning: plain_reader::planning,
    days_between: plain_reader::days_between,
    write_sheet: plain_reader::write_sheet,
    intake: plain_reader::intake,
    intake_log: plain_reader::intake_log,
    stream: || Box::new(plain_reader::Stream::new()),
    stream_from: |state| Box::new(plain_reader::Stream::from_state(state)),
};

pub const LIBRARY: Subject = Subject {
    name: "library",
    read: library::read,
    lookup: library::lookup,
    lookup_with_defaults: library::lookup_with_defaults,
    find_closer: library::find_closer,
    timestamp: library::timestamp,
    planning: library::planning,
    days_between: library::days_between,
    write_sheet: library::write_sheet,
    intake: library::intake,
    intake_log: library::intake_log,
    stream: || Box::new(library::Stream::new()),
    stream_from: |state| Box::new(library::Stream { state }),
};

impl Stream for plain_reader::Stream {
    fn piece(&mut self, bytes: &[u8], list: &mut [u32]) -> StreamAnswer {
        self.piece(bytes, list)
    }

    fn end(&mut self, list: &mut [u32]) -> StreamAnswer {
        self.end(list)
    }

    fn state(&self) -> StreamState {
        self.state()
    }
}

impl Stream for library::Stream {
    fn piece(&mut self, bytes: &[u8], list: &mut [u32]) -> StreamAnswer {
        self.piece(bytes, list)
    }

    fn end(&mut self, list: &mut [u32]) -> StreamAnswer {
        self.end(list)
    }

    fn state(&self) -> StreamState {
        self.state
    }
}

/// A table as it is before a call: no two neighbouring numbers are equal, and none is one that a
/// reading of a small text would write.
pub fn fresh_table(length: usize) -> Vec<u32> {
    (0..length as u32)
        .map(|place| 0xABCD_0000 ^ place)
        .collect()
}
