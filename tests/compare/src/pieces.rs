//! Calls on a book that comes in pieces, and the book read whole beside it (document 02, order 9).

use plain_reader::{StreamState, NUMBERS_OF_A_RECORD};

use crate::subject::{fresh_table, Stream, StreamAnswer, Subject};

/// Numbers past the lent list, which no call may touch.
const GUARD: usize = 9;

/// The numbers of a heading: its line's start, its stars, its title's length.
pub const NUMBERS_OF_A_HEADING: usize = 3;

/// The kind of a heading's record.
const HEADING: u32 = 2;

/// A call on a stream.
#[derive(Clone, Copy, Debug, PartialEq, Eq)]
pub enum Call<'b> {
    Piece(&'b [u8]),
    End,
}

/// What a call gave.
#[derive(Clone, Debug, PartialEq, Eq)]
pub struct Given {
    pub answer: StreamAnswer,
    /// After the call.
    pub state: StreamState,
    /// The lent list after the call, and some numbers past it.
    pub list: Vec<u32>,
}

impl Given {
    /// What a call is to give with a list of that length: those headings from its front, else the list
    /// as it was before.
    pub fn expected(
        answer: StreamAnswer,
        state: StreamState,
        headings: &[u32],
        length: usize,
    ) -> Self {
        let mut list = fresh_list(length);
        list.splice(..headings.len(), headings.iter().copied());
        Given {
            answer,
            state,
            list,
        }
    }

    /// The numbers of the headings that were handed out, as many as there are in the list.
    pub fn headings(&self) -> &[u32] {
        let count = if self.answer.0 == 0 { self.answer.1 } else { 0 };
        let length = count.saturating_mul(NUMBERS_OF_A_HEADING);
        &self.list[..length.min(self.list.len())]
    }

    /// Both are the same; else the first difference is told in words.
    pub fn check(&self, seen: &Given) -> Result<(), String> {
        if self.answer != seen.answer {
            return Err(format!(
                "expected {:?}, seen {:?}",
                self.answer, seen.answer
            ));
        }
        if self.state != seen.state {
            return Err(format!("expected {:?}, seen {:?}", self.state, seen.state));
        }
        let mut both = self.list.iter().zip(&seen.list);
        let differing = both.position(|(one, other)| one != other);
        differing.map_or(Ok(()), |place| {
            Err(format!(
                "number {place} of the list: expected {}, seen {}",
                self.list[place], seen.list[place]
            ))
        })
    }
}

impl Call<'_> {
    /// Does the call with a list of that length.
    pub fn on(&self, stream: &mut dyn Stream, length: usize) -> Given {
        let mut list = fresh_list(length);
        let lent = &mut list[..length];
        let answer = match self {
            Call::Piece(bytes) => stream.piece(bytes, lent),
            Call::End => stream.end(lent),
        };
        Given {
            answer,
            state: stream.state(),
            list,
        }
    }
}

/// A list of that length before a call, and the guard past it.
fn fresh_list(length: usize) -> Vec<u32> {
    fresh_table(length + GUARD)
}

/// What the calls on a new stream that were not refused come to.
#[derive(Default)]
pub struct Joined {
    pub book: Vec<u8>,
    pub list: Vec<u32>,
    pub is_ended: bool,
}

impl Joined {
    /// Adds a call, unless it was refused.
    pub fn add(&mut self, call: Call, given: &Given) {
        if given.answer.0 != 0 {
            return;
        }
        match call {
            Call::Piece(bytes) => self.book.extend(bytes),
            Call::End => self.is_ended = true,
        }
        self.list.extend(given.headings());
    }

    /// "From a new state, with no call refused, the joined list and final state equal those of the book
    /// read whole". After the end the headings are those of the book's reading, too.
    pub fn check(&self, state: StreamState, subject: &Subject) -> Result<(), String> {
        let mut whole = (subject.stream)();
        let enough = self.book.len() + NUMBERS_OF_A_HEADING;
        let given = Call::Piece(&self.book).on(&mut *whole, enough);
        let mut list = given.headings().to_vec();
        if self.is_ended {
            let given = Call::End.on(&mut *whole, enough);
            list.extend(given.headings());
        }
        if list != self.list {
            return Err(format!("{:?} in pieces, {list:?} read whole", self.list));
        }
        if whole.state() != state {
            return Err(format!(
                "{state:?} in pieces, {:?} read whole",
                whole.state()
            ));
        }
        if self.is_ended {
            self.check_reading(subject)?;
        }
        Ok(())
    }

    /// Starts and stars are those of the heading records, where the reading is not refused.
    fn check_reading(&self, subject: &Subject) -> Result<(), String> {
        let (number, count) = (subject.read)(&self.book, &mut []);
        if number != 3 {
            return Ok(());
        }
        let mut table = fresh_table(count * NUMBERS_OF_A_RECORD);
        (subject.read)(&self.book, &mut table);
        let records = table.chunks_exact(NUMBERS_OF_A_RECORD);
        let records: Vec<[u32; 2]> = records
            .filter(|record| record[0] == HEADING)
            .map(|record| [record[1], record[6]])
            .collect();
        let headings = self.list.chunks_exact(NUMBERS_OF_A_HEADING);
        let headings: Vec<[u32; 2]> = headings.map(|heading| [heading[0], heading[1]]).collect();
        if headings == records {
            return Ok(());
        }
        Err(format!(
            "{headings:?} in pieces, {records:?} in the reading"
        ))
    }
}

#[cfg(test)]
mod tests {
    use super::*;
    use crate::subject::PLAIN_READER;

    /// What the plain reader gives for these calls on a new stream, in lists of 9 numbers.
    fn given(calls: &[Call]) -> (Vec<Given>, Joined) {
        let mut stream = (PLAIN_READER.stream)();
        let mut joined = Joined::default();
        let mut all = Vec::new();
        for call in calls {
            let given = call.on(&mut *stream, 9);
            joined.add(*call, &given);
            all.push(given);
        }
        (all, joined)
    }

    #[test]
    fn the_first_difference_is_told() {
        let (all, _) = given(&[Call::Piece(b"* A\n* ")]);
        let right = &all[0];
        assert_eq!(right.headings(), [0, 1, 1]);
        assert_eq!(right.check(&right.clone()), Ok(()));
        let expected = Given::expected((0, 1), right.state, &[0, 1, 1], 9);
        assert_eq!(*right, expected);
        let mut other = right.clone();
        other.answer.1 = 2;
        assert!(right.check(&other).is_err());
        let mut other = right.clone();
        other.state.title = 1;
        assert!(right.check(&other).is_err());
        for place in 0..9 + GUARD {
            let mut other = right.clone();
            other.list[place] += 1;
            let told = right.check(&other).unwrap_err();
            assert!(told.contains(&format!("number {place} ")), "{told}");
        }
    }

    #[test]
    fn a_refused_call_adds_nothing() {
        let calls = [Call::Piece(b"* \n* \n* \n* \n"), Call::Piece(b"x\n* A")];
        let (all, joined) = given(&calls);
        assert_eq!(all[0].answer, (3, 4));
        assert!(all[0].headings().is_empty());
        assert_eq!(joined.book, b"x\n* A");
        assert_eq!(joined.check(all[1].state, &PLAIN_READER), Ok(()));
    }

    #[test]
    fn pieces_are_held_to_the_book_read_whole() {
        let calls = [Call::Piece(b"x\n** "), Call::Piece(b"A\n* B"), Call::End];
        let (all, joined) = given(&calls);
        let state = all[2].state;
        assert_eq!(joined.list, [2, 2, 1, 7, 1, 1]);
        assert_eq!(joined.check(state, &PLAIN_READER), Ok(()));
        assert!(joined.check(all[1].state, &PLAIN_READER).is_err());
        for place in 0..joined.list.len() {
            let (_, mut joined) = given(&calls);
            joined.list[place] += 1;
            assert!(joined.check(state, &PLAIN_READER).is_err(), "{place}");
        }
        let (_, mut joined) = given(&calls);
        joined.list.truncate(3);
        assert!(joined.check(state, &PLAIN_READER).is_err());
    }
}
