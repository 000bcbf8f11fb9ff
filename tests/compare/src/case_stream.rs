//! The book of a case that comes in pieces, and the calls on it in turn (document 02, order 9).

use plain_reader::StreamState;

use crate::case::{answer_of, number};
use crate::escape::shown;
use crate::pieces::{Call, Given, Joined, NUMBERS_OF_A_HEADING};
use crate::quoted::fields_of;
use crate::subject::{StreamAnswer, Subject};

/// What the lines of a case say of a book that comes in pieces.
#[derive(Default)]
pub struct CaseStream {
    /// The state that the calls begin with; none when it is a new one.
    from: Option<StreamState>,
    calls: Vec<ExpectedCall>,
}

struct ExpectedCall {
    /// The bytes of a piece; none of a declared end.
    piece: Option<Vec<u8>>,
    /// How many numbers the list holds.
    length: usize,
    answer: StreamAnswer,
    /// The state after the call; none when it is the one before it.
    state: Option<StreamState>,
    /// The numbers of the headings, from the list's front.
    headings: Vec<u32>,
}

impl CaseStream {
    /// Adds what a line says; false when it is not about a book in pieces.
    pub fn add(&mut self, word: &str, rest: &str) -> Result<bool, String> {
        match word {
            "state" if !self.calls.is_empty() => return Err("state after a call".to_string()),
            "state" if self.from.is_some() => return Err("state twice".to_string()),
            "state" => self.from = Some(state(rest)?),
            "piece" => {
                let form = "piece LENGTH BYTES -> ANSWER";
                let (call, answer) = rest.rsplit_once(" -> ").ok_or(form)?;
                let (length, bytes) = call.split_once(' ').ok_or(form)?;
                let [piece] = fields_of(bytes)?;
                self.add_call(Some(piece), length, answer)?;
            }
            "end" => {
                let (length, answer) = rest.split_once(" -> ").ok_or("end LENGTH -> ANSWER")?;
                self.add_call(None, length, answer)?;
            }
            _ => return Ok(false),
        }
        Ok(true)
    }

    fn add_call(
        &mut self,
        piece: Option<Vec<u8>>,
        length: &str,
        answer: &str,
    ) -> Result<(), String> {
        let (answer, headings) = match answer.split_once(": ") {
            Some((answer, written)) => (answer, numbers_of_headings(written)?),
            None => (answer, Vec::new()),
        };
        let (answer, after) = match answer.split_once(" state ") {
            Some((answer, written)) => (answer, Some(state(written)?)),
            None => (answer, None),
        };
        let call = ExpectedCall {
            piece,
            length: number(length)?,
            answer: answer_of(answer)?,
            state: after,
            headings,
        };
        call.check_meaning()?;
        self.calls.push(call);
        Ok(())
    }

    /// How many calls are expected to answer what.
    pub fn expectations(&self) -> usize {
        self.calls.len()
    }

    /// Refuses a state without calls, and calls beside a text.
    pub fn check_meaning(&self, text: &[u8]) -> Result<(), &'static str> {
        match (self.calls.is_empty(), text.is_empty()) {
            (true, _) if self.from.is_some() => Err("state, and no calls"),
            (false, false) => Err("pieces, and a text"),
            _ => Ok(()),
        }
    }

    /// Does the calls in turn; the first difference is told in words.
    pub fn check(&self, subject: &Subject) -> Result<(), String> {
        if self.calls.is_empty() {
            return Ok(());
        }
        let mut stream = match self.from {
            Some(state) => (subject.stream_from)(state),
            None => (subject.stream)(),
        };
        let mut state = self.from.unwrap_or_default();
        if stream.state() != state {
            return Err(format!("first {:?}", stream.state()));
        }
        let mut joined = Joined::default();
        for (index, expected) in self.calls.iter().enumerate() {
            state = expected.state.unwrap_or(state);
            let call = expected.call();
            let seen = call.on(&mut *stream, expected.length);
            let told = |difference| format!("call {index}, {}: {difference}", expected.told());
            expected.given(state).check(&seen).map_err(told)?;
            joined.add(call, &seen);
        }
        match self.from {
            Some(_) => Ok(()),
            None => joined.check(state, subject),
        }
    }
}

impl ExpectedCall {
    /// Number 0 comes with a state and as many headings as the count says, which the list has room for;
    /// every other with neither.
    fn check_meaning(&self) -> Result<(), &'static str> {
        let count = self.headings.len() / NUMBERS_OF_A_HEADING;
        match self.answer {
            (0, _) if self.state.is_none() => Err("number 0, and no state"),
            (0, given) if given != count => Err("another count than there are headings"),
            (0, _) if self.headings.len() > self.length => Err("headings past the list"),
            (1.., _) if self.state.is_some() => Err("a refusal, and a state"),
            (1.., _) if count > 0 => Err("a refusal, and headings"),
            _ => Ok(()),
        }
    }

    fn call(&self) -> Call<'_> {
        self.piece.as_deref().map_or(Call::End, Call::Piece)
    }

    fn given(&self, state: StreamState) -> Given {
        Given::expected(self.answer, state, &self.headings, self.length)
    }

    fn told(&self) -> String {
        let call = match &self.piece {
            Some(bytes) => format!("piece {}", shown(bytes)),
            None => "end".to_string(),
        };
        format!("{call}, list of {}", self.length)
    }
}

/// `TOTAL LINE STARS TITLE ENDED`.
fn state(written: &str) -> Result<StreamState, String> {
    let [total, line, stars, title, ended] = numbers(written)?;
    Ok(StreamState {
        total,
        line,
        stars,
        title,
        ended,
    })
}

/// `START STARS TITLE; ..`, each perhaps with `times COUNT every STEP` after it: so many headings, each
/// starting so many bytes after the one before.
fn numbers_of_headings(written: &str) -> Result<Vec<u32>, String> {
    let mut headings = Vec::new();
    for heading in written.split("; ") {
        let (heading, run) = heading
            .split_once(" times ")
            .unwrap_or((heading, "1 every 0"));
        let (count, step) = run.split_once(" every ").ok_or("times COUNT every STEP")?;
        let (count, step): (u32, u32) = (number(count)?, number(step)?);
        let [start, stars, title] = numbers(heading)?;
        for place in 0..count {
            headings.extend([start + place * step, stars, title]);
        }
    }
    Ok(headings)
}

/// So many numbers with a space between.
fn numbers<const COUNT: usize>(written: &str) -> Result<[u32; COUNT], String> {
    let numbers: Vec<u32> = written.split(' ').map(number).collect::<Result<_, _>>()?;
    let told = |_| format!("{COUNT} numbers expected in {written:?}");
    numbers.try_into().map_err(told)
}

#[cfg(test)]
mod tests {
    use super::*;
    use crate::subject::PLAIN_READER;

    /// What a case with those lines comes to.
    fn outcome(lines: &[&str]) -> Result<(), String> {
        let mut stream = CaseStream::default();
        for line in lines {
            let (word, rest) = line.split_once(' ').unwrap_or((line, ""));
            assert!(stream.add(word, rest)?, "{line}");
        }
        stream.check_meaning(b"")?;
        stream.check(&PLAIN_READER)
    }

    #[test]
    fn calls_in_turn() {
        for lines in [
            &[r#"piece 0 "" -> 0 0 state 0 0 0 0 0"#][..],
            &[
                r#"piece 4 "x\n* A\n*" -> 0 1 state 7 1 1 0 0: 2 1 1"#,
                r#"piece 1 " \n" -> 3 1"#,
                r#"piece 3 " \n" -> 0 1 state 9 0 0 0 0: 6 1 0"#,
                "end 0 -> 0 0 state 9 0 0 0 1",
                "end 0 -> 21 0",
            ],
            &["state 8 5 2 1 0", "end 3 -> 0 1 state 8 5 2 1 1: 3 2 1"],
            &["state 3 4 0 0 0", r#"piece 9 "a" -> 21 0"#],
            &[r#"piece 9 "* \n"*3 -> 0 3 state 9 0 0 0 0: 0 1 0 times 3 every 3"#],
            &[r#"piece 6 "* \n"*2 -> 0 2 state 6 0 0 0 0: 0 1 0; 3 1 0"#],
        ] {
            assert_eq!(outcome(lines), Ok(()), "{lines:?}");
        }
    }

    #[test]
    fn other_answers_are_told() {
        for lines in [
            &[r#"piece 3 "* A\n" -> 3 1"#][..],
            &[r#"piece 3 "* A\n" -> 1 0"#],
            &[r#"piece 0 "* A\n" -> 3 2"#],
            &[r#"piece 3 "* A\n" -> 0 0 state 4 0 0 0 0"#],
            &[r#"piece 3 "* A\n" -> 0 1 state 4 0 0 0 0: 0 1 2"#],
            &[r#"piece 3 "* A\n" -> 0 1 state 4 0 0 0 1: 0 1 1"#],
            &["end 0 -> 0 0 state 0 0 0 0 0"],
            &["state 1 0 0 0 0", "end 0 -> 0 0 state 0 0 0 0 1"],
        ] {
            assert!(outcome(lines).is_err(), "{lines:?}");
        }
    }

    #[test]
    fn lines_of_another_form_are_refused() {
        let end = "end 0 -> 0 0 state 0 0 0 0 1";
        for lines in [
            &["state 0 0 0 0 0"][..],
            &["state 0 0 0 0", end],
            &["state 0 0 0 0 0", "state 0 0 0 0 0", end],
            &[end, "state 0 0 0 0 1"],
            &["end -> 0 0 state 0 0 0 0 1"],
            &["end 0 -> 0 0"],
            &["end 0 -> 0 0 state 0 0 0 1"],
            &["end 0 0 state 0 0 0 0 1"],
            &[r#"piece "" -> 0 0 state 0 0 0 0 0"#],
            &[r#"piece 0 "" "" -> 0 0 state 0 0 0 0 0"#],
            &[r#"piece 3 "* A\n" -> 0 1 state 4 0 0 0 0"#],
            &[r#"piece 3 "* A\n" -> 0 1 state 4 0 0 0 0: 0 1"#],
            &[r#"piece 3 "* A\n" -> 0 1 state 4 0 0 0 0: 0 1 1; "#],
            &[r#"piece 0 "* A\n" -> 3 1 state 0 0 0 0 0"#],
            &[r#"piece 3 "* A\n" -> 3 1: 0 1 1"#],
            &[r#"piece 2 "* A\n" -> 0 1 state 4 0 0 0 0: 0 1 1"#],
            &[r#"piece 3 "* A\n" -> 0 1 state 4 0 0 0 0: 0 1 1 times 1"#],
        ] {
            assert!(outcome(lines).is_err(), "{lines:?}");
        }
        let mut stream = CaseStream::default();
        assert_eq!(stream.add("end", &end[4..]), Ok(true));
        assert!(stream.check_meaning(b"x").is_err());
        assert_eq!(stream.add("room", "3"), Ok(false));
    }
}
