//! The book of a case, the calls on it in turn, and how it is after them (document 02, order 6).

use plain_reader::orders_of;

use crate::calls::{logged, Book};
use crate::case::{answer_of, number};
use crate::order::Order;
use crate::output::{check_output, fresh_output};
use crate::quoted::fields;
use crate::run_promise::{check_run, Added};
use crate::subject::{IntakeAnswer, Subject};

/// What the lines of a case say of a book.
#[derive(Default)]
pub struct CaseBook {
    room: Option<usize>,
    used: Option<usize>,
    log: Vec<u8>,
    calls: Vec<Call>,
    /// The front of the buffer after the calls; none when they add nothing.
    pub after: Option<Vec<u8>>,
}

struct Call {
    what: What,
    answer: IntakeAnswer,
}

/// What a call is handed.
enum What {
    Order(Vec<u8>),
    Log(Vec<u8>),
}

impl CaseBook {
    /// Adds what a line says; false when it is not about a book.
    pub fn add(&mut self, word: &str, rest: &str) -> Result<bool, String> {
        match word {
            "room" => set_once(&mut self.room, word, rest)?,
            "used" if self.calls.is_empty() => set_once(&mut self.used, word, rest)?,
            "used" => return Err("used after a call".to_string()),
            "intake" => {
                let (order, answer) = call_and_answer(rest)?;
                self.add_call(What::Order(buffer_of(order)?), answer)?;
            }
            "intake-buffer" => {
                let (bytes, answer) = call_and_answer(rest)?;
                self.add_call(What::Order(fields(bytes)?.concat()), answer)?;
            }
            "logged" => self.log.extend(logged(&buffer_of(rest)?)),
            "log-bytes" => self.log.extend(fields(rest)?.concat()),
            "play" => {
                let answer = rest.strip_prefix("-> ").ok_or("play -> NUMBER USED")?;
                self.add_call(What::Log(self.log.clone()), answer)?;
            }
            _ => return Ok(false),
        }
        Ok(true)
    }

    fn add_call(&mut self, what: What, answer: &str) -> Result<(), String> {
        let answer = answer_of(answer)?;
        self.calls.push(Call { what, answer });
        Ok(())
    }

    /// How many calls are expected to answer what.
    pub fn expectations(&self) -> usize {
        self.calls.len()
    }

    /// Refuses a book without calls, calls without a book, a log that no call plays, and a book after
    /// the calls where these add nothing, or none where they add something.
    pub fn check_meaning(&self, text: &[u8]) -> Result<(), &'static str> {
        let is_played = |call: &Call| matches!(&call.what, What::Log(log) if *log == self.log);
        match (self.room, self.calls.is_empty()) {
            (None, false) => return Err("calls, and no room"),
            (Some(_), true) => return Err("room, and no calls"),
            (None, true) if self.used.is_some() => return Err("used, and no room"),
            (Some(room), _) if text.len() > room => return Err("a text longer than its room"),
            _ => {}
        }
        if !self.log.is_empty() && !self.calls.iter().any(is_played) {
            return Err("a log, and no call that plays it");
        }
        match (self.adds(text), &self.after) {
            (true, None) => Err("a call that adds, and no book after it"),
            (false, Some(_)) => Err("a book after calls that add nothing"),
            (_, Some(after)) if self.room < Some(after.len()) => Err("a book longer than its room"),
            _ => Ok(()),
        }
    }

    /// Some call is expected to add bytes.
    fn adds(&self, text: &[u8]) -> bool {
        let used = self.used.unwrap_or(text.len());
        self.calls.iter().any(|call| call.answer.1 != used)
    }

    /// Does the calls in turn; the first difference is told in words.
    pub fn check(&self, text: &[u8], subject: &Subject) -> Result<(), String> {
        let Some(room) = self.room else {
            return Ok(());
        };
        let before = Book {
            buffer: with_front(fresh_output(room), text),
            room,
            used: self.used.unwrap_or(text.len()),
        };
        let mut book = before.clone();
        let mut added = Vec::new();
        for (index, call) in self.calls.iter().enumerate() {
            let accepted = call.check(&mut book, subject);
            added.extend(accepted.map_err(|told| format!("call {index}: {told}"))?);
        }
        let after = self.after.as_deref().unwrap_or_default();
        check_output(&with_front(before.buffer.clone(), after), &book.buffer)?;
        check_run(before.text(), book.text(), &added)
    }
}

impl Call {
    /// Does the call and gives what it added. What it must leave as it was is compared, and a log with
    /// the single calls in turn.
    fn check(&self, book: &mut Book, subject: &Subject) -> Result<Vec<Added>, String> {
        let before = book.clone();
        let seen = match &self.what {
            What::Order(buffer) => book.take(buffer, subject),
            What::Log(log) => book.play(log, subject),
        };
        if seen != self.answer {
            return Err(format!("expected {:?}, seen {seen:?}", self.answer));
        }
        let mut left = before.buffer.clone();
        let added = before.used..book.used.min(book.room);
        if !added.is_empty() {
            left[added.clone()].copy_from_slice(&book.buffer[added]);
        }
        check_output(&left, &book.buffer)?;
        self.check_single_calls(before, book, subject)
    }

    /// The single calls in turn end with the same book; gives what they added.
    fn check_single_calls(
        &self,
        before: Book,
        after: &Book,
        subject: &Subject,
    ) -> Result<Vec<Added>, String> {
        let orders = match &self.what {
            What::Order(buffer) => vec![&buffer[..]],
            What::Log(log) => orders_of(log).unwrap_or_default(),
        };
        let mut single = before;
        let added = single.take_in_turn(&orders, subject);
        if single.used != after.used {
            return Err(format!("{} bytes in use by single calls", single.used));
        }
        check_output(&single.buffer, &after.buffer).map(|()| added)
    }
}

/// The bytes with others in place of their front.
fn with_front(mut bytes: Vec<u8>, front: &[u8]) -> Vec<u8> {
    bytes.splice(..front.len(), front.iter().copied());
    bytes
}

/// Sets a number that a case says no more than once.
fn set_once(place: &mut Option<usize>, word: &str, rest: &str) -> Result<(), String> {
    match place.replace(number(rest)?) {
        Some(_) => Err(format!("{word} twice")),
        None => Ok(()),
    }
}

/// What stands before the arrow and after it.
fn call_and_answer(rest: &str) -> Result<(&str, &str), String> {
    let parts = rest.rsplit_once(" -> ");
    parts.ok_or("BYTES .. -> NUMBER USED".to_string())
}

/// The buffer of an order: BYTES of its title, then of each key and each value.
fn buffer_of(line: &str) -> Result<Vec<u8>, String> {
    let mut fields = fields(line)?.into_iter();
    let mut order = Order {
        title: fields.next().unwrap_or_default(),
        pairs: Vec::new(),
    };
    while let Some(key) = fields.next() {
        let value = fields.next().ok_or("a key, and no value")?;
        order.pairs.push((key, value));
    }
    let buffer = order.buffer();
    buffer.ok_or("an order too long for a buffer".to_string())
}

#[cfg(test)]
mod tests {
    use super::*;
    use crate::subject::PLAIN_READER;

    const ORDER: &str = r#""T" "REQUEST" "r" "VIN" "7""#;
    const SHEET: &[u8] = b"* T\n:PROPERTIES:\n:REQUEST: r\n:VIN: 7\n:END:\n";

    /// A book with those lines.
    fn book(lines: &[&str]) -> Result<CaseBook, String> {
        let mut book = CaseBook::default();
        for line in lines {
            let (word, rest) = line.split_once(' ').unwrap_or((line, ""));
            assert!(book.add(word, rest)?, "{line}");
        }
        Ok(book)
    }

    /// What a case with that text, those lines and the sheet after it comes to.
    fn outcome(text: &[u8], after: Option<&[u8]>, lines: &[&str]) -> Result<(), String> {
        let mut book = book(lines)?;
        book.after = after.map(<[u8]>::to_vec);
        book.check_meaning(text)?;
        book.check(text, &PLAIN_READER)
    }

    #[test]
    fn calls_in_turn_and_logs() {
        let accepted = format!("intake {ORDER} -> 0 43");
        let seen = format!("intake {ORDER} -> 19 43");
        let logged = format!("logged {ORDER}");
        let buffer = r#"intake-buffer "" -> 12 43"#;
        let single = ["room 50", &accepted, &seen, buffer];
        assert_eq!(outcome(b"", Some(SHEET), &single), Ok(()));
        let log = ["room 50", &logged, "play -> 0 43", "play -> 0 43"];
        assert_eq!(outcome(b"", Some(SHEET), &log), Ok(()));
        let cut = ["room 50", &logged, r#"log-bytes "\x01""#, "play -> 27 0"];
        assert_eq!(outcome(b"", None, &cut), Ok(()));
        let in_use = ["room 9", "used 10", r#"intake-buffer "" -> 12 10"#];
        assert_eq!(outcome(b"x", None, &in_use), Ok(()));
        let earlier = ["room 50", "used 0", &accepted];
        assert_eq!(outcome(b"* Z", Some(SHEET), &earlier), Ok(()));
    }

    #[test]
    fn other_answers_and_books_are_told() {
        let accepted = format!("intake {ORDER} -> 0 43");
        let more = format!("intake {ORDER} -> 0 44");
        let other = format!("intake {ORDER} -> 16 0");
        let room = "room 50";
        for (after, lines) in [
            (Some(&SHEET[1..]), [room, &accepted]),
            (Some(b"".as_slice()), [room, &accepted]),
            (Some(SHEET), [room, &more]),
            (None, [room, &other]),
        ] {
            assert!(outcome(b"", after, &lines).is_err(), "{lines:?}");
        }
    }

    #[test]
    fn lines_that_make_no_book_are_refused() {
        let accepted = format!("intake {ORDER} -> 0 43");
        let refused = r#"intake-buffer "" -> 12 0"#;
        for (after, lines) in [
            (Some(SHEET), &[&accepted[..]] as &[&str]),
            (None, &["room 50"]),
            (None, &["used 0"]),
            (None, &["room 50", &accepted]),
            (Some(SHEET), &["room 40", &accepted]),
            (Some(SHEET), &["room 50", refused]),
            (None, &["room 50", "room 50", refused]),
            (None, &["room 50", "used 0", "used 0", refused]),
            (None, &["room 50", refused, "used 0"]),
            (None, &["room 50", refused, r#"log-bytes "x""#]),
            (None, &["room 50", r#"intake "T" "k" -> 17 0"#]),
            (None, &["room 50", r#"intake "T""#]),
            (None, &["room 50", "play 27 0"]),
            (None, &["room 50", r#"intake "a"*65536 -> 12 0"#]),
        ] {
            assert!(outcome(b"", after, lines).is_err(), "{lines:?}");
        }
        assert!(outcome(b"ab", None, &["room 1", "used 0", refused]).is_err());
    }
}
