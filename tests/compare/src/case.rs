//! The cases of `tests/cases`; their form is described in the README there.

use std::fs;
use std::path::Path;

use plain_reader::{Date, NO_STAMP, NUMBERS_OF_A_RECORD};

use crate::case_book::CaseBook;
use crate::case_order::CaseOrder;
use crate::case_stream::CaseStream;
use crate::escape::unescape;
use crate::subject::{
    CloserAnswer, DaysAnswer, DefaultedAnswer, LookupAnswer, PlanningAnswer, ReadAnswer,
    SheetAnswer, TimestampAnswer,
};
use crate::written::{plan, stamp};

/// The numbers of a record.
pub type Numbers = [u32; NUMBERS_OF_A_RECORD];

/// A record's numbers without the last, its line number.
const WITHOUT_LINE_NUMBER: usize = NUMBERS_OF_A_RECORD - 1;

/// The place of a record's start among its numbers.
const START: usize = 1;

/// A text, perhaps a defaults text beside it, an order whose sheet it is or calls on it as a book, or a
/// book that comes in pieces, and what is expected of them.
pub struct Case {
    pub name: String,
    pub text: Vec<u8>,
    pub defaults: Option<Vec<u8>>,
    pub order: CaseOrder,
    pub book: CaseBook,
    pub stream: CaseStream,
    pub expectations: Vec<Expectation>,
}

impl Case {
    fn new(name: &str) -> Self {
        Case {
            name: name.to_string(),
            text: Vec::new(),
            defaults: None,
            order: CaseOrder::default(),
            book: CaseBook::default(),
            stream: CaseStream::default(),
            expectations: Vec::new(),
        }
    }

    /// The text that a line about a text adds to.
    fn open_text(&mut self) -> &mut Vec<u8> {
        let other = self.defaults.as_mut().or(self.book.after.as_mut());
        other.unwrap_or(&mut self.text)
    }

    /// How many expectations the case has, each call on a book and each piece counted.
    pub fn expected(&self) -> usize {
        self.expectations.len() + self.book.expectations() + self.stream.expectations()
    }
}

pub enum Expectation {
    Table(Vec<ExpectedRecord>),
    Kinds(Vec<u32>),
    Count(usize),
    OfKind {
        kind: u32,
        count: usize,
    },
    Record {
        index: usize,
        record: ExpectedRecord,
    },
    Refused(u32),
    Length {
        length: usize,
        answer: ReadAnswer,
    },
    Lookup {
        at: usize,
        key: Vec<u8>,
        answer: LookupAnswer,
        value: Option<Vec<u8>>,
    },
    Defaulted {
        at: usize,
        key: Vec<u8>,
        answer: DefaultedAnswer,
        /// A part of the text whose answer it is.
        value: Option<Vec<u8>>,
    },
    Closer {
        at: usize,
        end: usize,
        answer: CloserAnswer,
    },
    Timestamp {
        /// A text of its own, in place of the case's.
        text: Option<Vec<u8>>,
        at: usize,
        answer: TimestampAnswer,
    },
    Planning {
        at: usize,
        answer: Box<PlanningAnswer>,
    },
    Days {
        first: Date,
        second: Date,
        answer: DaysAnswer,
    },
    Sheet {
        room: usize,
        answer: SheetAnswer,
    },
}

/// A record as a case writes it: with its line number or without.
pub struct ExpectedRecord(Vec<u32>);

impl ExpectedRecord {
    /// All its numbers, in a case with that text.
    pub fn numbers(&self, text: &[u8]) -> Vec<u32> {
        let mut numbers = self.0.clone();
        if numbers.len() == WITHOUT_LINE_NUMBER {
            numbers.push(newlines_before(text, numbers[START]));
        }
        numbers
    }
}

/// "how many bytes 10 stand before" a byte, which a wrong case may have past the text.
fn newlines_before(text: &[u8], place: u32) -> u32 {
    let before = text.iter().take(place as usize);
    before.filter(|byte| **byte == 10).count() as u32
}

/// The cases of one file, or what is wrong with it and on which line.
pub fn cases_of(path: &Path) -> Result<Vec<Case>, String> {
    let content =
        fs::read_to_string(path).map_err(|error| format!("{}: {error}", path.display()))?;
    let directory = path.parent().unwrap_or(Path::new("."));
    let mut cases = Vec::new();
    for (index, line) in content.lines().enumerate() {
        parse_line(line, directory, &mut cases)
            .map_err(|error| format!("{}:{}: {error}", path.display(), index + 1))?;
    }
    if cases.is_empty() {
        return Err(format!("{}: no cases", path.display()));
    }
    let meaning = |case: &Case| {
        check_meaning(case).map_err(|error| format!("{}: {}: {error}", path.display(), case.name))
    };
    cases.iter().try_for_each(meaning).map(|()| cases)
}

/// Refuses a case that expects nothing, of its text, of its defaults text, of its order, of its book
/// or of a state.
fn check_meaning(case: &Case) -> Result<(), &'static str> {
    if expects_nothing(case) {
        return Err("nothing expected");
    }
    case.book.check_meaning(&case.text)?;
    case.stream.check_meaning(&case.text)?;
    let is_defaulted = |expected: &Expectation| matches!(expected, Expectation::Defaulted { .. });
    match (&case.defaults, case.expectations.iter().any(is_defaulted)) {
        (Some(_), _) if case.book.after.is_some() => Err("defaults, and a book after calls"),
        (Some(_), false) => Err("defaults, and nothing expected of them"),
        (None, true) => Err("defaulted, and no defaults"),
        _ => check_order(case),
    }
}

/// An order and `sheet` lines need each other. The text is the sheet of an order that one of these
/// lines takes, whose pairs must be known; any other has none.
fn check_order(case: &Case) -> Result<(), &'static str> {
    let sheets = case.expectations.iter().filter_map(sheet_number);
    let sheets: Vec<u32> = sheets.collect();
    match (case.order.is_empty(), sheets.is_empty()) {
        (true, true) => return Ok(()),
        (false, true) => return Err("an order, and nothing expected of it"),
        _ => case.order.buffer()?,
    };
    let has_pairs = case.order.title_and_pairs.is_some();
    match (sheets.contains(&0), case.text.is_empty()) {
        (true, true) => Err("a sheet, and no text"),
        (true, false) if !has_pairs => Err("a sheet, and no title and pairs"),
        (false, false) => Err("a text, and no sheet"),
        _ => Ok(()),
    }
}

/// The number that a `sheet` line expects.
fn sheet_number(expected: &Expectation) -> Option<u32> {
    match expected {
        Expectation::Sheet { answer, .. } => Some(answer.0),
        _ => None,
    }
}

/// The case has no expectation, or a table without records.
fn expects_nothing(case: &Case) -> bool {
    let is_empty = |expected: &Expectation| matches!(expected, Expectation::Table(records) if records.is_empty());
    case.expected() == 0 || case.expectations.iter().any(is_empty)
}

fn parse_line(line: &str, directory: &Path, cases: &mut Vec<Case>) -> Result<(), String> {
    if line.is_empty() || line.starts_with('#') {
        return Ok(());
    }
    if let Some(name) = line.strip_prefix("case ") {
        cases.push(Case::new(name));
        return Ok(());
    }
    let case = cases.last_mut().ok_or("no case is open")?;
    if line.starts_with(|first: char| first.is_ascii_digit()) {
        return add_record(line, case);
    }
    if let Some(escaped) = line.strip_prefix('>') {
        case.open_text().extend(unescape(escaped)?);
        case.open_text().push(b'\n');
        return Ok(());
    }
    let (word, rest) = line.split_once(' ').unwrap_or((line, ""));
    if word == "defaults" {
        alone(word, rest)?;
        return open(&mut case.defaults, word);
    }
    if word == "after" {
        alone(word, rest)?;
        return open(&mut case.book.after, word);
    }
    let is_text = add_text(word, rest, directory, case.open_text())?;
    if is_text
        || case.order.add(word, rest)?
        || case.book.add(word, rest)?
        || case.stream.add(word, rest)?
    {
        return Ok(());
    }
    case.expectations.push(expectation(word, rest)?);
    Ok(())
}

/// From here on lines about a text are about this one.
fn open(text: &mut Option<Vec<u8>>, word: &str) -> Result<(), String> {
    match text.replace(Vec::new()) {
        Some(_) => Err(format!("{word} twice")),
        None => Ok(()),
    }
}

/// Adds to the text what a line other than `>` says; false when the line is not about the text.
fn add_text(word: &str, rest: &str, directory: &Path, text: &mut Vec<u8>) -> Result<bool, String> {
    match word {
        "no-newline" => {
            alone(word, rest)?;
            if text.pop() != Some(b'\n') {
                return Err("no-newline, and no byte 10 before it".to_string());
            }
        }
        "repeat" => {
            let (count, piece) = rest.split_once(' ').ok_or("repeat COUNT PIECE")?;
            text.extend(unescape(piece)?.repeat(number(count)?));
        }
        "numbered" => {
            let [from, to, piece] = words(rest)?;
            add_numbered(number(from)?, number(to)?, piece, text)?;
        }
        "file" => {
            let path = directory.join(rest);
            let bytes = fs::read(&path).map_err(|error| format!("{}: {error}", path.display()))?;
            text.extend(bytes);
        }
        _ => return Ok(false),
    }
    Ok(true)
}

/// Adds `piece` for every number up or down from `from` to `to`, in place of its `%`.
fn add_numbered(from: usize, to: usize, piece: &str, text: &mut Vec<u8>) -> Result<(), String> {
    let mut pieces = Vec::new();
    for level in from.min(to)..=from.max(to) {
        pieces.push(unescape(&piece.replace('%', &level.to_string()))?);
    }
    if from > to {
        pieces.reverse();
    }
    text.extend(pieces.concat());
    Ok(())
}

fn add_record(line: &str, case: &mut Case) -> Result<(), String> {
    match case.expectations.last_mut() {
        Some(Expectation::Table(records)) => records.push(expected_record(line)?),
        _ => return Err("a record outside a table".to_string()),
    }
    Ok(())
}

fn expectation(word: &str, rest: &str) -> Result<Expectation, String> {
    Ok(match word {
        "table" => {
            alone(word, rest)?;
            Expectation::Table(Vec::new())
        }
        "kinds" => Expectation::Kinds(rest.split(' ').map(number).collect::<Result<_, _>>()?),
        "count" => Expectation::Count(number(rest)?),
        "kind" => {
            let (kind, count) = rest.split_once(" -> ").ok_or("kind KIND -> COUNT")?;
            Expectation::OfKind {
                kind: number(kind)?,
                count: number(count)?,
            }
        }
        "refused" => Expectation::Refused(number(rest)?),
        "record" => {
            let (index, record) = rest.split_once(" -> ").ok_or("record INDEX -> NUMBERS")?;
            Expectation::Record {
                index: number(index)?,
                record: expected_record(record)?,
            }
        }
        "length" => {
            let (length, answer) = counted(rest, "length LENGTH -> ANSWER")?;
            Expectation::Length { length, answer }
        }
        "lookup" => lookup_expectation(rest)?,
        "defaulted" => defaulted_expectation(rest)?,
        "closer" => closer_expectation(rest)?,
        "stamp" => timestamp_expectation(rest)?,
        "planning" => planning_expectation(rest)?,
        "days" => days_expectation(rest)?,
        "sheet" => {
            let (room, answer) = counted(rest, "sheet ROOM -> ANSWER")?;
            Expectation::Sheet { room, answer }
        }
        _ => return Err(format!("unknown word {word:?}")),
    })
}

/// A number, and after the arrow an answer of a number and a count.
fn counted(rest: &str, form: &str) -> Result<(usize, (u32, usize)), String> {
    let (room, answer) = rest.split_once(" -> ").ok_or(form)?;
    Ok((number(room)?, answer_of(answer)?))
}

/// A number and a count.
pub fn answer_of(answer: &str) -> Result<(u32, usize), String> {
    let [given, count] = words(answer)?;
    Ok((number(given)?, number(count)?))
}

fn closer_expectation(rest: &str) -> Result<Expectation, String> {
    let (call, answer) = rest.split_once(" -> ").ok_or("closer AT END -> ANSWER")?;
    let [at, end] = words(call)?;
    let [found, closer_start, closer_end, compared] = words(answer)?;
    Ok(Expectation::Closer {
        at: number(at)?,
        end: number(end)?,
        answer: (
            number(found)?,
            number(closer_start)?,
            number(closer_end)?,
            number(compared)?,
        ),
    })
}

fn timestamp_expectation(rest: &str) -> Result<Expectation, String> {
    let form = "stamp AT or \"TEXT\" -> none, or END: STAMP";
    let (place, answer) = rest.split_once(" -> ").ok_or(form)?;
    let (text, at) = if place.starts_with('"') {
        (Some(quoted(place)?), 0)
    } else {
        (None, number(place)?)
    };
    let answer = match answer {
        "none" => (0, NO_STAMP),
        _ => {
            let (end, written) = answer.split_once(": ").ok_or(form)?;
            (number(end)?, stamp(written)?)
        }
    };
    Ok(Expectation::Timestamp { text, at, answer })
}

fn planning_expectation(rest: &str) -> Result<Expectation, String> {
    let form = "planning AT -> NUMBER, or NUMBER: KEYWORD STAMP; ..";
    let (at, answer) = rest.split_once(" -> ").ok_or(form)?;
    let answer = match answer.split_once(": ") {
        Some((given, written)) => (number(given)?, plan(written)?),
        None => (number(answer)?, [NO_STAMP; 3]),
    };
    Ok(Expectation::Planning {
        at: number(at)?,
        answer: Box::new(answer),
    })
}

fn days_expectation(rest: &str) -> Result<Expectation, String> {
    let (call, answer) = rest.split_once(" -> ").ok_or("days DATE DATE -> ANSWER")?;
    let [first, second] = words(call)?;
    let [given, days] = words(answer)?;
    Ok(Expectation::Days {
        first: date(first)?,
        second: date(second)?,
        answer: (number(given)?, number(days)?),
    })
}

/// `YEAR-MONTH-DAY`, any three numbers.
fn date(word: &str) -> Result<Date, String> {
    let fields: Vec<&str> = word.split('-').collect();
    match fields[..] {
        [year, month, day] => Ok(Date {
            year: number(year)?,
            month: number(month)?,
            day: number(day)?,
        }),
        _ => Err(format!("{word:?} is no date")),
    }
}

fn lookup_expectation(rest: &str) -> Result<Expectation, String> {
    let line = lookup_line(rest, "lookup AT \"KEY\" -> NUMBER START END")?;
    let [given, start, end] = words(line.answer)?;
    Ok(Expectation::Lookup {
        at: line.at,
        key: line.key,
        answer: (number(given)?, number(start)?, number(end)?, line.further),
        value: line.value,
    })
}

fn defaulted_expectation(rest: &str) -> Result<Expectation, String> {
    let line = lookup_line(rest, "defaulted AT \"KEY\" -> NUMBER WHOSE START END")?;
    let [given, whose, start, end] = words(line.answer)?;
    let whose = match whose {
        "1" => 1,
        "2" => 2,
        _ => return Err(format!("{whose:?} names no text")),
    };
    Ok(Expectation::Defaulted {
        at: line.at,
        key: line.key,
        answer: (
            number(given)?,
            whose,
            number(start)?,
            number(end)?,
            line.further,
        ),
        value: line.value,
    })
}

/// What a line about a lookup says.
struct LookupLine<'l> {
    at: usize,
    key: Vec<u8>,
    /// The words between the arrow and the further number.
    answer: &'l str,
    further: usize,
    value: Option<Vec<u8>>,
}

/// The parts of a line of that form, after which a further number and a value may stand.
fn lookup_line<'l>(rest: &'l str, form: &str) -> Result<LookupLine<'l>, String> {
    let told = || format!("{form}, perhaps further FURTHER, perhaps \"VALUE\"");
    let (call, answer) = rest.split_once(" -> ").ok_or_else(told)?;
    let (at, key) = call.split_once(' ').ok_or_else(told)?;
    let (answer, value) = match answer.split_once(" \"") {
        Some((answer, value)) => (answer, Some(format!("\"{value}"))),
        None => (answer, None),
    };
    let (answer, further) = answer.split_once(" further ").unwrap_or((answer, "0"));
    Ok(LookupLine {
        at: number(at)?,
        key: quoted(key)?,
        answer,
        further: number(further)?,
        value: value.map(|value| quoted(&value)).transpose()?,
    })
}

/// Nothing stands after a word that takes nothing.
fn alone(word: &str, rest: &str) -> Result<(), String> {
    if rest.is_empty() {
        return Ok(());
    }
    Err(format!("{rest:?} after {word}"))
}

fn quoted(word: &str) -> Result<Vec<u8>, String> {
    let inside = word
        .strip_prefix('"')
        .and_then(|rest| rest.strip_suffix('"'));
    unescape(inside.ok_or(format!("{word} is not in double quotes"))?)
}

fn words<const COUNT: usize>(line: &str) -> Result<[&str; COUNT], String> {
    let words: Vec<&str> = line.splitn(COUNT, ' ').collect();
    words
        .try_into()
        .map_err(|_| format!("{COUNT} words expected in {line:?}"))
}

/// The number that the word is.
pub fn number<N: std::str::FromStr>(word: &str) -> Result<N, String> {
    word.parse().map_err(|_| format!("{word:?} is no number"))
}

fn expected_record(line: &str) -> Result<ExpectedRecord, String> {
    let numbers: Vec<u32> = line.split(' ').map(number).collect::<Result<_, _>>()?;
    match numbers.len() {
        WITHOUT_LINE_NUMBER | NUMBERS_OF_A_RECORD => Ok(ExpectedRecord(numbers)),
        count => Err(format!(
            "a record has {NUMBERS_OF_A_RECORD} numbers, or {WITHOUT_LINE_NUMBER} without its line \
             number; here are {count}"
        )),
    }
}

#[cfg(test)]
mod tests {
    use super::*;

    fn numbers(line: &str, text: &[u8]) -> Result<Vec<u32>, String> {
        expected_record(line).map(|record| record.numbers(text))
    }

    fn lookup_answer(rest: &str) -> Result<LookupAnswer, String> {
        match lookup_expectation(rest)? {
            Expectation::Lookup { answer, .. } => Ok(answer),
            _ => Err("no lookup".to_string()),
        }
    }

    #[test]
    fn a_further_number_left_out_is_0() {
        assert_eq!(lookup_answer("0 \"a\" -> 5 0 0"), Ok((5, 0, 0, 0)));
        assert_eq!(lookup_answer("0 \"a\" -> 0 3 4 \"x\""), Ok((0, 3, 4, 0)));
    }

    #[test]
    fn a_written_further_number_stays() {
        assert_eq!(
            lookup_answer("0 \"a\" -> 9 0 0 further 17"),
            Ok((9, 0, 0, 17))
        );
        assert_eq!(
            lookup_answer("0 \"a\" -> 0 3 4 further 1 \"x\""),
            Ok((0, 3, 4, 1))
        );
    }

    #[test]
    fn a_lookup_of_another_form_is_refused() {
        for answer in [
            "9 0 0 17",
            "9 0 0 further",
            "9 0 0 further x",
            "9 0 further 17",
        ] {
            assert!(
                lookup_answer(&format!("0 \"a\" -> {answer}")).is_err(),
                "{answer}"
            );
        }
    }

    fn defaulted_answer(rest: &str) -> Result<DefaultedAnswer, String> {
        match defaulted_expectation(rest)? {
            Expectation::Defaulted { answer, .. } => Ok(answer),
            _ => Err("no lookup with defaults".to_string()),
        }
    }

    #[test]
    fn a_lookup_with_defaults_names_a_text() {
        assert_eq!(
            defaulted_answer("0 \"a\" -> 0 1 3 4 \"x\""),
            Ok((0, 1, 3, 4, 0))
        );
        assert_eq!(
            defaulted_answer("0 \"a\" -> 9 2 0 0 further 17"),
            Ok((9, 2, 0, 0, 17))
        );
        for answer in ["0 0 3 4", "0 3 3 4", "0 3 4", "0 1 3 4 17", "0 x 3 4"] {
            assert!(
                defaulted_answer(&format!("0 \"a\" -> {answer}")).is_err(),
                "{answer}"
            );
        }
    }

    /// The only case of the lines, and whether it means something.
    fn case(lines: &[&str]) -> Result<Case, String> {
        let mut cases = vec![Case::new("one")];
        for line in lines {
            parse_line(line, Path::new("."), &mut cases)?;
        }
        let case = cases.remove(0);
        check_meaning(&case)?;
        Ok(case)
    }

    #[test]
    fn text_lines_after_defaults_are_the_defaults() {
        let case = case(&[
            ">a",
            "repeat 2 b",
            "defaults",
            ">c",
            "repeat 2 d",
            ">",
            "no-newline",
            "defaulted 0 \"a\" -> 4 1 0 0",
        ]);
        let case = case.unwrap_or_else(|told| panic!("{told}"));
        assert_eq!(case.text, b"a\nbb");
        assert_eq!(case.defaults.as_deref(), Some(b"c\ndd".as_slice()));
    }

    #[test]
    fn defaults_and_what_is_expected_of_them_belong_together() {
        let defaulted = "defaulted 0 \"a\" -> 4 1 0 0";
        assert!(case(&["defaults", defaulted]).is_ok());
        assert!(case(&["defaults", defaulted, "count 1"]).is_ok());
        for lines in [
            &["defaults", "count 1"][..],
            &["defaults"],
            &[defaulted],
            &["defaults", "defaults", defaulted],
            &["defaults x", defaulted],
        ] {
            assert!(case(lines).is_err(), "{lines:?}");
        }
    }

    #[test]
    fn an_order_and_what_is_expected_of_it_belong_together() {
        let (title, sheet, refused) = ("title \"\"", "sheet 22 -> 0 22", "sheet 0 -> 16 22");
        let buffer = r#"buffer "\x00\x00\x00""#;
        for lines in [
            &[title, sheet, ">* ", refused][..],
            &[title, buffer, sheet, ">* "],
            &[title, refused],
            &[buffer, refused],
        ] {
            assert!(case(lines).is_ok(), "{lines:?}");
        }
        for lines in [
            &[title, "count 1"][..],
            &[buffer, "count 1"],
            &[refused],
            &[title, sheet],
            &[buffer, sheet, ">* "],
            &[title, refused, ">* "],
            &[title, r#"buffer "\x00""#, refused],
            &[title, "sheet 22 -> 0"],
            &[title, "sheet -> 16 22"],
        ] {
            assert!(case(lines).is_err(), "{lines:?}");
        }
    }

    #[test]
    fn text_lines_after_after_are_the_book_after_the_calls() {
        let intake = r#"intake "T" "REQUEST" "r" "VIN" "7" -> 0 45"#;
        let lines = [">x", "room 50", intake, "after", ">y", "repeat 2 z"];
        let with_calls = case(&lines).unwrap_or_else(|told| panic!("{told}"));
        assert_eq!(with_calls.text, b"x\n");
        assert_eq!(with_calls.book.after.as_deref(), Some(b"y\nzz".as_slice()));
        assert_eq!(with_calls.expected(), 1);
        assert!(case(&lines[..3]).is_err());
        assert!(case(&["room 50", "count 1"]).is_err());
        assert!(case(&["after", "count 1"]).is_err());
        assert!(case(&["room 50", intake, "after", "after"]).is_err());
        assert!(case(&["room 50", intake, "after", "defaults"]).is_err());
    }

    #[test]
    fn a_line_number_left_out_is_worked_out() {
        let expected = Ok(vec![2, 3, 9, 8, 9, 0, 1, 2]);
        assert_eq!(numbers("2 3 9 8 9 0 1", b"\n\r\n* A\n\n"), expected);
    }

    #[test]
    fn a_line_number_past_the_text_is_that_of_its_end() {
        assert_eq!(
            numbers("1 9 9 9 9 0 0", b"a\n"),
            Ok(vec![1, 9, 9, 9, 9, 0, 0, 1])
        );
    }

    #[test]
    fn a_written_line_number_stays() {
        assert_eq!(
            numbers("1 0 2 0 2 0 0 5", b"a\n"),
            Ok(vec![1, 0, 2, 0, 2, 0, 0, 5])
        );
    }

    #[test]
    fn another_count_of_numbers_is_refused() {
        for line in ["1", "1 0 0 0 0 0", "1 0 0 0 0 0 0 0 0"] {
            let told = numbers(line, b"").unwrap_err();
            assert!(told.starts_with("a record has 8 numbers, or 7"), "{told}");
        }
    }
}
