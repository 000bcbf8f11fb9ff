//! One case against one subject.

use std::cell::OnceCell;
use std::fmt::Debug;

use plain_reader::{Date, NUMBERS_OF_A_RECORD};

use crate::case::{Case, Expectation, ExpectedRecord, Numbers};
use crate::case_order::CaseOrder;
use crate::escape::escape;
use crate::output::{check_output, fresh_output};
use crate::promise::check_promise;
use crate::subject::{
    fresh_table, CloserAnswer, DaysAnswer, DefaultedAnswer, LookupAnswer, PlanningAnswer,
    ReadAnswer, SheetAnswer, Subject, TimestampAnswer,
};

/// What `subject` answers otherwise than the case expects.
pub fn differences(case: &Case, subject: &Subject) -> Vec<String> {
    let run = Run {
        text: &case.text,
        defaults: case.defaults.as_deref().unwrap_or_default(),
        order: &case.order,
        subject,
        table: OnceCell::new(),
    };
    let results = case.expectations.iter().map(|expected| run.check(expected));
    let of_the_book = case.book.check(&case.text, subject);
    let of_the_stream = case.stream.check(subject);
    results
        .chain([of_the_book, of_the_stream])
        .filter_map(Result::err)
        .collect()
}

struct Run<'c> {
    text: &'c [u8],
    defaults: &'c [u8],
    order: &'c CaseOrder,
    subject: &'c Subject,
    /// The whole table, once it was read.
    table: OnceCell<Result<Vec<Numbers>, String>>,
}

impl Run<'_> {
    fn check(&self, expected: &Expectation) -> Result<(), String> {
        match expected {
            Expectation::Table(records) => self.check_table(records),
            Expectation::Kinds(kinds) => {
                let seen = self.table()?.iter().map(|record| record[0]).collect();
                same("kinds", kinds, &seen)
            }
            Expectation::Count(count) => same("count", count, &self.table()?.len()),
            Expectation::OfKind { kind, count } => {
                let of_kind = |record: &&Numbers| record[0] == *kind;
                let seen = self.table()?.iter().filter(of_kind).count();
                same(&format!("records of kind {kind}"), count, &seen)
            }
            Expectation::Record { index, record } => {
                let seen = self.table()?.get(*index).map(Numbers::as_slice);
                let numbers = record.numbers(self.text);
                same(&format!("record {index}"), &Some(&numbers[..]), &seen)
            }
            Expectation::Refused(number) => self.check_length(NUMBERS_OF_A_RECORD, (*number, 0)),
            Expectation::Length { length, answer } => self.check_length(*length, *answer),
            Expectation::Lookup {
                at,
                key,
                answer,
                value,
            } => self.check_lookup(*at, key, *answer, value.as_deref()),
            Expectation::Defaulted {
                at,
                key,
                answer,
                value,
            } => self.check_defaulted(*at, key, *answer, value.as_deref()),
            Expectation::Closer { at, end, answer } => self.check_closer(*at, *end, answer),
            Expectation::Timestamp { text, at, answer } => {
                self.check_timestamp(text.as_deref(), *at, answer)
            }
            Expectation::Planning { at, answer } => self.check_planning(*at, answer),
            Expectation::Days {
                first,
                second,
                answer,
            } => self.check_days(*first, *second, answer),
            Expectation::Sheet { room, answer } => self.check_sheet(*room, *answer),
        }
    }

    fn table(&self) -> Result<&Vec<Numbers>, String> {
        let table = self.table.get_or_init(|| self.read());
        table.as_ref().map_err(String::clone)
    }

    /// Reads the whole table, after a call without room that says how much is needed.
    fn read(&self) -> Result<Vec<Numbers>, String> {
        let (number, count) = (self.subject.read)(self.text, &mut []);
        same("number without room", &3, &number)?;
        let at_most = self.text.len() + 3;
        same("count at most", &at_most, &count.max(at_most))?;
        let mut table = fresh_table(count * NUMBERS_OF_A_RECORD);
        let answer = (self.subject.read)(self.text, &mut table);
        same("answer", &(0, count), &answer)?;
        let records = table.chunks_exact(NUMBERS_OF_A_RECORD);
        Ok(records.map(numbers_of).collect())
    }

    /// The expected table, and the answers in rooms that are one less and a little more.
    fn check_table(&self, expected: &[ExpectedRecord]) -> Result<(), String> {
        let records = self.table()?;
        let count = expected.len();
        same("count", &count, &records.len())?;
        for (index, (expected, seen)) in expected.iter().zip(records).enumerate() {
            let numbers = expected.numbers(self.text);
            same(&format!("record {index}"), &numbers[..], seen)?;
        }
        let need = count * NUMBERS_OF_A_RECORD;
        self.check_length(need - 1, (3, count))?;
        self.check_length(need + 5, (0, count))
    }

    /// The answer when a table of `length` numbers is lent, and the numbers left as before.
    fn check_length(&self, length: usize, answer: ReadAnswer) -> Result<(), String> {
        let before = fresh_table(length);
        let mut table = before.clone();
        let seen = (self.subject.read)(self.text, &mut table);
        same(&format!("answer in length {length}"), &answer, &seen)?;
        let written = if answer.0 == 0 {
            answer.1 * NUMBERS_OF_A_RECORD
        } else {
            0
        };
        let changed = (written..length).find(|place| before[*place] != table[*place]);
        same(
            &format!("changed number in length {length}"),
            &None,
            &changed,
        )
    }

    fn check_lookup(
        &self,
        at: usize,
        key: &[u8],
        answer: LookupAnswer,
        value: Option<&[u8]>,
    ) -> Result<(), String> {
        let call = format!("lookup {at} \"{}\"", escape(key));
        let seen = (self.subject.lookup)(self.text, at, key);
        same(&call, &answer, &seen)?;
        let part = self.text.get(seen.1..seen.2).unwrap_or_default();
        value.map_or(Ok(()), |value| same(&call, &escape(value), &escape(part)))
    }

    fn check_defaulted(
        &self,
        at: usize,
        key: &[u8],
        answer: DefaultedAnswer,
        value: Option<&[u8]>,
    ) -> Result<(), String> {
        let call = format!("defaulted {at} \"{}\"", escape(key));
        let seen = (self.subject.lookup_with_defaults)(self.text, at, self.defaults, key);
        same(&call, &answer, &seen)?;
        let (_, whose, start, end, _) = seen;
        let text = if whose == 1 { self.text } else { self.defaults };
        let part = text.get(start..end).unwrap_or_default();
        value.map_or(Ok(()), |value| same(&call, &escape(value), &escape(part)))
    }

    fn check_closer(&self, at: usize, end: usize, answer: &CloserAnswer) -> Result<(), String> {
        let seen = (self.subject.find_closer)(self.text, at, end);
        same(&format!("closer {at} {end}"), answer, &seen)
    }

    /// The timestamp at byte `at`, or at the front of a text of its own.
    fn check_timestamp(
        &self,
        own: Option<&[u8]>,
        at: usize,
        answer: &TimestampAnswer,
    ) -> Result<(), String> {
        let seen = (self.subject.timestamp)(own.unwrap_or(self.text), at);
        let told = own.map_or(at.to_string(), |text| format!("\"{}\"", escape(text)));
        same(&format!("stamp {told}"), answer, &seen)
    }

    fn check_planning(&self, at: usize, answer: &PlanningAnswer) -> Result<(), String> {
        let seen = (self.subject.planning)(self.text, at);
        same(&format!("planning {at}"), answer, &seen)
    }

    fn check_days(&self, first: Date, second: Date, answer: &DaysAnswer) -> Result<(), String> {
        let seen = (self.subject.days_between)(first, second);
        same(&format!("days {first} {second}"), answer, &seen)
    }

    /// The answer in so much room, every byte of the output and some past it, and what is promised
    /// of a sheet.
    fn check_sheet(&self, room: usize, answer: SheetAnswer) -> Result<(), String> {
        let buffer = self.order.buffer()?;
        let before = fresh_output(room);
        let mut output = before.clone();
        let seen = (self.subject.write_sheet)(&buffer, &mut output[..room]);
        same(&format!("answer in room {room}"), &answer, &seen)?;
        let sheet = if answer.0 == 0 { self.text } else { &[] };
        let rest = before.get(sheet.len()..).unwrap_or_default();
        check_output(&[sheet, rest].concat(), &output)?;
        match &self.order.title_and_pairs {
            Some(order) if answer.0 == 0 => check_promise(sheet, order.pairs(), self.subject),
            _ => Ok(()),
        }
    }
}

fn numbers_of(record: &[u32]) -> Numbers {
    let mut numbers = [0; NUMBERS_OF_A_RECORD];
    numbers.copy_from_slice(record);
    numbers
}

fn same<T: PartialEq + Debug + ?Sized>(what: &str, expected: &T, seen: &T) -> Result<(), String> {
    if expected == seen {
        return Ok(());
    }
    Err(format!("{what}: expected {expected:?}, seen {seen:?}"))
}
