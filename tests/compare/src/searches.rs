//! One text against both readers: searches for closers (document 02, order 3).

use plain_reader::Record;

use crate::check::SMALL;
use crate::random::Random;
use crate::subject::{CloserAnswer, LIBRARY, PLAIN_READER};

/// The kinds of records that hold elements: section, drawer, greater block.
const CONTAINERS: [u32; 3] = [3, 7, 8];

/// Has a search met something?
type Meets = fn(&Search) -> bool;

/// What a search may meet; one search may meet several.
pub const MEETINGS: [(&str, Meets); 9] = [
    ("all 0", |search| search.answer == (0, 0, 0, 0)),
    ("closed block", |search| search.is_closed(b'#')),
    ("closed drawer", |search| search.is_closed(b':')),
    ("open block", |search| search.is_open(b'#')),
    ("open drawer", |search| search.is_open(b':')),
    ("indented closer", |search| search.has_indented_closer()),
    ("closer cut by the end", |search| search.has_cut_closer()),
    ("line that starts as the closer", |search| {
        search.passes_closer_after(b"")
    }),
    ("closer after byte 13", |search| {
        search.passes_closer_after(b"\r")
    }),
];

/// How many searches met each of `MEETINGS`.
pub type Met = [usize; MEETINGS.len()];

/// Searches from lines to the ends of the containers around them and elsewhere, then from anywhere
/// to anywhere, past the text too.
pub fn check_searches(
    text: &[u8],
    records: &[Record],
    random: &mut Random,
    met: &mut Met,
) -> Result<(), String> {
    for at in line_starts(text, random) {
        for end in ends_around(at, records) {
            check_search(text, at, end, met)?;
        }
        check_search(text, at, text.len(), met)?;
        check_search(text, at, random.between(at, text.len() + 1), met)?;
    }
    for _ in 0..4 {
        let (at, end) = (random.below(text.len() + 2), random.below(text.len() + 2));
        check_search(text, at, end, met)?;
        check_search(text, at, text.len(), met)?;
    }
    check_search(text, 0, usize::MAX, met)?;
    check_search(text, usize::MAX, usize::MAX, met)
}

/// Where lines start: all of them in a small text, some in a larger one.
fn line_starts(text: &[u8], random: &mut Random) -> Vec<usize> {
    let starts_line = |at: &usize| *at == 0 || text[*at - 1] == 10;
    let starts: Vec<usize> = (0..text.len()).filter(starts_line).collect();
    if text.len() <= SMALL {
        return starts;
    }
    (0..6).map(|_| starts[random.below(starts.len())]).collect()
}

/// The ends of the containers whose elements stand around byte `at`.
fn ends_around(at: usize, records: &[Record]) -> impl Iterator<Item = usize> + '_ {
    let around = move |record: &&Record| {
        (record.inner_start as usize..record.inner_end as usize).contains(&at)
    };
    let containers = records
        .iter()
        .filter(|record| CONTAINERS.contains(&record.kind));
    containers
        .filter(around)
        .map(|record| record.inner_end as usize)
}

fn check_search(text: &[u8], at: usize, end: usize, met: &mut Met) -> Result<(), String> {
    let answer = (PLAIN_READER.find_closer)(text, at, end);
    let seen = (LIBRARY.find_closer)(text, at, end);
    let search = Search {
        text,
        at,
        end,
        answer,
    };
    for (count, (_, meets)) in met.iter_mut().zip(MEETINGS) {
        *count += usize::from(meets(&search));
    }
    if answer == seen {
        return Ok(());
    }
    Err(format!(
        "closer of the line at {at} before {end}: plain reader {answer:?}, library {seen:?}"
    ))
}

/// A search and the plain reader's answer.
pub struct Search<'t> {
    text: &'t [u8],
    at: usize,
    end: usize,
    answer: CloserAnswer,
}

impl<'t> Search<'t> {
    fn is_closed(&self, mark: u8) -> bool {
        self.answer.0 == 1 && self.mark() == Some(mark)
    }

    fn is_open(&self, mark: u8) -> bool {
        self.answer.0 == 0 && self.mark() == Some(mark)
    }

    /// The first byte of an opener after which lines were compared.
    fn mark(&self) -> Option<u8> {
        let compared = self.answer.3 > 0;
        compared.then(|| unindented(&self.text[self.at..])[0])
    }

    fn has_indented_closer(&self) -> bool {
        let (found, start, ..) = self.answer;
        found == 1 && matches!(self.text[start], 32 | 9)
    }

    fn has_cut_closer(&self) -> bool {
        let (found, _, end, _) = self.answer;
        found == 1 && end < self.text.len() && self.text[end - 1] != 10
    }

    /// A line before the closer starts as the closer does, after `before`.
    fn passes_closer_after(&self, before: &[u8]) -> bool {
        let closer = match self.mark() {
            Some(b'#') => b"#+end_".as_slice(),
            Some(_) => b":end:",
            None => return false,
        };
        let start = [before, closer].concat();
        self.passed().any(|line| {
            let front = unindented(line).get(..start.len());
            front.is_some_and(|front| front.eq_ignore_ascii_case(&start))
        })
    }

    /// The lines between the opener's and the closer's, or the end.
    fn passed(&self) -> impl Iterator<Item = &'t [u8]> {
        let (found, start, ..) = self.answer;
        let stop = if found == 1 { start } else { self.end };
        let lines = self.text[self.at..stop].split_inclusive(|byte| *byte == 10);
        lines.skip(1)
    }
}

/// A line without its indentation.
fn unindented(line: &[u8]) -> &[u8] {
    let indentation = line.iter().take_while(|byte| matches!(**byte, 32 | 9));
    &line[indentation.count()..]
}
