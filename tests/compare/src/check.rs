//! One text against both readers: every answer of the library must be the plain reader's.

use plain_reader::{Reading, Record, NUMBERS_OF_A_RECORD};

use crate::dates::{check_dates, DateTally};
use crate::defaults::check_defaults;
use crate::drawers::{self, check_drawers, Lookup};
use crate::escape::escape;
use crate::intakes;
use crate::lists::{self, count_lists};
use crate::proper::check_proper;
use crate::random::Random;
use crate::searches::{self, check_searches};
use crate::sheet_situations;
use crate::situations;
use crate::stream_situations;
use crate::subject::{fresh_table, LIBRARY, PLAIN_READER};
use crate::words::{BAD_KEYS, KEYS};

/// Numbers past the lent table, which no call may touch.
const GUARD: usize = 9;

/// Texts up to this length are looked up at every byte, and closers searched from every line.
pub const SMALL: usize = 400;

/// The kind of a node property.
pub const NODE_PROPERTY: u32 = 6;

/// How many answers of each number and records of each kind the plain reader gave, and how many of
/// its lookups, with house defaults too, its lists, its searches for closers, its answers about
/// dates, its sheets, its intake calls and its pieces met what.
pub struct Tally {
    pub readings: [usize; 4],
    pub lookups: [usize; 11],
    pub drawers: drawers::Met,
    pub defaults: situations::Met,
    pub kinds: [usize; 19],
    pub lists: lists::Met,
    pub searches: searches::Met,
    pub dates: DateTally,
    pub sheets: sheet_situations::Met,
    pub intakes: intakes::Met,
    pub streams: stream_situations::Met,
}

impl Default for Tally {
    fn default() -> Self {
        Tally {
            readings: Default::default(),
            lookups: Default::default(),
            drawers: Default::default(),
            defaults: Default::default(),
            kinds: Default::default(),
            lists: [0; lists::COUNT],
            searches: Default::default(),
            dates: Default::default(),
            sheets: [0; sheet_situations::SITUATIONS.len()],
            intakes: Default::default(),
            streams: Default::default(),
        }
    }
}

/// Compares the answers on `text`; the first difference is told in words.
pub fn check(text: &[u8], random: &mut Random, tally: &mut Tally) -> Result<(), String> {
    let reading = plain_reader::read(text);
    for length in table_lengths(&reading, random) {
        check_reading(text, &reading, length, tally)?;
    }
    let records = records_of(&reading);
    if !records.is_empty() {
        check_proper(text, records)?;
    }
    for record in records {
        tally.kinds[record.kind as usize] += 1;
    }
    count_lists(text, &reading, &mut tally.lists);
    let keys = property_keys(text, records);
    check_lookups_at_headings(text, &keys, random, tally)?;
    check_lookups_elsewhere(text, random, tally)?;
    check_drawers(text, records)?;
    check_searches(text, records, random, &mut tally.searches)?;
    check_dates(text, random, &mut tally.dates)?;
    check_defaults(text, records, random, &mut tally.defaults)
}

/// The table; none of a refused reading.
fn records_of(reading: &Reading) -> &[Record] {
    match reading {
        Reading::Table(records) => records,
        Reading::TooLong | Reading::TooDeep => &[],
    }
}

/// Table lengths around what the reading needs, multiples of a record's length and others.
fn table_lengths(reading: &Reading, random: &mut Random) -> Vec<usize> {
    match reading {
        Reading::TooLong | Reading::TooDeep => {
            vec![0, random.between(1, 100 * NUMBERS_OF_A_RECORD)]
        }
        Reading::Table(records) => {
            let need = records.len() * NUMBERS_OF_A_RECORD;
            let more = need + random.between(1, 2 * NUMBERS_OF_A_RECORD - 1);
            let less = random.below(need);
            vec![need, need - 1, more, less]
        }
    }
}

fn check_reading(
    text: &[u8],
    reading: &Reading,
    length: usize,
    tally: &mut Tally,
) -> Result<(), String> {
    let mut expected_table = fresh_table(length + GUARD);
    let mut table = expected_table.clone();
    let expected = reading.answer(&mut expected_table[..length]);
    let seen = (LIBRARY.read)(text, &mut table[..length]);
    tally.readings[expected.0 as usize] += 1;
    if expected != seen {
        return Err(format!(
            "reading, table of {length} numbers: plain reader {expected:?}, library {seen:?}"
        ));
    }
    let differing = (0..table.len()).find(|place| expected_table[*place] != table[*place]);
    differing.map_or(Ok(()), |place| {
        Err(format!(
            "reading, table of {length} numbers, answer {seen:?}: number {place} (record {}):\n  \
             plain reader {:?}\n  library      {:?}",
            place / NUMBERS_OF_A_RECORD,
            record_around(&expected_table, place),
            record_around(&table, place),
        ))
    })
}

fn record_around(table: &[u32], place: usize) -> &[u32] {
    let start = place - place % NUMBERS_OF_A_RECORD;
    &table[start..table.len().min(start + NUMBERS_OF_A_RECORD)]
}

fn check_lookup(text: &[u8], at: usize, key: &[u8], tally: &mut Tally) -> Result<(), String> {
    let expected = (PLAIN_READER.lookup)(text, at, key);
    let seen = (LIBRARY.lookup)(text, at, key);
    tally.lookups[expected.0 as usize] += 1;
    let lookup = Lookup {
        text,
        at,
        answer: expected,
    };
    lookup.count(&mut tally.drawers);
    if expected == seen {
        return Ok(());
    }
    Err(format!(
        "lookup of \"{}\" at {at}: plain reader {expected:?}, library {seen:?}",
        escape(key)
    ))
}

/// Looks up at lines that begin with a star: all of them in a small text, some in a larger one.
fn check_lookups_at_headings(
    text: &[u8],
    keys: &[Vec<u8>],
    random: &mut Random,
    tally: &mut Tally,
) -> Result<(), String> {
    let places: Vec<usize> = star_places(text).collect();
    let some = places.len().min(6);
    let places = if text.len() > SMALL {
        (0..some)
            .map(|_| places[random.below(places.len())])
            .collect()
    } else {
        places
    };
    for at in places {
        for key in keys {
            check_lookup(text, at, key, tally)?;
        }
        for _ in 0..3 {
            check_lookup(text, at, random.pick(KEYS), tally)?;
        }
        check_lookup(text, at, random.pick(BAD_KEYS), tally)?;
    }
    Ok(())
}

/// Looks up at every byte of a small text and just past it, at some bytes of a larger one.
fn check_lookups_elsewhere(
    text: &[u8],
    random: &mut Random,
    tally: &mut Tally,
) -> Result<(), String> {
    let mut places: Vec<usize> = if text.len() > SMALL {
        (0..4).map(|_| random.below(text.len() + 2)).collect()
    } else {
        (0..text.len() + 2).collect()
    };
    places.push(usize::MAX);
    for at in places {
        check_lookup(text, at, random.pick(KEYS), tally)?;
    }
    check_lookup(
        text,
        random.below(text.len() + 2),
        random.pick(BAD_KEYS),
        tally,
    )
}

/// Where a line begins with a star.
pub fn star_places(text: &[u8]) -> impl Iterator<Item = usize> + '_ {
    let starts_line = |at: usize| at == 0 || text[at - 1] == 10;
    (0..text.len()).filter(move |at| text[*at] == b'*' && starts_line(*at))
}

/// Keys from the names of the text's node properties: each in the other letter case, and with every
/// byte changed as if it were a letter.
fn property_keys(text: &[u8], records: &[Record]) -> Vec<Vec<u8>> {
    let properties = records.iter().filter(|record| record.kind == NODE_PROPERTY);
    let lines = properties.map(|record| &text[record.start as usize..record.end as usize]);
    let names = lines.map(property_name).take(4);
    names
        .flat_map(|name| {
            [
                other_case(name),
                name.iter().map(|byte| byte ^ 32).collect(),
            ]
        })
        .collect()
}

/// The name on a line that looks like a node property, less its `+`; else empty.
pub fn property_name(line: &[u8]) -> &[u8] {
    let run = line.trim_ascii().split(u8::is_ascii_whitespace).next();
    let marked = run.and_then(|run| run.strip_prefix(b":")?.strip_suffix(b":"));
    let name = marked.unwrap_or_default();
    name.strip_suffix(b"+").unwrap_or(name)
}

/// The name with every letter in the other case.
pub fn other_case(name: &[u8]) -> Vec<u8> {
    let swap = |byte: &u8| {
        if byte.is_ascii_alphabetic() {
            byte ^ 32
        } else {
            *byte
        }
    };
    name.iter().map(swap).collect()
}
