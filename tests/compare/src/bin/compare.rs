//! `compare [COUNT] [SEED]`: compares the library with the plain reader on seeded texts and orders, on
//! seeded books that orders are taken into, and on seeded books that come in pieces.
//!
//! Text, order and books number k of a run are the first of a run with the seed SEED + k.

use std::process::ExitCode;
use std::time::{Duration, Instant};

use comparison::check::{check, Tally};
use comparison::dates::check_days;
use comparison::drawers::REASONS;
use comparison::escape::escape;
use comparison::intake_situations;
use comparison::intakes::check_intakes;
use comparison::lists;
use comparison::log_situations;
use comparison::random::Random;
use comparison::searches::MEETINGS;
use comparison::sheet_situations;
use comparison::sheets::check_sheets;
use comparison::situations::SITUATIONS;
use comparison::streams::check_streams;
use comparison::texts::{text, CLASSES};

const COUNT: u64 = 200_000;
const SEED: u64 = 1;

/// Beside how many texts in a hundred a book goes.
const BOOKS: usize = 25;

/// Beside how many texts in a hundred a book that comes in pieces goes.
const STREAMS: usize = 20;

/// The longest differing text that is printed whole.
const SHOWN: usize = 4_000;

/// How long smaller texts are tried after a difference.
const LONGEST_SEARCH: Duration = Duration::from_secs(5);

fn main() -> ExitCode {
    let Ok(count @ 1..) = argument(1, COUNT) else {
        return usage();
    };
    let Ok(seed) = argument(2, SEED) else {
        return usage();
    };
    let mut tally = Tally::default();
    let mut texts = [0; CLASSES.len()];
    for seed in (0..count).map(|index| seed.wrapping_add(index)) {
        let mut random = Random::new(seed);
        let (class, text) = text(&mut random);
        texts[class as usize] += 1;
        if let Err(difference) = check(&text, &mut random, &mut tally) {
            println!(
                "seed {seed}, {class:?} text of {} bytes: {difference}",
                text.len()
            );
            report(text);
            return ExitCode::FAILURE;
        }
        if let Err(difference) = check_beside(&text, &mut random, &mut tally) {
            println!("seed {seed}: {difference}");
            return ExitCode::FAILURE;
        }
    }
    println!("{}", summary(count, &texts, &tally));
    if count >= COUNT && !sees_all(&texts, &tally) {
        eprintln!(
            "compare: a class of text, an answer, a kind, a sort of lookup, list, search, date, \
             sheet, intake or piece never came"
        );
        return ExitCode::FAILURE;
    }
    ExitCode::SUCCESS
}

/// What goes beside a text: dates, an order, and now and then a book that orders are taken into, and one
/// that comes in pieces.
fn check_beside(text: &[u8], random: &mut Random, tally: &mut Tally) -> Result<(), String> {
    check_days(random, &mut tally.dates)?;
    check_sheets(random, &mut tally.sheets)?;
    if random.chance(BOOKS) {
        check_intakes(text, random, &mut tally.intakes)?;
    }
    if random.chance(STREAMS) {
        check_streams(text, random, &mut tally.streams)?;
    }
    Ok(())
}

/// Did each class of text, each answer of readings and lookups, each kind of record and each sort
/// of lookup, with defaults too, of list, of search for a closer, of answer about dates, of sheet, of
/// intake call, of log and of piece come?
fn sees_all(texts: &[usize], tally: &Tally) -> bool {
    let lookups = [0, 1, 4, 5, 6, 7, 8, 9, 10].map(|number| tally.lookups[number]);
    let kinds = &tally.kinds[1..];
    let dates = tally.dates.seen().into_iter().flat_map(|(_, seen)| seen);
    let dates: Vec<usize> = dates.map(|(_, count)| count).collect();
    let streams = tally.streams.seen().into_iter();
    let streams: Vec<usize> = streams.map(|(_, count)| count).collect();
    let seen = [
        texts,
        &tally.readings,
        &lookups,
        &tally.drawers,
        &tally.defaults,
        kinds,
        &tally.lists,
        &tally.searches,
        &dates,
        &tally.sheets,
        &tally.intakes.calls,
        &tally.intakes.logs,
        &streams,
    ]
    .concat();
    seen.iter().all(|count| *count > 0)
}

fn argument(place: usize, default: u64) -> Result<u64, std::num::ParseIntError> {
    let given = std::env::args().nth(place);
    given.map_or(Ok(default), |word| word.parse())
}

fn usage() -> ExitCode {
    eprintln!("usage: compare [COUNT] [SEED]");
    ExitCode::FAILURE
}

fn summary(count: u64, texts: &[usize], tally: &Tally) -> String {
    let classes = CLASSES.iter().zip(texts);
    let classes: Vec<String> = classes
        .map(|(class, seen)| format!("{class:?} {seen}"))
        .collect();
    let drawers = REASONS.iter().map(|(reason, _)| *reason);
    let drawers = by_name(drawers.zip(tally.drawers));
    let defaults = SITUATIONS.iter().map(|(situation, _)| *situation);
    let defaults = by_name(defaults.zip(tally.defaults));
    let lists = by_name(lists::names().zip(tally.lists));
    let searches = MEETINGS.iter().map(|(meeting, _)| *meeting);
    let searches = by_name(searches.zip(tally.searches));
    let sheets = sheet_situations::SITUATIONS.iter();
    let sheets = by_name(sheets.map(|(situation, _)| *situation).zip(tally.sheets));
    let intakes = intake_situations::SITUATIONS.iter();
    let intakes = intakes.map(|(situation, _)| *situation);
    let intakes = by_name(intakes.zip(tally.intakes.calls));
    let logs = log_situations::SITUATIONS.iter();
    let logs = logs.map(|(situation, _)| *situation);
    let logs = by_name(logs.zip(tally.intakes.logs));
    let streams = tally.streams.seen();
    let streams = by_name(streams.iter().map(|(name, count)| (&name[..], *count)));
    let dates = tally.dates.seen();
    let dates = dates.map(|(about, seen)| format!("{about}: {}", by_name(seen.into_iter())));
    format!(
        "compare: {count} texts agree ({}); readings by number {}; lookups by number {}; \
         drawers: {drawers}; defaults: {defaults}; records by kind {}; lists: {lists}; \
         searches for closers: {searches}; {}; sheets: {sheets}; intake: {intakes}; logs: {logs}; \
         pieces: {streams}",
        classes.join(", "),
        by_number(&tally.readings),
        by_number(&tally.lookups),
        by_number(&tally.kinds),
        dates.join("; "),
    )
}

/// Names, each with how often.
fn by_name<'n>(seen: impl Iterator<Item = (&'n str, usize)>) -> String {
    let seen: Vec<String> = seen
        .map(|(name, count)| format!("{name} {count}"))
        .collect();
    seen.join(", ")
}

/// The numbers that were seen, each with how often.
fn by_number(counts: &[usize]) -> String {
    let seen = counts.iter().enumerate().filter(|(_, count)| **count > 0);
    let seen: Vec<String> = seen
        .map(|(number, count)| format!("{number}:{count}"))
        .collect();
    seen.join(" ")
}

/// Prints the text if it isn't too large to look at, and what is left of it when all is cut away
/// that the difference doesn't need.
fn report(text: Vec<u8>) {
    if text.len() <= SHOWN {
        println!("text \"{}\"", escape(&text));
    }
    let smaller = smaller(text);
    if let Some(difference) = differs(&smaller) {
        println!("smaller text \"{}\": {difference}", escape(&smaller));
    }
}

/// Cuts away pieces of the text, ever smaller ones, while some difference stays.
fn smaller(mut text: Vec<u8>) -> Vec<u8> {
    let mut size = text.len();
    let begin = Instant::now();
    while size > 0 {
        let mut at = 0;
        while at < text.len() && begin.elapsed() < LONGEST_SEARCH {
            let end = text.len().min(at + size);
            let shorter = [&text[..at], &text[end..]].concat();
            if differs(&shorter).is_some() {
                text = shorter;
            } else {
                at = end;
            }
        }
        size /= 2;
    }
    text
}

fn differs(text: &[u8]) -> Option<String> {
    check(text, &mut Random::new(SEED), &mut Tally::default()).err()
}
