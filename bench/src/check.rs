//! The limits of docs/BENCHMARK.md. What is compared is the best of many samples,
//! and a ratio has several tries, so that noise alone does not fail it.

use std::time::Duration;

use crate::contest::{self, best, contest, Contender, Effort};
use crate::intakes;
use crate::lists;
use crate::sheets;
use crate::streams;
use crate::texts::{self, Text};

const BOOK_SIZE: usize = 60 * 1024;
const BOOK_LIMIT: f64 = 4.0;
const PROSE_LIMIT: f64 = 3.0;
const LISTS_LIMIT: f64 = 8.0;

const HOSTILE_SIZE: usize = 64 * 1024;
const HOSTILE_LIMIT: f64 = 0.1; // seconds

/// A linear call takes about as long beside the count in both texts, a quadratic one 16 times
/// as long in the long one.
const GROWING_SIZES: [usize; 2] = [4 * 1024, 64 * 1024];
const GROWING_PARTS: [usize; 2] = [64, 1024];
const GROWTH_LIMIT: f64 = 2.0;

/// A count of days takes as long in the calendar's last year as in its first.
const DAYS_LIMIT: f64 = 2.0;

const TRIES: usize = 5;

const EFFORT: Effort = Effort {
    least: 101,
    most: 2001,
    time: Duration::from_millis(500),
};

/// Prints a line for each limit, and says whether all are held.
pub fn passes() -> bool {
    println!(
        "The machine is noisy: these are the best of many samples, and ratios within one run."
    );
    let [book, prose] = texts::ordinary(BOOK_SIZE);
    let mut held = vec![
        ratio_held(&book, BOOK_LIMIT),
        ratio_held(&texts::shipped(), BOOK_LIMIT),
        ratio_held(&prose, PROSE_LIMIT),
        ratio_held(&lists::book(BOOK_SIZE), LISTS_LIMIT),
    ];
    held.extend(texts::hostile(HOSTILE_SIZE).iter().map(reading_held));
    held.extend(lists::hostile(HOSTILE_SIZE).iter().map(reading_held));
    held.extend(intakes::hostile(HOSTILE_SIZE).map(|book| intake_held(&book)));
    held.extend(streams::hostile(HOSTILE_SIZE).iter().flat_map(stream_held));
    held.extend(each_held("read", contest::comaltzex, lists::growing));
    held.extend(calls_held());
    held.extend(each_held("look", contest::refused_lookup, texts::refused));
    held.extend(each_held("house", contest::house_default, texts::defaults));
    held.extend(each_held("write", contest::write_sheet, sheets::orders));
    held.extend(each_held("intake", contest::intake, intakes::books));
    for (how, call) in streams::EXTREMES {
        held.extend(each_held(&format!("stream {how}"), call, streams::all));
    }
    held.push(days_held());
    held.iter().all(|&held| held)
}

/// The calls that are to be linear, each on a text and one that is 16 times as long.
fn calls_held() -> [bool; 3] {
    let openers = GROWING_SIZES.map(texts::one_opener);
    let stamps = GROWING_SIZES.map(texts::spaced_stamp);
    let planning_lines = GROWING_PARTS.map(texts::planning_line);
    [
        growth_held("find", contest::find_closer, openers),
        growth_held("stamp", contest::timestamp, stamps),
        growth_held("plan", contest::planning, planning_lines),
    ]
}

/// A call on several texts, each likewise.
fn each_held<const N: usize>(
    column: &str,
    call: Contender,
    texts: fn(usize) -> [Text; N],
) -> Vec<bool> {
    let [short, long] = GROWING_SIZES.map(texts);
    let pairs = short.into_iter().zip(long);
    pairs
        .map(|(short, long)| growth_held(column, call, [short, long]))
        .collect()
}

/// Is a reading at most `limit` times as long as the count, in one of the tries?
fn ratio_held(text: &Text, limit: f64) -> bool {
    let least = least(limit, || ratio(contest::comaltzex, text));
    let held = least <= limit;
    println!(
        "{}: {}, {} bytes: read/count {least:.2}, limit {limit}",
        verdict(held),
        text.name,
        text.bytes.len()
    );
    held
}

/// Is a call at most `GROWTH_LIMIT` times as long beside the count in the long text as in the
/// short one, in one of the tries?
fn growth_held(column: &str, call: Contender, [short, long]: [Text; 2]) -> bool {
    let ratio = |text| ratio(call, text);
    let least = least(GROWTH_LIMIT, || ratio(&long) / ratio(&short));
    let held = least <= GROWTH_LIMIT;
    println!(
        "{}: {}, {} bytes: {column}/count {least:.2} times that of {} bytes, limit {GROWTH_LIMIT}",
        verdict(held),
        long.name,
        long.bytes.len(),
        short.bytes.len()
    );
    held
}

/// Is a count of days at most `DAYS_LIMIT` times as long in the last year as in the first, in
/// one of the tries?
fn days_held() -> bool {
    let least = least(DAYS_LIMIT, || {
        let [first, last] = contest::contest_of_days(texts::YEARS, &EFFORT);
        best(&last) / best(&first)
    });
    let held = least <= DAYS_LIMIT;
    println!(
        "{}: days between dates of year 9999: {least:.2} times those of year 1, limit {DAYS_LIMIT}",
        verdict(held)
    );
    held
}

/// The least of several measurements; the first that is within the limit is the last.
fn least(limit: f64, mut measure: impl FnMut() -> f64) -> f64 {
    let mut least = f64::INFINITY;
    for _ in 0..TRIES {
        least = least.min(measure());
        if least <= limit {
            break;
        }
    }
    least
}

/// How many times as long as the count a contender takes.
fn ratio(contender: Contender, text: &Text) -> f64 {
    let mut table = contest::fitting_table(&text.bytes);
    let contenders = [contender, contest::count_one_at_a_time];
    let [taken, count] = contest(&text.bytes, &mut table, contenders, &EFFORT);
    best(&taken) / best(&count)
}

/// Is a reading, or its refusal, in time?
fn reading_held(text: &Text) -> bool {
    let mut table = contest::fitting_table(&text.bytes);
    time_held("", text, || contest::any_reading(&text.bytes, &mut table))
}

/// Is the search of an intake in time?
fn intake_held(book: &Text) -> bool {
    time_held("intake ", book, || contest::intake(&book.bytes, &mut []))
}

/// Are the headings of a book in time, in each kind of pieces?
fn stream_held(book: &Text) -> [bool; 2] {
    streams::EXTREMES.map(|(how, call)| {
        let name = format!("stream {how} ");
        time_held(&name, book, || call(&book.bytes, &mut []))
    })
}

/// Does a call take at most `HOSTILE_LIMIT`, in one of the tries?
fn time_held(name: &str, text: &Text, mut call: impl FnMut()) -> bool {
    let least = least(HOSTILE_LIMIT, || contest::time(&mut call).as_secs_f64());
    let held = least <= HOSTILE_LIMIT;
    println!(
        "{}: {}, {} bytes: {name}{least:.3} s, limit {HOSTILE_LIMIT} s",
        verdict(held),
        text.name,
        text.bytes.len()
    );
    held
}

fn verdict(held: bool) -> &'static str {
    if held {
        "ok"
    } else {
        "FAILED"
    }
}
