//! The table of times and ratios.

use std::time::Duration;

use comaltzex::{IntakeRefusal, Kind, Record, Refusal, RECORD_SIZE, TEXT_LIMIT};

use crate::contest::{self, contest, median, median_ratio, Contender, Effort};
use crate::intakes;
use crate::lists;
use crate::sheets;
use crate::streams;
use crate::texts::{self, Text};

const SIZES: [usize; 3] = [4 * 1024, 16 * 1024, 64 * 1024];
const STAMP_SIZES: [usize; 4] = [1024, 4 * 1024, 16 * 1024, 64 * 1024];
const PLANNING_PARTS: [usize; 4] = [16, 64, 256, 1024];
const STREAM_SIZE: usize = 60 * 1024;

const EFFORT: Effort = Effort {
    least: 3,
    most: 1001,
    time: Duration::from_millis(500),
};

const EXPLANATION: &str = "\
Nanoseconds a byte, medians of interleaved samples; a ratio is the median of each
round's own. The machine is noisy: only ratios within one run count.

  read    comaltzex_read, with a table that fits; no records: the text is refused
  count   byte 10 counted one byte at a time
  vector  byte 10 counted by vector instructions
  plain   the independent plain reader
  find    comaltzex_find_closer, from the first line to the end
  look    comaltzex_lookup at the first heading, refused with that number; of 9 the
          crate counts the lines before, too
  house   comaltzex_lookup_with_defaults of a key that the order lacks, in a text
          that is the defaults; the value starts at that byte
  stamp   comaltzex_timestamp, on a text that is one timestamp
  plan    comaltzex_planning, on a heading and its planning line
  write   comaltzex_write_sheet, on an order; the sheet has so many bytes
  intake  comaltzex_intake of an order into a book of so many headings that has
          neither its request nor room: a search; the copy of the book is timed, too
  stream  comaltzex_stream_piece for each piece of a book, and comaltzex_stream_end;
          `by 7` is in pieces of 7 bytes
  days    comaltzex_days_between, from 1 January to 31 December: nanoseconds a call
";

pub fn print() {
    println!("{EXPLANATION}");
    print_readings();
    print_lists();
    print_searches();
    print_refused_lookups();
    print_defaults();
    print_stamps();
    print_plans();
    print_sheets();
    print_intakes();
    print_streams();
    print_days();
}

fn print_readings() {
    println!(
        "{:<16}{:>7}{:>9}{:>10}{:>8}{:>8}{:>10}{:>12}{:>12}",
        "text", "bytes", "records", "read", "count", "vector", "plain", "read/count", "read/plain"
    );
    print_row(&texts::one_order());
    for size in SIZES {
        for text in texts::ordinary(size) {
            print_row(&text);
        }
        print_row(&lists::book(size));
        print_row(&texts::planned(size));
    }
    print_row(&texts::shipped());
    for size in SIZES {
        for text in texts::hostile(size) {
            print_row(&text);
        }
    }
}

/// The readings of lists. The plain reader is asked for the tables of the shortest texts only, and
/// not timed.
fn print_lists() {
    println!(
        "\n{:<24}{:>7}{:>9}{:>10}{:>8}{:>12}",
        "lists", "bytes", "records", "read", "count", "read/count"
    );
    for (index, size) in SIZES.into_iter().enumerate() {
        let growing = lists::growing(size).into_iter();
        for text in growing.chain(lists::hostile(size)) {
            if index == 0 {
                agreed_table(&text);
            }
            print_list_row(&text);
        }
    }
}

fn print_list_row(text: &Text) {
    let mut table = contest::fitting_table(&text.bytes);
    let contenders = [contest::any_reading, contest::count_one_at_a_time];
    let [read, count] = contest(&text.bytes, &mut table, contenders, &EFFORT);
    println!(
        "{:<24}{:>7}{:>9}{:>10.2}{:>8.2}{:>12.2}",
        text.name,
        text.bytes.len(),
        table.len() / RECORD_SIZE,
        median(&read),
        median(&count),
        median_ratio(&read, &count)
    );
}

fn print_searches() {
    print_call_head("search", "compared", "find");
    for text in SIZES.map(texts::one_opener) {
        print_call(&text, agreed_search(&text), contest::find_closer);
    }
}

fn print_refused_lookups() {
    print_call_head("refused lookup", "number", "look");
    for text in SIZES.into_iter().flat_map(texts::refused) {
        print_call(&text, agreed_refusal(&text), contest::refused_lookup);
    }
}

fn print_defaults() {
    print_call_head("defaults", "start", "house");
    for text in SIZES.into_iter().flat_map(texts::defaults) {
        print_call(&text, agreed_default(&text), contest::house_default);
    }
}

fn print_stamps() {
    print_call_head("timestamp", "blanks", "stamp");
    for text in STAMP_SIZES.map(texts::spaced_stamp) {
        let blanks = text.bytes.iter().filter(|&&byte| byte == b' ').count();
        print_call(&text, blanks, contest::timestamp);
    }
}

fn print_plans() {
    print_call_head("planning", "parts", "plan");
    for parts in PLANNING_PARTS {
        print_call(&texts::planning_line(parts), parts, contest::planning);
    }
}

fn print_sheets() {
    print_call_head("order", "sheet", "write");
    for order in SIZES.into_iter().flat_map(sheets::orders) {
        let length = contest::sheet_length(&order.bytes);
        print_call(&order, length, contest::write_sheet);
    }
}

fn print_intakes() {
    print_call_head("book", "headings", "intake");
    for book in SIZES.into_iter().flat_map(intakes::books) {
        print_call(&book, agreed_intake(&book), contest::intake);
    }
}

/// The order book in pieces of several lengths, and texts made to be slow.
fn print_streams() {
    print_call_head("pieces", "headings", "stream");
    for (name, call) in streams::PIECES {
        let text = streams::book(STREAM_SIZE);
        let count = agreed_headings(&text);
        print_call(&Text::new(name, text.bytes), count, call);
    }
    for text in SIZES.into_iter().flat_map(streams::hostile) {
        let count = agreed_headings(&text);
        for (how, call) in streams::EXTREMES {
            let name = format!("{}, {how}", text.name);
            print_call(&Text::new(name, text.bytes.clone()), count, call);
        }
    }
}

fn print_days() {
    println!("\n{:<16}{:>9}", "calendar", "days");
    let samples = contest::contest_of_days(texts::YEARS, &EFFORT);
    for ([first, _], samples) in texts::YEARS.iter().zip(&samples) {
        println!(
            "{:<16}{:>9.2}",
            format!("year {}", first.year),
            median(samples)
        );
    }
}

fn print_row(text: &Text) {
    let mut table = agreed_table(text);
    let contenders = [
        contest::comaltzex,
        contest::count_one_at_a_time,
        contest::count_vectorised,
        contest::plain_reader,
    ];
    let [read, count, vector, plain] = contest(&text.bytes, &mut table, contenders, &EFFORT);
    println!(
        "{:<16}{:>7}{:>9}{:>10.2}{:>8.2}{:>8.2}{:>10.2}{:>12.2}{:>12.2}",
        text.name,
        text.bytes.len(),
        table.len() / RECORD_SIZE,
        median(&read),
        median(&count),
        median(&vector),
        median(&plain),
        median_ratio(&read, &count),
        median_ratio(&read, &plain)
    );
}

/// The head of a table of one call on texts that grow by some amount.
fn print_call_head(call: &str, amount: &str, column: &str) {
    println!(
        "\n{call:<16}{:>7}{amount:>10}{column:>9}{:>8}{:>13}",
        "bytes",
        "count",
        format!("{column}/count")
    );
}

fn print_call(text: &Text, amount: usize, call: Contender) {
    let contenders = [call, contest::count_one_at_a_time];
    let [taken, count] = contest(&text.bytes, &mut [], contenders, &EFFORT);
    println!(
        "{:<16}{:>7}{:>10}{:>9.2}{:>8.2}{:>13.2}",
        text.name,
        text.bytes.len(),
        amount,
        median(&taken),
        median(&count),
        median_ratio(&taken, &count)
    );
}

/// The text's table, on which both readers must agree: a wrong reading has no speed. Of a text
/// that is refused it is empty.
fn agreed_table(text: &Text) -> Vec<u32> {
    let ours = contest::fitting_table(&text.bytes);
    let number = comaltzex::Table::read(&text.bytes).map_or_else(Refusal::number, |_| 0);
    let mut theirs = vec![0; ours.len()];
    let answer = plain_reader::answer(&text.bytes, &mut theirs);
    let agreed = answer == (number, ours.len() / RECORD_SIZE) && ours == theirs;
    assert!(agreed, "the readers differ on the text `{}`", text.name);
    ours
}

/// The number of a refused lookup; both readers must agree on it.
fn agreed_refusal(text: &Text) -> usize {
    let ours = contest::refusal(&text.bytes).number();
    let (theirs, ..) = plain_reader::lookup(&text.bytes, 0, b"VIN");
    assert_eq!(
        ours, theirs,
        "the lookups differ on the text `{}`",
        text.name
    );
    ours as usize
}

/// Where a default starts; the plain reader must find it at the text's first heading.
fn agreed_default(text: &Text) -> usize {
    let ours = contest::default_fuel(&text.bytes);
    let theirs = plain_reader::lookup(&text.bytes, first_heading(text), b"FUEL");
    assert_eq!(
        (0, ours.start, ours.end, 0),
        theirs,
        "the defaults differ on the text `{}`",
        text.name
    );
    ours.start
}

/// How many headings a book has. By the plain reader's lookup none of them has the request that is
/// searched for, and so the order must be refused for its length alone.
fn agreed_intake(book: &Text) -> usize {
    let ours = contest::unroomed(&book.bytes);
    let headings = headings(book);
    let seen = headings.iter().any(|heading| {
        let theirs = plain_reader::lookup(&book.bytes, heading.span.start, b"REQUEST");
        let (number, start, end, _) = theirs;
        number == 0 && &book.bytes[start..end] == intakes::REQUEST
    });
    let unroomed = [IntakeRefusal::TooLong, IntakeRefusal::ShortBuffer].contains(&ours);
    assert!(
        unroomed && !seen,
        "the book `{}` is not searched",
        book.name
    );
    headings.len()
}

/// How many headings a text has. Its table must have the same, and they must be the same in pieces
/// of one byte.
fn agreed_headings(text: &Text) -> usize {
    let ours = contest::streamed::<TEXT_LIMIT>(&text.bytes);
    let read = headings(text);
    let read = read.iter().map(|r| (r.span.start, r.detail as usize));
    let agreed = read.eq(ours.iter().map(|heading| (heading.start, heading.stars)))
        && ours == contest::streamed::<1>(&text.bytes);
    assert!(agreed, "the headings of the text `{}` differ", text.name);
    ours.len()
}

/// Where the first heading of the text's table starts.
fn first_heading(text: &Text) -> usize {
    let headings = headings(text);
    headings.first().expect("the text has a heading").span.start
}

/// The headings of the text's table.
fn headings(text: &Text) -> Vec<Record> {
    let table = comaltzex::Table::read(&text.bytes).expect("the text can be read");
    let headings = table
        .records()
        .filter(|record| record.kind == Kind::Heading);
    headings.collect()
}

/// How many lines a search compares that finds no closer; both readers must agree on it.
fn agreed_search(text: &Text) -> usize {
    let end = text.bytes.len();
    let ours = comaltzex::find_closer(&text.bytes, 0, end);
    let theirs = plain_reader::closer_search(&text.bytes, 0, end);
    let agreed = ours.closer.is_none() && theirs == (0, 0, 0, ours.compared);
    assert!(agreed, "the searches differ on the text `{}`", text.name);
    ours.compared
}
