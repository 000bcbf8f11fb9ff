//! Timing several functions on one text, in turns.

use std::cell::RefCell;
use std::hint::black_box;
use std::ops::Range;
use std::time::{Duration, Instant};

use comaltzex::{
    Book, Date, IntakeRefusal, LookupRefusal, Order, StreamState, StreamedHeading, Whose,
    HEADING_SIZE, TEXT_LIMIT,
};

use crate::{count, intakes};

/// A function to be timed on a text, with a table that fits.
pub type Contender = fn(&[u8], &mut [u32]);

/// The reading of a text that can be read.
pub fn comaltzex(text: &[u8], table: &mut [u32]) {
    let records = comaltzex::read(black_box(text), table).expect("the table fits");
    black_box(records);
}

/// The reading of any text, one that is refused too.
pub fn any_reading(text: &[u8], table: &mut [u32]) {
    let _ = black_box(comaltzex::read(black_box(text), table));
}

/// The closer of the text's first line, up to the text's end.
pub fn find_closer(text: &[u8], _: &mut [u32]) {
    black_box(comaltzex::find_closer(black_box(text), 0, text.len()));
}

/// The lookup at the text's first heading, which is refused.
pub fn refused_lookup(text: &[u8], _: &mut [u32]) {
    black_box(refusal(black_box(text)));
}

/// Why the text's first heading has no property.
pub fn refusal(text: &[u8]) -> LookupRefusal {
    comaltzex::lookup(text, 0, b"VIN").expect_err("the heading has no property drawer")
}

/// The FUEL of an order that has none, from the text as its defaults.
pub fn house_default(text: &[u8], _: &mut [u32]) {
    black_box(default_fuel(black_box(text)));
}

/// Where that FUEL stands in the text.
pub fn default_fuel(defaults: &[u8]) -> Range<usize> {
    let order = b"* A\n:PROPERTIES:\n:VIN: 7\n:END:\n";
    let fuel = comaltzex::lookup_with_defaults(order, 0, defaults, b"FUEL");
    let fuel = fuel.expect("the defaults have a FUEL");
    assert_eq!(fuel.whose, Whose::Defaults);
    fuel.answer
}

/// The timestamp that is the text.
pub fn timestamp(text: &[u8], _: &mut [u32]) {
    let found = comaltzex::timestamp(black_box(text), 0);
    black_box(found.expect("the text is a timestamp"));
}

/// The dates of the text's first heading.
pub fn planning(text: &[u8], _: &mut [u32]) {
    let plan = comaltzex::planning(black_box(text), 0).expect("the text starts with a heading");
    assert!(plan.deadline.is_some(), "the heading has a deadline");
    black_box(plan);
}

thread_local! {
    /// Room for every sheet, lent to each call: none is timed with making it.
    static OUTPUT: RefCell<Vec<u8>> = RefCell::new(vec![0; TEXT_LIMIT]);

    /// An order, made once.
    static ORDER: Order = intakes::order();

    /// Room for the headings of every book, lent likewise.
    static LIST: RefCell<Vec<u32>> = RefCell::new(vec![0; HEADING_SIZE * (TEXT_LIMIT / 3 + 1)]);
}

/// The sheet of the text, which is an order.
pub fn write_sheet(text: &[u8], _: &mut [u32]) {
    black_box(sheet_length(black_box(text)));
}

/// How long that sheet is.
pub fn sheet_length(order: &[u8]) -> usize {
    let length = OUTPUT.with_borrow_mut(|output| comaltzex::write_sheet(order, output));
    length.expect("the text is an order")
}

/// The intake of an order into the text, which has not its request and no room: all of it is
/// searched, and nothing written. The text is copied first, to be lent; that is timed, too, and is a
/// small part of the count's time.
pub fn intake(text: &[u8], _: &mut [u32]) {
    black_box(unroomed(black_box(text)));
}

/// Why that order is not taken in.
pub fn unroomed(text: &[u8]) -> IntakeRefusal {
    OUTPUT.with_borrow_mut(|output| {
        let lent = &mut output[..text.len()];
        lent.copy_from_slice(text);
        let answer = ORDER.with(|order| Book::new(lent, text.len()).intake(order));
        answer.expect_err("the book has no room")
    })
}

/// The headings of the text, which comes in pieces of this length.
pub fn stream<const PIECE: usize>(text: &[u8], _: &mut [u32]) {
    in_pieces::<PIECE>(black_box(text), |heading| {
        black_box(heading);
    });
}

/// These headings.
pub fn streamed<const PIECE: usize>(text: &[u8]) -> Vec<StreamedHeading> {
    let mut headings = Vec::new();
    in_pieces::<PIECE>(text, |heading| headings.push(heading));
    headings
}

/// Does something with each heading of the text, which comes in pieces of this length.
fn in_pieces<const PIECE: usize>(text: &[u8], mut each: impl FnMut(StreamedHeading)) {
    LIST.with_borrow_mut(|list| {
        let mut state = StreamState::new();
        for piece in text.chunks(PIECE) {
            let (after, headings) = state.piece(piece, list).expect("the list has room");
            headings.for_each(&mut each);
            state = after;
        }
        let (_, last) = state.end(list).expect("the list has room");
        last.for_each(each);
    });
}

pub fn plain_reader(text: &[u8], table: &mut [u32]) {
    let answer = plain_reader::answer(black_box(text), table);
    black_box((answer, table));
}

pub fn count_one_at_a_time(text: &[u8], _: &mut [u32]) {
    black_box(count::one_at_a_time(black_box(text)));
}

pub fn count_vectorised(text: &[u8], _: &mut [u32]) {
    black_box(count::vectorised(black_box(text)));
}

/// How long to go on: at least `least` rounds, then up to `most` of them while the
/// time lasts.
pub struct Effort {
    pub least: usize,
    pub most: usize,
    pub time: Duration,
}

/// Bytes read for one sample, so that short texts are read several times.
const SAMPLE_BYTES: usize = 65_536;

/// Calls for one sample of a count of days.
const SAMPLE_CALLS: usize = 1000;

/// Times all contenders on a text. Gives each one's samples in nanoseconds a byte. The
/// table is not cleared between readings; an untimed round comes first.
pub fn contest<const N: usize>(
    text: &[u8],
    table: &mut [u32],
    contenders: [Contender; N],
    effort: &Effort,
) -> [Vec<f64>; N] {
    let readings = (SAMPLE_BYTES / text.len()).max(1);
    for contender in contenders {
        contender(text, table);
    }
    in_turns(effort, |turn| {
        let taken = time(|| (0..readings).for_each(|_| contenders[turn](text, table)));
        taken.as_nanos() as f64 / (readings * text.len()) as f64
    })
}

/// Times the count of days between each pair of dates. Gives each one's samples in
/// nanoseconds a call.
pub fn contest_of_days<const N: usize>(pairs: [[Date; 2]; N], effort: &Effort) -> [Vec<f64>; N] {
    in_turns(effort, |turn| {
        let taken = time(|| (0..SAMPLE_CALLS).for_each(|_| count_days(pairs[turn])));
        taken.as_nanos() as f64 / SAMPLE_CALLS as f64
    })
}

fn count_days(pair: [Date; 2]) {
    let [first, second] = black_box(pair);
    let days = comaltzex::days_between(first, second);
    black_box(days.expect("both are calendar days"));
}

/// Takes a sample of each turn in every round, so that what slows the machine for a
/// while slows them all.
fn in_turns<const N: usize>(
    effort: &Effort,
    mut sample: impl FnMut(usize) -> f64,
) -> [Vec<f64>; N] {
    let mut samples = [const { Vec::new() }; N];
    let start = Instant::now();
    for round in 0..effort.most {
        if round >= effort.least && start.elapsed() >= effort.time {
            break;
        }
        for (turn, samples) in samples.iter_mut().enumerate() {
            samples.push(sample(turn));
        }
    }
    samples
}

/// How long one call takes.
pub fn time(call: impl FnOnce()) -> Duration {
    let start = Instant::now();
    call();
    start.elapsed()
}

/// A table that the text's records just fill; an empty one if it is refused.
pub fn fitting_table(text: &[u8]) -> Vec<u32> {
    comaltzex::Table::read(text).map_or(Vec::new(), |table| table.numbers().to_vec())
}

pub fn median(samples: &[f64]) -> f64 {
    let mut sorted = samples.to_vec();
    sorted.sort_by(f64::total_cmp);
    sorted[sorted.len() / 2]
}

/// The median of each round's own ratio.
pub fn median_ratio(above: &[f64], below: &[f64]) -> f64 {
    let ratios: Vec<f64> = above.iter().zip(below).map(|(a, b)| a / b).collect();
    median(&ratios)
}

pub fn best(samples: &[f64]) -> f64 {
    samples.iter().copied().fold(f64::INFINITY, f64::min)
}
