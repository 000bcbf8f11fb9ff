//! Seeded runs of intake calls: a book, and orders that come in one after the other (document 02,
//! order 6).

use plain_reader::{write_sheet, LONGEST_TEXT};

use crate::calls::Book;
use crate::logs::{seeded_log, SeededLog};
use crate::order::{joined, Order};
use crate::orders::{add_fault, damage_buffer, seeded_order, short_fault};
use crate::output::fresh_output;
use crate::random::Random;
use crate::subject::PLAIN_READER;
use crate::words::*;

/// A seeded text over this length is a book only now and then.
const MUCH: usize = 4_000;

/// The most bytes that a sheet and a byte 10 before it have more than the order's buffer.
const MOST_ADDED: usize = 36;

pub struct SeededRun {
    /// As it is before the first call.
    pub book: Book,
    pub orders: Vec<Vec<u8>>,
    /// The same orders as a log.
    pub log: SeededLog,
}

/// A run on a book: that text, or one written by hand, or an empty one.
pub fn seeded_run(text: &[u8], random: &mut Random) -> SeededRun {
    let count = if random.chance(3) {
        0
    } else {
        random.between(1, 6)
    };
    let orders: Vec<Vec<u8>> = (0..count).map(|_| incoming_order(random)).collect();
    let mut text = book_text(text, random);
    if random.chance(2) {
        grow(&mut text, &orders, random);
    }
    let used = used(&text, random);
    let room = room(&text, used, &orders, random);
    let log = seeded_log(&orders, random);
    SeededRun {
        book: lent(&text, used, room),
        orders,
        log,
    }
}

/// A buffer of that room, with the text or as much of it as there is room for at its front.
fn lent(text: &[u8], used: usize, room: usize) -> Book {
    let front = text.len().min(room);
    let mut buffer = fresh_output(room);
    buffer[..front].copy_from_slice(&text[..front]);
    Book { buffer, room, used }
}

fn book_text(text: &[u8], random: &mut Random) -> Vec<u8> {
    let takes_text = text.len() <= MUCH || random.chance(20);
    match random.below(20) {
        0 => Vec::new(),
        1..8 if takes_text => text.to_vec(),
        8 | 9 if takes_text => [text, b"\n", &written_by_hand(random)].concat(),
        _ => written_by_hand(random),
    }
}

/// Headings, most with a drawer that has a request; now and then something that keeps it from being
/// looked up, and often no byte 10 at the end.
fn written_by_hand(random: &mut Random) -> Vec<u8> {
    let mut text = Vec::new();
    for _ in 0..random.between(1, 4) {
        text.extend(random.pick(BOOK_HEADINGS));
        text.extend(random.pick(BEFORE_DRAWERS));
        text.extend(b":PROPERTIES:\n");
        for _ in 0..random.below(4) {
            text.extend(random.pick(DRAWER_LINES));
            text.extend(random.pick(REQUESTS));
            text.extend(random.pick(LINE_ENDS));
        }
        if random.chance(6) {
            text.extend(random.pick(&[b"\n".as_slice(), b"x\n"]));
        }
        if random.chance(92) {
            text.extend(b":END:\n");
        }
        text.extend(random.pick(ITEM_GAPS));
    }
    if random.chance(40) {
        text.pop();
    }
    text
}

/// Grows the text by a line of `x`, before it or after it, so that with the first sheet it is around as
/// long as a book may be; seldom so that it is too long alone.
fn grow(text: &mut Vec<u8>, orders: &[Vec<u8>], random: &mut Random) {
    let answers = orders.iter().map(|order| write_sheet(order, &mut []));
    let mut lengths = answers.filter(|(number, _)| *number == 16);
    let sheet = match lengths.next() {
        Some((_, length)) if random.chance(70) => length,
        _ => 0,
    };
    let aim = (LONGEST_TEXT + 2 - random.below(4)).saturating_sub(sheet);
    let lack = aim.saturating_sub(text.len());
    let line = [vec![b'x'; lack.saturating_sub(1)], b"\n".to_vec()].concat();
    if random.chance(50) {
        text.splice(..0, line);
    } else {
        text.extend(line);
    }
    if random.chance(40) {
        text.pop();
        text.push(b'x');
    }
}

/// How many bytes are in use: mostly the whole text, else some of it, seldom far more.
fn used(text: &[u8], random: &mut Random) -> usize {
    let place = random.below(text.len() + 1);
    match random.below(100) {
        0 => usize::MAX - random.below(60),
        1..9 => place,
        9..21 => {
            let newline = text[..place].iter().rposition(|byte| *byte == 10);
            newline.map_or(0, |newline| newline + 1)
        }
        _ => text.len(),
    }
}

/// How many bytes are lent: mostly enough, else just enough up to some call or one byte less, or as many
/// as are in use, one less, or any.
fn room(text: &[u8], used: usize, orders: &[Vec<u8>], random: &mut Random) -> usize {
    let added: usize = orders.iter().map(|order| order.len() + MOST_ADDED).sum();
    let enough = text.len() + added;
    match random.below(20) {
        0..8 => enough + random.below(40),
        8..11 => need_of_some_call(text, used, enough, orders, random),
        11..15 => need_of_some_call(text, used, enough, orders, random).saturating_sub(1),
        15 => used.min(enough),
        16 => used.min(enough).saturating_sub(1),
        17 => random.below(text.len() + 100),
        18 => text.len(),
        _ => enough,
    }
}

/// The bytes in use after some call that adds a sheet, in room enough.
fn need_of_some_call(
    text: &[u8],
    used: usize,
    enough: usize,
    orders: &[Vec<u8>],
    random: &mut Random,
) -> usize {
    let mut book = lent(text, used, enough);
    let answers = orders.iter().map(|order| book.take(order, &PLAIN_READER));
    let needs: Vec<usize> = answers
        .filter(|(number, _)| *number == 0)
        .map(|(_, used)| used)
        .collect();
    match needs.len() {
        0 => enough,
        count => needs[random.below(count)],
    }
}

/// The buffer of an order as the site sends it: mostly one with `REQUEST` and `VIN`, now and then with
/// faults or damaged; else any order of those that sheets are written from.
fn incoming_order(random: &mut Random) -> Vec<u8> {
    if random.chance(8) {
        return seeded_order(random).buffer;
    }
    let mut order = request(random);
    if random.chance(15) {
        empty_or_drop(&mut order, random);
    }
    if random.chance(10) {
        add_fault(short_fault(random), &mut order, random);
    }
    let parts = order.parts().expect("every length fits in its bytes");
    let mut buffer = joined(&parts);
    if random.chance(4) {
        damage_buffer(&mut buffer, &parts, random);
    }
    if random.chance(1) {
        buffer.clear();
    }
    buffer
}

/// An order with `REQUEST` and `VIN`, in any turn, and perhaps other pairs around them.
fn request(random: &mut Random) -> Order {
    let mut pairs = vec![
        some_pair(REQUEST_KEYS, REQUESTS, random),
        some_pair(VIN_KEYS, VINS, random),
    ];
    if random.chance(30) {
        pairs.swap(0, 1);
    }
    if random.chance(30) {
        let place = random.below(3);
        pairs.insert(place, some_pair(OTHER_KEYS, REQUESTS, random));
    }
    let title = random.pick(&[b"T".as_slice(), b"T", b"T", b"", b"r1", b"** B"]);
    Order {
        title: title.to_vec(),
        pairs,
    }
}

fn some_pair(keys: &[&[u8]], values: &[&[u8]], random: &mut Random) -> (Vec<u8>, Vec<u8>) {
    (random.pick(keys).to_vec(), random.pick(values).to_vec())
}

/// Some pair loses its value, or the order that pair.
fn empty_or_drop(order: &mut Order, random: &mut Random) {
    let place = random.below(order.pairs.len());
    if random.chance(50) {
        order.pairs[place].1.clear();
    } else {
        order.pairs.remove(place);
    }
}

#[cfg(test)]
mod tests {
    use super::*;
    use plain_reader::orders_of;

    #[test]
    fn a_run_has_its_book_in_its_room_and_its_orders_in_its_log() {
        let text = b"* A\n:PROPERTIES:\n:REQUEST: 7\n:END:";
        for seed in 0..2_000 {
            let run = seeded_run(text, &mut Random::new(seed));
            let Book { buffer, room, .. } = &run.book;
            let fresh = fresh_output(*room);
            assert_eq!(buffer.len(), fresh.len(), "seed {seed}");
            assert_eq!(buffer[*room..], fresh[*room..], "seed {seed}");
            let whole = orders_of(&run.log.bytes).filter(|_| run.log.damage.is_none());
            assert!(
                whole.is_none_or(|orders| orders == run.orders),
                "seed {seed}"
            );
        }
    }
}
