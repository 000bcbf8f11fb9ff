//! Seeded orders: good ones, such with faults, and such whose buffer is damaged (document 02, order
//! 5).

use plain_reader::LONGEST_TEXT;

use crate::check::other_case;
use crate::order::{joined, Order, Part};
use crate::random::Random;
use crate::words::{BAD_KEYS, BAD_TEXTS, END_KEYS, SHEET_KEYS, SHEET_TEXTS};

/// What an order may have that a sheet may not.
#[derive(Clone, Copy, Debug, PartialEq, Eq)]
pub enum Fault {
    Title,
    Value,
    Key,
    Repeated,
    Pairs,
    Length,
}

/// What is done to an order's buffer.
#[derive(Clone, Copy, Debug, PartialEq, Eq)]
pub enum Damage {
    Cut(Part),
    Long,
    OffByOne(Part),
    Changed,
    /// Nothing of the order is left.
    Loose,
}

/// A buffer, and how it came to be what it is.
pub struct Seeded {
    /// The order with its faults, its buffer yet whole.
    pub order: Order,
    pub faults: Vec<Fault>,
    pub damage: Option<Damage>,
    pub buffer: Vec<u8>,
}

pub fn seeded_order(random: &mut Random) -> Seeded {
    let mut order = good_order(random);
    let faults = faults(random);
    for fault in &faults {
        add_fault(*fault, &mut order, random);
    }
    let parts = order.parts().expect("every length fits in its bytes");
    let mut buffer = joined(&parts);
    let damage = random.chance(30);
    let damage = damage.then(|| damage_buffer(&mut buffer, &parts, random));
    Seeded {
        order,
        faults,
        damage,
        buffer,
    }
}

/// An order that has a sheet, seldom one as long as a sheet may be.
fn good_order(random: &mut Random) -> Order {
    let count = match random.below(20) {
        0..3 => 0,
        3 => random.between(15, 16),
        _ => random.between(1, 4),
    };
    let first = random.below(SHEET_KEYS.len());
    let keys = SHEET_KEYS.iter().cycle().skip(first).take(count);
    let mut order = Order {
        title: random.pick(SHEET_TEXTS).to_vec(),
        pairs: keys
            .map(|key| (key.to_vec(), random.pick(SHEET_TEXTS).to_vec()))
            .collect(),
    };
    if random.below(1000) < 2 {
        grow(&mut order, LONGEST_TEXT - random.below(2), random);
    }
    order
}

/// Up to three faults; a sheet too long is the last of them, and seldom.
fn faults(random: &mut Random) -> Vec<Fault> {
    let count = random.below(7).saturating_sub(3);
    let mut faults: Vec<Fault> = (0..count).map(|_| short_fault(random)).collect();
    if random.below(1000) < 4 {
        faults.push(Fault::Length);
    }
    faults
}

pub fn short_fault(random: &mut Random) -> Fault {
    match random.below(20) {
        0 => Fault::Pairs,
        1..5 => Fault::Title,
        5..10 => Fault::Value,
        10..15 => Fault::Key,
        _ => Fault::Repeated,
    }
}

pub fn add_fault(fault: Fault, order: &mut Order, random: &mut Random) {
    match fault {
        Fault::Title => order.title = random.pick(BAD_TEXTS).to_vec(),
        Fault::Value => spoil_value(order, random),
        Fault::Key => {
            let keys = if random.chance(30) {
                END_KEYS
            } else {
                BAD_KEYS
            };
            insert_pair(random.pick(keys).to_vec(), order, random);
        }
        Fault::Repeated => repeat_key(order, random),
        Fault::Pairs => {
            for index in order.pairs.len()..random.between(17, 20) {
                let key = format!("pair{index}").into_bytes();
                insert_pair(key, order, random);
            }
        }
        Fault::Length => {
            let over = [1, 2, 21][random.below(3)];
            grow(order, LONGEST_TEXT + over, random);
            if random.chance(25) {
                let value = vec![b'x'; LONGEST_TEXT - 1];
                order.pairs.push((b"longest".to_vec(), value));
            }
        }
    }
}

/// A pair with that key, in any place.
fn insert_pair(key: Vec<u8>, order: &mut Order, random: &mut Random) {
    let value = random.pick(SHEET_TEXTS).to_vec();
    let place = random.below(order.pairs.len() + 1);
    order.pairs.insert(place, (key, value));
}

/// Some value, often the last one, is spoilt; that of a new pair where there is none.
fn spoil_value(order: &mut Order, random: &mut Random) {
    if order.pairs.is_empty() {
        insert_pair(b"new".to_vec(), order, random);
    }
    let last = order.pairs.len() - 1;
    let place = if random.chance(50) {
        last
    } else {
        random.below(last + 1)
    };
    order.pairs[place].1 = random.pick(BAD_TEXTS).to_vec();
}

/// Some key comes once more, often in other letters; a new one where there is none.
fn repeat_key(order: &mut Order, random: &mut Random) {
    if order.pairs.is_empty() {
        insert_pair(b"Twice".to_vec(), order, random);
    }
    let key = order.pairs[random.below(order.pairs.len())].0.clone();
    let key = if random.chance(60) {
        other_case(&key)
    } else {
        key
    };
    insert_pair(key, order, random);
}

/// Makes the sheet so long, by bytes in the middle of the title or of a value that is not empty.
/// What is longer already stays.
fn grow(order: &mut Order, length: usize, random: &mut Random) {
    let lack = length.saturating_sub(order.sheet_length());
    let values = order.pairs.iter_mut().map(|(_, value)| value);
    let mut texts: Vec<&mut Vec<u8>> = values.filter(|value| !value.is_empty()).collect();
    texts.push(&mut order.title);
    let chosen = random.below(texts.len());
    let text = &mut texts[chosen];
    let middle = text.len() / 2;
    text.splice(middle..middle, std::iter::repeat_n(b'x', lack));
}

pub fn damage_buffer(
    buffer: &mut Vec<u8>,
    parts: &[(Part, Vec<u8>)],
    random: &mut Random,
) -> Damage {
    match random.below(20) {
        0..7 => cut(buffer, parts, random),
        7..10 => {
            let more = random.between(1, 3);
            buffer.extend((0..more).map(|_| loose_byte(random)));
            Damage::Long
        }
        10..15 => count_wrongly(buffer, parts, random),
        15..18 => {
            let place = random.below(buffer.len());
            buffer[place] = loose_byte(random);
            Damage::Changed
        }
        _ => {
            *buffer = loose_buffer(random);
            Damage::Loose
        }
    }
}

/// Cuts the buffer off within some part that is not empty.
fn cut(buffer: &mut Vec<u8>, parts: &[(Part, Vec<u8>)], random: &mut Random) -> Damage {
    let (part, start, length) = some_part(parts, |_, bytes| !bytes.is_empty(), random);
    buffer.truncate(start + random.below(length));
    Damage::Cut(part)
}

/// Makes a length or the pair count one too high or too low.
fn count_wrongly(buffer: &mut [u8], parts: &[(Part, Vec<u8>)], random: &mut Random) -> Damage {
    let counts = |part, _: &[u8]| !matches!(part, Part::Title | Part::Key | Part::Value);
    let (part, start, _) = some_part(parts, counts, random);
    let by = if random.chance(50) { 1 } else { 255 };
    buffer[start] = buffer[start].wrapping_add(by);
    Damage::OffByOne(part)
}

/// Some part of that sort, its start in the buffer and its length.
fn some_part(
    parts: &[(Part, Vec<u8>)],
    is_of_sort: impl Fn(Part, &[u8]) -> bool,
    random: &mut Random,
) -> (Part, usize, usize) {
    let mut start = 0;
    let mut found = Vec::new();
    for (part, bytes) in parts {
        if is_of_sort(*part, bytes) {
            found.push((*part, start, bytes.len()));
        }
        start += bytes.len();
    }
    found[random.below(found.len())]
}

/// Few bytes, most of them low: seldom a whole buffer.
fn loose_buffer(random: &mut Random) -> Vec<u8> {
    const LOW: &[u8] = b"\x00\x00\x00\x00\x01\x01\x02A";
    let length = random.below(10);
    let bytes = (0..length).map(|_| match random.chance(80) {
        true => LOW[random.below(LOW.len())],
        false => loose_byte(random),
    });
    bytes.collect()
}

/// A byte that means something in a buffer, or any other.
fn loose_byte(random: &mut Random) -> u8 {
    const BYTES: &[u8] = b"\x00\x00\x00\x01\x01\x02\x09\x0A\x0D\x10\x11 +:Aab\xFF";
    match random.chance(90) {
        true => BYTES[random.below(BYTES.len())],
        false => random.below(256) as u8,
    }
}

#[cfg(test)]
mod tests {
    use super::*;
    use plain_reader::write_sheet;

    #[test]
    fn an_order_is_refused_for_its_faults_and_no_others() {
        for seed in 0..3_000 {
            let seeded = seeded_order(&mut Random::new(seed));
            if seeded.damage.is_some() {
                continue;
            }
            let (number, count) = write_sheet(&seeded.buffer, &mut []);
            let is_good = seeded.faults.is_empty();
            assert_eq!(number == 16, is_good, "seed {seed}, {:?}", seeded.faults);
            assert!(
                !is_good || count == seeded.order.sheet_length(),
                "seed {seed}"
            );
        }
    }
}
