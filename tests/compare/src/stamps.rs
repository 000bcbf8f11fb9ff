//! Seeded timestamps and planning lines: right ones, and such as have a part damaged.

use crate::random::Random;
use crate::words::*;

/// The body of a planning line, or of one that is nearly right.
pub fn planning_body(random: &mut Random) -> Vec<u8> {
    if random.chance(10) {
        return random.pick(PLANNING_BODIES).to_vec();
    }
    let mut body = Vec::new();
    for part in 0..*random.pick(&[&1, &1, &1, &2, &2, &3, &5]) {
        if part > 0 {
            body.extend(gap(random));
        }
        body.extend(planning_word(random));
        body.extend(gap(random));
        body.extend(stamp(random));
    }
    if random.chance(15) {
        damage(&mut body, random);
    }
    body
}

fn planning_word(random: &mut Random) -> &'static [u8] {
    if random.chance(97) {
        random.pick(PLANNING_WORDS)
    } else {
        random.pick(OTHER_WORDS)
    }
}

/// A timestamp, or what is nearly one.
pub fn stamp(random: &mut Random) -> Vec<u8> {
    let brackets = random.pick(BRACKETS);
    let mut stamp = half(brackets, random);
    if random.chance(25) {
        stamp.extend(random.pick(JOINTS));
        let second = match random.below(20) {
            0 => random.pick(BRACKETS),
            _ => brackets,
        };
        stamp.extend(half(second, random));
    }
    if random.chance(15) {
        damage(&mut stamp, random);
    }
    stamp
}

/// What stands in one pair of brackets: the parts in their order, seldom in another.
fn half(brackets: &[u8], random: &mut Random) -> Vec<u8> {
    let mut parts = parts(random);
    if random.chance(3) {
        let (one, other) = (random.below(parts.len()), random.below(parts.len()));
        parts.swap(one, other);
    }
    if random.chance(3) {
        parts.push(parts[random.below(parts.len())].clone());
    }
    let mut half = vec![brackets[0]];
    for (index, part) in parts.iter().enumerate() {
        if index > 0 {
            half.extend(gap(random));
        }
        half.extend(part);
    }
    half.push(brackets[1]);
    half
}

/// A date, and each part that may follow it or not.
fn parts(random: &mut Random) -> Vec<Vec<u8>> {
    let mut parts = vec![random.pick(DATES).to_vec()];
    if random.chance(50) {
        parts.push(random.pick(DAY_NAMES).to_vec());
    }
    if random.chance(40) {
        parts.push(random.pick(TIMES).to_vec());
    }
    let mut tail = Vec::new();
    if random.chance(40) {
        tail.push(repeater(random));
    }
    if random.chance(30) {
        let place = random.below(tail.len() + 1);
        tail.insert(place, delay(random));
    }
    parts.extend(tail);
    parts
}

fn repeater(random: &mut Random) -> Vec<u8> {
    let mut repeater = random.pick(REPEAT_MARKS).to_vec();
    repeater.extend(amount(random));
    if random.chance(30) {
        repeater.push(b'/');
        repeater.extend(amount(random));
    }
    repeater
}

fn delay(random: &mut Random) -> Vec<u8> {
    let mut delay = random.pick(DELAY_MARKS).to_vec();
    delay.extend(amount(random));
    delay
}

fn amount(random: &mut Random) -> Vec<u8> {
    let digits = *random.pick(&[&1, &1, &1, &1, &1, &1, &1, &2, &9, &9, &10]);
    let mut amount = Vec::new();
    for _ in 0..digits {
        amount.push(b'0' + random.below(10) as u8);
    }
    amount.push(UNITS[random.below(UNITS.len())]);
    amount
}

/// Blank bytes; seldom none, or a byte that is not blank.
fn gap(random: &mut Random) -> &'static [u8] {
    match random.below(100) {
        0..80 => b" ",
        80..98 => random.pick(GAPS),
        _ => random.pick(NO_GAPS),
    }
}

/// Takes a byte away, doubles it, changes it or adds one.
fn damage(bytes: &mut Vec<u8>, random: &mut Random) {
    let at = random.below(bytes.len());
    let byte = STAMP_BYTES[random.below(STAMP_BYTES.len())];
    match random.below(4) {
        0 => drop(bytes.remove(at)),
        1 => bytes.insert(at, bytes[at]),
        2 => bytes[at] = byte,
        _ => bytes.insert(at, byte),
    }
}
