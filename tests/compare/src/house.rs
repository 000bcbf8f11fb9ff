//! Seeded defaults texts: small ones of the house, right and spoilt, and such as no house has.

use crate::random::Random;
use crate::texts::text;
use crate::words::*;

/// The length of the longest text.
const LONGEST: usize = 65_536;

/// A defaults text to go with an order: mostly one of the house, else the order text itself,
/// another seeded text, an empty one, or one of the house grown long.
pub fn defaults_text(order: &[u8], random: &mut Random) -> Vec<u8> {
    match random.below(1000) {
        0..80 => order.to_vec(),
        80..180 => text(random).1,
        180..220 => Vec::new(),
        220..222 => grown(random),
        _ => house_text(random),
    }
}

/// As long as a text may be, or one byte longer.
fn grown(random: &mut Random) -> Vec<u8> {
    let mut text = house_text(random);
    text.resize(LONGEST + random.below(2), b'x');
    text
}

/// A first heading with its drawer; perhaps a drawer before it, perhaps a second heading with
/// another.
fn house_text(random: &mut Random) -> Vec<u8> {
    let mut text = Vec::new();
    if random.chance(20) {
        add_drawer(&mut text, random);
    }
    text.extend(random.pick(HOUSE_HEADINGS));
    text.extend(random.pick(UNDER_HOUSE_HEADINGS));
    add_drawer(&mut text, random);
    if random.chance(30) {
        text.extend(random.pick(&[b"* B\n".as_slice(), b"** B\n"]));
        add_drawer(&mut text, random);
    }
    text
}

fn add_drawer(text: &mut Vec<u8>, random: &mut Random) {
    text.extend(b":PROPERTIES:\n");
    for _ in 0..random.between(1, 5) {
        text.push(b':');
        text.extend(random.pick(HOUSE_NAMES));
        text.extend(random.pick(HOUSE_VALUES));
    }
    text.extend(random.pick(HOUSE_CLOSERS));
}
