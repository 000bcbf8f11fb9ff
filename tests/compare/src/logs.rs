//! Seeded logs of orders, whole and damaged (document 02, order 6).

use crate::calls::logged;
use crate::random::Random;

/// How many bytes a length has in a log.
const LENGTH: usize = 4;

/// Lengths far over what a log here has; with some of them a place counted in 32 bits wraps round.
const FAR_LENGTHS: &[&[u8]] = &[
    b"\xFF\xFF\xFF\xFF",
    b"\xFC\xFF\xFF\xFF",
    b"\x00\x00\x00\x17",
];

/// What is done to a log.
#[derive(Clone, Copy, Debug, PartialEq, Eq)]
pub enum Damage {
    /// One to three bytes of a length are left, and nothing after them.
    InLength(usize),
    /// The log ends after a length that is not 0.
    AfterLength,
    InOrder,
    /// A length is far too big, perhaps only in its third or fourth byte.
    Far,
    /// A length is one too high or too low.
    OffByOne,
}

/// A log, and how it came to be what it is.
pub struct SeededLog {
    pub bytes: Vec<u8>,
    pub damage: Option<Damage>,
    /// How many orders stand before the damage; all without any.
    pub whole: usize,
}

/// A log of those orders; often damaged at one of them.
pub fn seeded_log(orders: &[Vec<u8>], random: &mut Random) -> SeededLog {
    let mut parts: Vec<Vec<u8>> = orders.iter().map(|order| logged(order)).collect();
    let at = random.below(parts.len() + 1);
    let damage = match parts.get(at) {
        Some(part) if random.chance(50) => some_damage(part.len() - LENGTH, random),
        _ => None,
    };
    if let Some(damage) = damage {
        spoil(&mut parts, at, damage, random);
    }
    SeededLog {
        bytes: parts.concat(),
        damage,
        whole: damage.map_or(orders.len(), |_| at),
    }
}

/// Some damage that an order of that length may have; seldom none.
fn some_damage(length: usize, random: &mut Random) -> Option<Damage> {
    match random.below(8) {
        0..3 => Some(Damage::InLength(random.between(1, 3))),
        3 if length > 0 => Some(Damage::AfterLength),
        4 if length > 1 => Some(Damage::InOrder),
        5 => Some(Damage::Far),
        6 => Some(Damage::OffByOne),
        _ => None,
    }
}

fn spoil(parts: &mut Vec<Vec<u8>>, at: usize, damage: Damage, random: &mut Random) {
    let part = &mut parts[at];
    let left = match damage {
        Damage::InLength(left) => left,
        Damage::AfterLength => LENGTH,
        Damage::InOrder => random.between(LENGTH + 1, part.len() - 1),
        Damage::Far if random.chance(50) => {
            part[..LENGTH].copy_from_slice(random.pick(FAR_LENGTHS));
            return;
        }
        Damage::Far => {
            let high = random.between(2, 3);
            part[high] += *random.pick(&[&1, &128]);
            return;
        }
        Damage::OffByOne => {
            let by = if random.chance(50) { 1 } else { 255 };
            part[0] = part[0].wrapping_add(by);
            return;
        }
    };
    part.truncate(left);
    parts.truncate(at + 1);
}

#[cfg(test)]
mod tests {
    use super::*;
    use plain_reader::orders_of;

    #[test]
    fn a_log_is_whole_but_for_its_damage() {
        let orders = [b"".to_vec(), b"ab".to_vec(), vec![b'a'; 300]];
        for seed in 0..2_000 {
            let log = seeded_log(&orders, &mut Random::new(seed));
            let seen = orders_of(&log.bytes);
            match log.damage {
                None => assert_eq!(seen.unwrap(), orders, "seed {seed}"),
                Some(Damage::OffByOne) => assert_ne!(seen.unwrap_or_default(), orders),
                Some(damage) => assert!(seen.is_none(), "seed {seed}, {damage:?}"),
            }
        }
    }
}
