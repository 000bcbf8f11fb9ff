//! A lent output: how it is before a call, and what differs after it.

use crate::escape::escape;

/// Bytes past the lent ones, which no call may touch.
const GUARD: usize = 9;

/// How many bytes are shown from the first differing one on.
const SHOWN: usize = 20;

/// An output of that room before a call, and the guard past it: no two neighbouring bytes are equal,
/// and none is ASCII.
pub fn fresh_output(room: usize) -> Vec<u8> {
    let run: Vec<u8> = (0x80..=0xFF).collect();
    let length = room + GUARD;
    let mut output = run.repeat(length / run.len() + 1);
    output.truncate(length);
    output
}

/// Both are the same, byte by byte.
pub fn check_output(expected: &[u8], seen: &[u8]) -> Result<(), String> {
    if expected == seen {
        return Ok(());
    }
    let mut both = expected.iter().zip(seen);
    let differing = both.position(|(one, other)| one != other);
    let from = differing.unwrap_or(expected.len().min(seen.len()));
    let shown = |bytes: &[u8]| escape(&bytes[from..bytes.len().min(from + SHOWN)]);
    Err(format!(
        "output from byte {from} on: expected \"{}\", seen \"{}\"",
        shown(expected),
        shown(seen)
    ))
}

#[cfg(test)]
mod tests {
    use super::*;

    #[test]
    fn a_fresh_output_has_a_guard_and_no_byte_twice_in_a_row() {
        let output = fresh_output(1_000);
        assert_eq!(output.len(), 1_000 + GUARD);
        assert!(output.windows(2).all(|pair| pair[0] != pair[1]));
        assert!(!output.iter().any(u8::is_ascii));
    }

    #[test]
    fn the_first_differing_byte_is_told() {
        assert_eq!(check_output(b"abc", b"abc"), Ok(()));
        for (seen, from) in [("xbc", 0), ("abx", 2), ("ab", 2), ("abcd", 3)] {
            let told = check_output(b"abc", seen.as_bytes()).unwrap_err();
            assert!(told.contains(&format!("from byte {from} on")), "{told}");
        }
    }
}
