//! Two counts of byte 10, the yardsticks.

/// Looks at the bytes one at a time: a load, a comparison and an addition each.
///
/// A volatile load must happen as written, so the compiler cannot look at several
/// bytes at once. `black_box` on each byte would do that too, but it sends the byte
/// through memory and back, and a slower yardstick would flatter the reader.
#[inline(never)]
pub fn one_at_a_time(text: &[u8]) -> usize {
    let mut count = 0;
    for byte in text {
        // SAFETY: a reference is valid for reads.
        let byte = unsafe { std::ptr::read_volatile(byte) };
        count += usize::from(byte == b'\n');
    }
    count
}

/// The same count in a form that the compiler turns into vector instructions: a
/// chunk's count fits one byte, so the sums are as narrow as the text.
#[inline(never)]
pub fn vectorised(text: &[u8]) -> usize {
    let lines = |chunk: &[u8]| chunk.iter().map(|&b| u8::from(b == b'\n')).sum::<u8>();
    text.chunks(255)
        .map(|chunk| usize::from(lines(chunk)))
        .sum()
}

#[cfg(test)]
mod tests {
    use super::*;

    #[test]
    fn both_counts_agree() {
        for length in [0, 1, 254, 255, 256, 4096] {
            let text = vec![b'\n'; length];
            assert_eq!(one_at_a_time(&text), length);
            assert_eq!(vectorised(&text), length);
        }
        assert_eq!(one_at_a_time(b"a\nb\n"), 2);
        assert_eq!(vectorised(b"a\nb\n"), 2);
    }
}
