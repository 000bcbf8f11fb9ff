//! Bytes as readable text and back: `\n`, `\r`, `\t`, `\s` (byte 32), `\\`, `\"` and `\xNN`.

/// The most bytes that are shown whole.
const SHOWN: usize = 1_000;

/// `bytes` in double quotes, or how many there are.
pub fn shown(bytes: &[u8]) -> String {
    match bytes.len() {
        0..=SHOWN => format!("\"{}\"", escape(bytes)),
        length => format!("of {length} bytes"),
    }
}

/// `bytes` in printable ASCII. Byte 32 stands for itself.
pub fn escape(bytes: &[u8]) -> String {
    bytes.iter().map(|byte| escape_byte(*byte)).collect()
}

fn escape_byte(byte: u8) -> String {
    match byte {
        b'\n' => "\\n".to_string(),
        b'\r' => "\\r".to_string(),
        b'\t' => "\\t".to_string(),
        b'\\' => "\\\\".to_string(),
        b'"' => "\\\"".to_string(),
        32..=126 => char::from(byte).to_string(),
        _ => format!("\\x{byte:02X}"),
    }
}

/// The bytes that `escaped` stands for.
pub fn unescape(escaped: &str) -> Result<Vec<u8>, String> {
    let mut bytes = Vec::new();
    let mut rest = escaped.as_bytes();
    while let [first, after @ ..] = rest {
        if *first != b'\\' {
            bytes.push(*first);
            rest = after;
            continue;
        }
        let (byte, length) = escaped_byte(after).ok_or(format!("bad escape in {escaped:?}"))?;
        bytes.push(byte);
        rest = &after[length..];
    }
    Ok(bytes)
}

/// The byte after a backslash and how many bytes name it.
fn escaped_byte(after: &[u8]) -> Option<(u8, usize)> {
    Some(match after.first()? {
        b'n' => (b'\n', 1),
        b'r' => (b'\r', 1),
        b't' => (b'\t', 1),
        b's' => (b' ', 1),
        b'\\' => (b'\\', 1),
        b'"' => (b'"', 1),
        b'x' => {
            let digits = std::str::from_utf8(after.get(1..3)?).ok()?;
            (u8::from_str_radix(digits, 16).ok()?, 3)
        }
        _ => return None,
    })
}

#[cfg(test)]
mod tests {
    use super::*;

    #[test]
    fn every_byte_comes_back() {
        let bytes: Vec<u8> = (0..=255).collect();
        assert_eq!(unescape(&escape(&bytes)), Ok(bytes));
    }

    #[test]
    fn a_bad_escape_is_refused() {
        assert!(unescape("\\q").is_err());
        assert!(unescape("\\x4").is_err());
        assert!(unescape("a\\").is_err());
    }
}
