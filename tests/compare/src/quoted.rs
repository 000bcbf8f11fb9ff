//! Bytes as a case writes them: quoted pieces in a row, after each perhaps `*` and how often it
//! comes.

use crate::case::number;
use crate::escape::unescape;

/// So many BYTES, with a space between.
pub fn fields_of<const COUNT: usize>(line: &str) -> Result<[Vec<u8>; COUNT], String> {
    let told = |fields: Vec<Vec<u8>>| format!("{} BYTES in {line:?}, not {COUNT}", fields.len());
    fields(line)?.try_into().map_err(told)
}

/// BYTES, one or more with a space between.
pub fn fields(line: &str) -> Result<Vec<Vec<u8>>, String> {
    let mut fields = Vec::new();
    let mut rest = Some(line);
    while let Some(line) = rest {
        let (bytes, after) = field(line)?;
        fields.push(bytes);
        rest = after;
    }
    Ok(fields)
}

/// The BYTES at the front, and what follows the space after them.
fn field(line: &str) -> Result<(Vec<u8>, Option<&str>), String> {
    let mut bytes = Vec::new();
    let mut rest = line;
    loop {
        let (piece, after) = piece(rest)?;
        bytes.extend(piece);
        if after.is_empty() {
            return Ok((bytes, None));
        }
        if let Some(next) = after.strip_prefix(' ') {
            return Ok((bytes, Some(next)));
        }
        rest = after;
    }
}

/// The quoted piece at the front, as often as it comes, and the rest of the line.
fn piece(line: &str) -> Result<(Vec<u8>, &str), String> {
    let told = || format!("{line:?} does not begin with double quotes");
    let inside = line.strip_prefix('"').ok_or_else(told)?;
    let end = closing_quote(inside).ok_or_else(told)?;
    let bytes = unescape(&inside[..end])?;
    let after = &inside[end + 1..];
    let Some(times) = after.strip_prefix('*') else {
        return Ok((bytes, after));
    };
    let digits = times.bytes().take_while(u8::is_ascii_digit).count();
    let (times, after) = times.split_at(digits);
    Ok((bytes.repeat(number(times)?), after))
}

/// The first quote that is not escaped.
fn closing_quote(inside: &str) -> Option<usize> {
    let mut is_escaped = false;
    inside.bytes().position(|byte| {
        let closes = byte == b'"' && !is_escaped;
        is_escaped = byte == b'\\' && !is_escaped;
        closes
    })
}

#[cfg(test)]
mod tests {
    use super::*;

    #[test]
    fn pieces_in_a_row_and_fields() {
        let line = r#""a" "" "b"*3"\"c\\""d "*2 "\x01\x00""#;
        let expected = [b"a".as_slice(), b"", b"bbb\"c\\d d ", b"\x01\x00"];
        assert_eq!(fields(line).unwrap(), expected);
        assert_eq!(
            fields_of(r#""k" "v"*2"#),
            Ok([b"k".to_vec(), b"vv".to_vec()])
        );
    }

    #[test]
    fn other_forms_are_refused() {
        for line in [
            "",
            "a",
            "\"a",
            "\"a\"b",
            "\"a\"*",
            "\"a\"*x",
            "\"a\" ",
            "\"a\"  \"b\"",
            "\"\\\"",
            "\"\\q\"",
        ] {
            assert!(fields(line).is_err(), "{line}");
        }
        assert!(fields_of::<2>("\"a\"").is_err());
        assert!(fields_of::<1>("\"a\" \"b\"").is_err());
    }
}
