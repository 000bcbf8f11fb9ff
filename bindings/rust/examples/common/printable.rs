//! Bytes as text for a terminal or an editor.

/// The bytes as UTF-8. What is not, control characters and those that turn the text's
/// direction are escaped; but tabs stay, by which tags are set apart in titles.
pub fn printable(bytes: &[u8]) -> String {
    let mut text = String::new();
    for chunk in bytes.utf8_chunks() {
        for character in chunk.valid().chars() {
            if is_harmless(character) {
                text.push(character);
            } else {
                text.extend(character.escape_default());
            }
        }
        for byte in chunk.invalid() {
            text += &format!("\\x{byte:02x}");
        }
    }
    text
}

fn is_harmless(character: char) -> bool {
    match character {
        '\t' => true,
        '\u{202a}'..='\u{202e}' | '\u{2066}'..='\u{2069}' => false,
        _ => !character.is_control(),
    }
}

#[cfg(test)]
mod tests {
    use super::*;

    #[test]
    fn text_stays() {
        for text in [
            "",
            "Wiesława \"Górska\" \\ 'Weiß'",
            "e\u{301} 車",
            "a\t:tag:",
        ] {
            assert_eq!(printable(text.as_bytes()), text);
        }
    }

    #[test]
    fn control_characters_are_escaped() {
        assert_eq!(
            printable(b"a\x1b[2Jb\0\x07\r\n\x7f"),
            r"a\u{1b}[2Jb\u{0}\u{7}\r\n\u{7f}"
        );
        assert_eq!(printable("\u{9b}2J".as_bytes()), r"\u{9b}2J");
    }

    #[test]
    fn direction_cannot_turn() {
        let text = "\u{202a}a\u{202e}b\u{2066}c\u{2069}";
        assert_eq!(
            printable(text.as_bytes()),
            r"\u{202a}a\u{202e}b\u{2066}c\u{2069}"
        );
    }

    #[test]
    fn other_bytes_are_escaped() {
        assert_eq!(
            printable(b"M\xfcller \xe2\x82 \x9b \xff"),
            r"M\xfcller \xe2\x82 \x9b \xff"
        );
    }
}
