//! Why a lookup was refused, for the clerk who mends it.

use comaltzex::{LookupRefusal, Sourced, Whose};

use super::printable::printable;

/// How much is shown of a line that is no property, in characters.
pub const SHOWN: usize = 60;

/// The refusal of this text, and of a line that is no property what it says.
pub fn words(text: &[u8], whose: Whose, answer: LookupRefusal) -> String {
    let refusal = Sourced { whose, answer };
    let LookupRefusal::NotProperty { start, .. } = answer else {
        return refusal.to_string();
    };
    let line = text[start..].split(|&byte| byte == b'\n').next();
    match line.unwrap_or_default().trim_ascii() {
        b"" => format!("{refusal}: it is blank"),
        line => format!("{refusal}: {}", shortened(&printable(line), SHOWN)),
    }
}

/// At most so many characters of a text, and two dots where there were more.
fn shortened(text: &str, limit: usize) -> String {
    match text.char_indices().nth(limit) {
        Some((end, _)) => format!("{}..", &text[..end]),
        None => text.to_string(),
    }
}

#[cfg(test)]
mod tests {
    use super::*;

    #[test]
    fn long_texts_are_shortened() {
        assert_eq!(shortened("äbc", 3), "äbc");
        assert_eq!(shortened("äbcd", 3), "äbc..");
        assert_eq!(shortened("", 3), "");
    }
}
