//! Books whose headings are listed while they come in pieces.

use comaltzex::TEXT_LIMIT;

use crate::contest::{self, Contender};
use crate::texts::{self, filled, Text};

/// A call for each length of pieces, and how it is named: one byte, a few, what a network packet
/// holds, and nearly all.
pub const PIECES: [(&str, Contender); 4] = [
    ("book by 1", contest::stream::<1>),
    ("book by 7", contest::stream::<7>),
    ("book by 1,460", contest::stream::<1460>),
    ("book by 60,000", contest::stream::<60_000>),
];

/// The same for texts made to be slow: the whole, and one byte.
pub const EXTREMES: [(&str, Contender); 2] = [
    ("whole", contest::stream::<TEXT_LIMIT>),
    ("by 1", contest::stream::<1>),
];

/// The order book that people write.
pub fn book(size: usize) -> Text {
    Text::new("order book", texts::book(size))
}

/// Texts made to be slow: headings as short as can be, one title with a blank after each letter,
/// and stars alone.
pub fn hostile(size: usize) -> [Text; 3] {
    [
        ("* lines", filled("", "* \n", size)),
        ("one title", filled("* ", "t ", size)),
        ("stars", filled("", "*", size)),
    ]
    .map(|(name, bytes)| Text::new(name, bytes))
}

/// What people write, and what is made to be slow.
pub fn all(size: usize) -> [Text; 4] {
    let [lines, title, stars] = hostile(size);
    [book(size), lines, title, stars]
}

#[cfg(test)]
mod tests {
    use super::*;

    #[test]
    fn texts_have_their_size_and_headings() {
        for size in [4096, 65_536] {
            let texts = hostile(size);
            assert!(texts.iter().all(|text| text.bytes.len() == size));
            let counts = texts.map(|text| contest::streamed::<1>(&text.bytes).len());
            assert_eq!(counts, [size / 3, 1, 0]);
        }
        let [book, ..] = all(4096);
        assert_eq!(contest::streamed::<7>(&book.bytes).len(), 8);
    }

    #[test]
    fn pieces_make_no_difference() {
        for text in all(65_536) {
            let whole = contest::streamed::<TEXT_LIMIT>(&text.bytes);
            assert_eq!(contest::streamed::<1>(&text.bytes), whole);
            assert_eq!(contest::streamed::<1460>(&text.bytes), whole);
        }
    }
}
