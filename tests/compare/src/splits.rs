//! Seeded books that come in pieces: what they hold, and where they are split (document 02, order 9).

use crate::check::star_places;
use crate::random::Random;
use crate::words::HEADING_PIECES;

/// Books up to this length may come byte by byte.
const FEW_BYTES: usize = 150;

/// Books up to this length may come line by line.
const FEW_LINES: usize = 1_500;

/// How far from the front of a line with a star a cut near headings may be.
const NEAR: usize = 9;

/// How a book is split.
#[derive(Clone, Copy, Debug, PartialEq, Eq)]
pub enum Split {
    Whole,
    /// Byte by byte.
    Bytes,
    /// After each byte 10, or before it.
    Lines,
    /// At places in and around the front of lines with stars, their titles and their ends.
    NearHeadings,
    Anywhere,
}

/// The text, or one with little but heading lines and what comes near them.
pub fn book(text: &[u8], random: &mut Random) -> Vec<u8> {
    if random.chance(50) {
        return text.to_vec();
    }
    let mut book = Vec::new();
    for _ in 0..random.below(24) {
        book.extend(random.pick(HEADING_PIECES));
        if random.chance(5) {
            book.push(random.below(256) as u8);
        }
    }
    book
}

/// How the book is split, and its pieces; some of them are empty.
pub fn pieces<'b>(book: &'b [u8], random: &mut Random) -> (Split, Vec<&'b [u8]>) {
    let (split, mut cuts) = cuts(book, random);
    for _ in 0..random.below(4) {
        cuts.push(random.below(book.len() + 1));
    }
    let again: Vec<usize> = cuts.iter().copied().filter(|_| random.chance(15)).collect();
    if split != Split::Whole {
        cuts.extend(again);
    } else {
        cuts.clear();
    }
    cuts.sort_unstable();
    let starts = [0].into_iter().chain(cuts.iter().copied());
    let ends = cuts.iter().copied().chain([book.len()]);
    let pieces = starts.zip(ends).map(|(start, end)| &book[start..end]);
    (split, pieces.collect())
}

fn cuts(book: &[u8], random: &mut Random) -> (Split, Vec<usize>) {
    let after_newlines = (1..=book.len()).filter(|at| book[at - 1] == 10);
    match random.below(10) {
        0 => (Split::Whole, Vec::new()),
        1 | 2 if book.len() <= FEW_BYTES => (Split::Bytes, (1..book.len()).collect()),
        3 if book.len() <= FEW_LINES => (Split::Lines, after_newlines.collect()),
        4 if book.len() <= FEW_LINES => (Split::Lines, after_newlines.map(|at| at - 1).collect()),
        5..8 => (Split::NearHeadings, near_headings(book, random)),
        _ => (Split::Anywhere, Vec::new()),
    }
}

/// Places near the front of a few lines with a star, and around the ends of these lines.
fn near_headings(book: &[u8], random: &mut Random) -> Vec<usize> {
    let places: Vec<usize> = star_places(book).collect();
    let mut cuts = Vec::new();
    for _ in 0..places.len().min(4) {
        let start = places[random.below(places.len())];
        let line = &book[start..];
        let end = line.iter().position(|byte| *byte == 10);
        let end = start + end.unwrap_or(line.len());
        let near_end = end.saturating_sub(3).max(start)..=book.len().min(end + 1);
        let near_start = start..=end.min(start + NEAR);
        cuts.extend(near_start.chain(near_end).filter(|_| random.chance(35)));
    }
    cuts
}

#[cfg(test)]
mod tests {
    use super::*;

    #[test]
    fn the_pieces_make_the_book() {
        let text = b"x\n** a \t\r\n***\n* \n* b c\n *\n* d  ";
        for seed in 0..2_000 {
            let mut random = Random::new(seed);
            let book = book(text, &mut random);
            let (split, pieces) = pieces(&book, &mut random);
            assert_eq!(pieces.concat(), book, "seed {seed}");
            assert!(split != Split::Whole || pieces.len() == 1, "seed {seed}");
            let is_short = |piece: &&[u8]| piece.len() <= 1;
            assert!(split != Split::Bytes || pieces.iter().all(is_short));
        }
    }
}
