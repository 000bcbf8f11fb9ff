//! What is printed of a book, while it comes.

use comaltzex::{HeadingStream, StreamRefusal};

use super::shown::shown;

/// The most steps that a heading is indented.
const DEEPEST: usize = 20;

/// A book of which some pieces have come.
pub struct Listing<'n> {
    /// The book's name in what is printed.
    name: &'n [u8],
    stream: HeadingStream,
    /// The bytes of the unfinished line.
    unfinished: Vec<u8>,
    /// How many lines stand before it.
    line: usize,
}

impl Listing<'_> {
    pub fn new(name: &[u8]) -> Listing<'_> {
        Listing {
            name,
            stream: HeadingStream::new(),
            unfinished: Vec::new(),
            line: 0,
        }
    }

    /// How many bytes have come.
    pub fn length(&self) -> usize {
        self.stream.state().total as usize
    }

    /// Takes the next piece, and gives a line for each heading whose own line it finishes.
    pub fn push(&mut self, piece: &[u8]) -> Result<Vec<u8>, StreamRefusal> {
        let start = self.unfinished_start();
        let headings = self.stream.push(piece)?;
        self.unfinished.extend_from_slice(piece);
        let come = &self.unfinished;
        let mut printed = Vec::new();
        let mut passed = 0;
        for heading in headings {
            let place = heading.start - start;
            self.line += line_ends(&come[passed..place]);
            passed = place;
            let title = heading.title();
            let title = &come[title.start - start..title.end - start];
            printed.extend(row(self.name, self.line, heading.stars, title));
        }
        let finished = self.unfinished_start() - start;
        self.line += line_ends(&self.unfinished[passed..finished]);
        self.unfinished.drain(..finished);
        Ok(printed)
    }

    /// Ends the book, and gives the line of the heading that is its last line, if that has no line
    /// end.
    pub fn finish(self) -> Vec<u8> {
        let start = self.unfinished_start();
        let Some(heading) = self.stream.finish() else {
            return Vec::new();
        };
        let title = heading.title();
        let title = &self.unfinished[title.start - start..title.end - start];
        row(self.name, self.line, heading.stars, title)
    }

    /// Where the unfinished line starts in the book.
    fn unfinished_start(&self) -> usize {
        let state = self.stream.state();
        (state.total - state.line) as usize
    }
}

fn line_ends(bytes: &[u8]) -> usize {
    bytes.iter().filter(|&&byte| byte == b'\n').count()
}

/// The line of a heading on this line, which is counted from 0.
fn row(name: &[u8], line: usize, stars: usize, title: &[u8]) -> Vec<u8> {
    let line = line + 1; // an editor counts from 1
    let indentation = "  ".repeat((stars - 1).min(DEEPEST));
    let title = shown(title);
    let text = format!(":{line}: {indentation}{title}\n");
    [name, text.as_bytes()].concat()
}

#[cfg(test)]
mod tests {
    use comaltzex::TEXT_LIMIT;

    use super::*;

    const BOOK: &[u8] =
        b"#+TITLE: Orders\n\n* One \r\ntext\n** \n\n***  *Two*\ttag\xff\n*\n* Three\n*x";

    /// What is printed of a book in pieces of this length.
    fn printed(book: &[u8], length: usize) -> String {
        let mut listing = Listing::new(b"b.org");
        let mut lines = Vec::new();
        for piece in book.chunks(length) {
            lines.extend(listing.push(piece).unwrap());
        }
        assert_eq!(listing.length(), book.len());
        lines.extend(listing.finish());
        String::from_utf8(lines).unwrap()
    }

    #[test]
    fn each_heading_has_a_line() {
        let wanted = "\
            b.org:3: One\n\
            b.org:5:   (no title)\n\
            b.org:7:     *Two*\ttag\\xff\n\
            b.org:9: Three\n";
        for length in 1..=BOOK.len() {
            assert_eq!(printed(BOOK, length), wanted);
        }
    }

    #[test]
    fn a_last_line_without_line_end_is_finished_by_the_end() {
        assert_eq!(printed(b"x\n** A \t", 3), "b.org:2:   A\n");
        assert_eq!(printed(b"x\n* ", 4), "b.org:2: (no title)\n");
        assert_eq!(printed(b"x\n**", 4), "");
        assert_eq!(printed(b"", 1), "");
    }

    #[test]
    fn only_the_unfinished_line_is_kept() {
        let mut listing = Listing::new(b"b.org");
        listing.push(b"* One\ntext").unwrap();
        assert_eq!(listing.unfinished, b"text");
        listing.push(b" and\n* more").unwrap();
        assert_eq!(listing.unfinished, b"* more");
        listing.push(b"\n").unwrap();
        assert_eq!((listing.unfinished.len(), listing.line), (0, 3));
    }

    #[test]
    fn indentation_has_an_end() {
        let book = format!("{} A\n", "*".repeat(1000));
        let wanted = format!("b.org:1: {}A\n", " ".repeat(40));
        assert_eq!(printed(book.as_bytes(), 7), wanted);
    }

    #[test]
    fn what_does_not_fit_changes_nothing() {
        let mut listing = Listing::new(b"b.org");
        listing.push(b"\n* One").unwrap();
        let long = vec![b'\n'; TEXT_LIMIT];
        assert_eq!(listing.push(&long), Err(StreamRefusal::TooLong));
        assert_eq!(listing.push(b" more\n").unwrap(), b"b.org:2: One more\n");
    }
}
