//! Books that an order is to be taken into, whose request none of them has.

use comaltzex::Order;

use crate::texts::{self, filled, Text};

/// The request that is searched for. It is as long as those of the books.
pub const REQUEST: &[u8] = b"R-000000";

/// Books all of which is searched: the order book that people write, and texts made to be slow, of
/// headings as short as can be and of headings with a drawer that nothing closes.
pub fn books(size: usize) -> [Text; 3] {
    [
        ("orders searched", texts::book(size)),
        ("short headings", filled("", "* \n", size)),
        ("unclosed drawer", filled("", "* \n:PROPERTIES:\n", size)),
    ]
    .map(|(name, bytes)| Text::new(name, bytes))
}

/// The books made to be slow.
pub fn hostile(size: usize) -> impl Iterator<Item = Text> {
    books(size).into_iter().skip(1)
}

/// The order with that request.
pub fn order() -> Order {
    let mut order = Order::new(b"").expect("the title is good");
    for (key, value) in [(b"REQUEST".as_slice(), REQUEST), (b"VIN", b"7")] {
        order.add(key, value).expect("the pair is good");
    }
    order
}

#[cfg(test)]
mod tests {
    use comaltzex::{property, Book, IntakeRefusal, Kind, LookupRefusal, Table};

    use super::*;

    #[test]
    fn books_have_their_size_and_not_the_request() {
        for size in [4096, 65_536] {
            for text in books(size) {
                assert!(text.bytes.len() <= size && text.bytes.len() > size - 1500);
                let mut book = Book::from_text(text.bytes.clone());
                let answer = book.intake(&order());
                let refused = size == 65_536 && text.bytes.len() > size - order().sheet().len();
                assert_eq!(answer.err(), refused.then_some(IntakeRefusal::TooLong));
            }
        }
    }

    #[test]
    fn most_requests_are_as_long_as_the_one_searched_for() {
        let [book, ..] = books(4096).map(|text| text.bytes);
        let table = Table::read(&book).unwrap();
        let headings = table.records().filter(|r| r.kind == Kind::Heading);
        let requests = headings.filter_map(|r| property(&book, r.span.start, b"REQUEST").ok());
        let lengths: Vec<usize> = requests.map(<[u8]>::len).collect();
        assert!(lengths.len() > 3 && lengths.iter().all(|&length| length == REQUEST.len()));
    }

    #[test]
    fn hostile_books_are_headings_only() {
        let [_, short, open] = books(4098).map(|text| text.bytes);
        let headings = |book: &[u8]| {
            let table = Table::read(book).unwrap();
            table.records().filter(|r| r.kind == Kind::Heading).count()
        };
        assert_eq!([headings(&short), headings(&open)], [1366, 257]);
        assert_eq!(
            property(&open, 0, b"REQUEST"),
            Err(LookupRefusal::NotClosed)
        );
    }
}
