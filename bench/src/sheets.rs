//! Orders to be written as sheets.

use comaltzex::{Order, PAIR_LIMIT};

use crate::texts::Text;

/// Orders whose sheets have this size: of one long value, and of as many pairs as there may be.
pub fn orders(size: usize) -> [Text; 2] {
    [("one long value", 1), ("sixteen pairs", PAIR_LIMIT)]
        .map(|(name, pairs)| Text::new(name, Parts::new(pairs, size).checked_order()))
}

/// A title, and pairs of a key and a value.
struct Parts {
    title: String,
    pairs: Vec<(String, String)>,
}

impl Parts {
    /// So many pairs with values of one length, and a title that brings the sheet to this size.
    fn new(pairs: usize, size: usize) -> Parts {
        let value = "v".repeat(size / pairs - 64);
        let pair = |number| (format!("KEY{number:02}"), value.clone());
        let mut parts = Parts {
            title: String::new(),
            pairs: (0..pairs).map(pair).collect(),
        };
        parts.title = "t".repeat(size - parts.sheet().len());
        parts
    }

    /// The order's buffer. It must be written as these parts' sheet: a wrong one has no speed.
    fn checked_order(&self) -> Vec<u8> {
        let mut order = Order::new(self.title.as_bytes()).expect("the title is good");
        for (key, value) in &self.pairs {
            let added = order.add(key.as_bytes(), value.as_bytes());
            added.expect("the pair is good");
        }
        let agreed = order.sheet() == self.sheet().as_bytes();
        assert!(agreed, "the sheet is not that of its parts");
        order.to_bytes().to_vec()
    }

    /// The sheet as the papers say. No value is empty.
    fn sheet(&self) -> String {
        let line = |(key, value): &(String, String)| format!(":{key}: {value}\n");
        let lines: String = self.pairs.iter().map(line).collect();
        format!("* {}\n:PROPERTIES:\n{lines}:END:\n", self.title)
    }
}

#[cfg(test)]
mod tests {
    use super::*;

    #[test]
    fn sheets_have_their_size_and_pairs() {
        for size in [4096, 65_536] {
            for (order, pairs) in orders(size).into_iter().zip([1, 16]) {
                let sheet = comaltzex::sheet(&order.bytes).unwrap();
                assert_eq!(sheet.len(), size);
                let last = format!("KEY{:02}", pairs - 1);
                let value = comaltzex::property(&sheet, 0, last.as_bytes()).unwrap();
                assert_eq!(value.len(), size / pairs - 64);
                let table = comaltzex::Table::read(&sheet).unwrap();
                assert_eq!(table.len(), 4 + pairs);
            }
        }
    }
}
