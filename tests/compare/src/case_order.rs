//! The order of a case: its title and pairs, its buffer, or both.

use crate::order::Order;
use crate::quoted::{fields, fields_of};

/// What the lines of a case say of its order.
#[derive(Default)]
pub struct CaseOrder {
    pub title_and_pairs: Option<Order>,
    written_buffer: Option<Vec<u8>>,
}

impl CaseOrder {
    /// Adds what a line says; false when it is not about an order.
    pub fn add(&mut self, word: &str, rest: &str) -> Result<bool, String> {
        match word {
            "title" => self.add_title(rest)?,
            "pair" => self.add_pair(rest)?,
            "buffer" => {
                let bytes = fields(rest)?.concat();
                let buffer = self.written_buffer.get_or_insert_with(Vec::new);
                buffer.extend(bytes);
            }
            _ => return Ok(false),
        }
        Ok(true)
    }

    fn add_title(&mut self, rest: &str) -> Result<(), String> {
        let [title] = fields_of(rest)?;
        let pairs = Vec::new();
        match self.title_and_pairs.replace(Order { title, pairs }) {
            Some(_) => Err("title twice".to_string()),
            None => Ok(()),
        }
    }

    fn add_pair(&mut self, rest: &str) -> Result<(), String> {
        let [key, value] = fields_of(rest)?;
        let order = self
            .title_and_pairs
            .as_mut()
            .ok_or("a pair before the title")?;
        order.pairs.push((key, value));
        Ok(())
    }

    pub fn is_empty(&self) -> bool {
        self.title_and_pairs.is_none() && self.written_buffer.is_none()
    }

    /// The buffer. One that is written beside a title and pairs must be theirs.
    pub fn buffer(&self) -> Result<Vec<u8>, &'static str> {
        let written = self.written_buffer.clone();
        let Some(order) = &self.title_and_pairs else {
            return written.ok_or("no order");
        };
        let made = order.buffer().ok_or("an order too long for a buffer")?;
        match written {
            Some(written) if written != made => Err("the buffer is not that of title and pairs"),
            _ => Ok(made),
        }
    }
}

#[cfg(test)]
mod tests {
    use super::*;

    fn buffer(lines: &[&str]) -> Result<Vec<u8>, String> {
        let mut order = CaseOrder::default();
        for line in lines {
            let (word, rest) = line.split_once(' ').unwrap();
            assert!(order.add(word, rest)?, "{line}");
        }
        order.buffer().map_err(str::to_string)
    }

    #[test]
    fn a_title_and_pairs_make_a_buffer() {
        let lines = [r#"title "ab""#, r#"pair "K" "x"*258"#, r#"pair "" """#];
        let made = [
            b"\x02\x00ab\x02\x01K\x02\x01",
            [b'x'; 258].as_slice(),
            b"\x00\x00\x00",
        ];
        assert_eq!(buffer(&lines), Ok(made.concat()));
    }

    #[test]
    fn a_written_buffer_stays() {
        let lines = [r#"buffer "\x01\x00" "T""#, r#"buffer "\x00""#];
        assert_eq!(buffer(&lines), Ok(b"\x01\x00T\x00".to_vec()));
        let both = [lines[0], r#"title "T""#, lines[1]];
        assert_eq!(buffer(&both), Ok(b"\x01\x00T\x00".to_vec()));
    }

    #[test]
    fn lines_that_make_no_order_are_refused() {
        for lines in [
            &[r#"title "T""#, r#"title "T""#][..],
            &[r#"pair "K" "v""#, r#"title "T""#],
            &[r#"title "T""#, r#"buffer "\x01\x00T""#],
            &[r#"title "a"*65536"#],
            &[r#"title "T""#, r#"pair "k"*256 """#],
            &[r#"title "T" "U""#],
        ] {
            assert!(buffer(lines).is_err(), "{lines:?}");
        }
    }
}
