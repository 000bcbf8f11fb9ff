//! Intake calls on one book in turn, and logs of orders (document 02, order 6).

use crate::run_promise::Added;
use crate::subject::{IntakeAnswer, Subject};

/// A book buffer and how many of its bytes are in use.
#[derive(Clone, Debug, PartialEq, Eq)]
pub struct Book {
    pub buffer: Vec<u8>,
    /// How many bytes of the buffer are lent; the rest is past them, and no call may touch it.
    pub room: usize,
    pub used: usize,
}

impl Book {
    /// The bytes in use; all that are lent when there are more in use than these.
    pub fn text(&self) -> &[u8] {
        &self.buffer[..self.used.min(self.room)]
    }

    /// The call for one order; gives its answer, by which the bytes in use go from now on.
    pub fn take(&mut self, buffer: &[u8], subject: &Subject) -> IntakeAnswer {
        let answer = (subject.intake)(&mut self.buffer[..self.room], self.used, buffer);
        self.used = answer.1;
        answer
    }

    /// The call for a log.
    pub fn play(&mut self, log: &[u8], subject: &Subject) -> IntakeAnswer {
        let answer = (subject.intake_log)(&mut self.buffer[..self.room], self.used, log);
        self.used = answer.1;
        answer
    }

    /// Single calls for those orders in turn; gives what they added.
    pub fn take_in_turn(&mut self, orders: &[&[u8]], subject: &Subject) -> Vec<Added> {
        let accepted = orders
            .iter()
            .filter(|order| self.take(order, subject).0 == 0);
        accepted.filter_map(|order| Added::of(order)).collect()
    }
}

/// An order as it stands in a log: "after its length in four bytes low first".
pub fn logged(buffer: &[u8]) -> Vec<u8> {
    let length = u32::try_from(buffer.len()).expect("an order of less than 4 GB");
    [&length.to_le_bytes(), buffer].concat()
}

#[cfg(test)]
mod tests {
    use super::*;

    #[test]
    fn an_order_in_a_log_comes_after_its_length() {
        assert_eq!(logged(b""), b"\x00\x00\x00\x00");
        assert_eq!(logged(b"ab"), b"\x02\x00\x00\x00ab");
        assert_eq!(logged(&[b'a'; 66_051])[..5], *b"\x03\x02\x01\x00a");
    }
}
