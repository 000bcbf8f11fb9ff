//! What a log of orders may meet (document 02, order 6).

use crate::calls::Book;
use crate::logs::{Damage, SeededLog};
use crate::subject::IntakeAnswer;

/// Has a log met something?
type Meets = fn(&LogCall) -> bool;

/// What a log may meet; one log may meet several.
pub const SITUATIONS: [(&str, Meets); 23] = [
    ("whole", |call| call.played()),
    ("empty", |call| call.played() && call.log.bytes.is_empty()),
    ("two orders added", |call| call.played() && call.added() > 1),
    ("nothing added", |call| call.played() && call.added() == 0),
    ("double click inside", |call| call.adds_then(19)),
    ("refused and then added", |call| {
        call.played() && call.adds_after(|number| number != 0)
    }),
    ("12 passed over", |call| call.passes_over(12)),
    ("13 passed over", |call| call.passes_over(13)),
    ("14 passed over", |call| call.passes_over(14)),
    ("15 passed over", |call| call.passes_over(15)),
    ("17 passed over", |call| call.passes_over(17)),
    ("19 passed over", |call| call.passes_over(19)),
    ("16 passed over", |call| call.passes_over(16)),
    ("more in use than lent", |call| {
        call.played() && call.is_over()
    }),
    ("one byte of a length", |call| {
        call.is_cut(Damage::InLength(1))
    }),
    ("two bytes of a length", |call| {
        call.is_cut(Damage::InLength(2))
    }),
    ("three bytes of a length", |call| {
        call.is_cut(Damage::InLength(3))
    }),
    ("a length alone", |call| call.is_cut(Damage::AfterLength)),
    ("cut in an order", |call| call.is_cut(Damage::InOrder)),
    ("a length far too big", |call| call.is_cut(Damage::Far)),
    ("a length off by one", |call| call.is_cut(Damage::OffByOne)),
    ("27 after a good order", |call| {
        call.gave(27) && call.numbers_before_damage().contains(&0)
    }),
    ("27 with more in use than lent", |call| {
        call.gave(27) && call.is_over()
    }),
];

/// How many logs met each of `SITUATIONS`.
pub type Met = [usize; SITUATIONS.len()];

/// A log on a book, and the plain reader's answer.
pub struct LogCall<'r> {
    /// As it was before.
    pub book: &'r Book,
    pub log: &'r SeededLog,
    /// What the single calls gave for the orders, damage aside.
    pub numbers: &'r [u32],
    pub answer: IntakeAnswer,
}

impl LogCall<'_> {
    /// Counts what the log met.
    pub fn count(&self, met: &mut Met) {
        for (count, (_, meets)) in met.iter_mut().zip(SITUATIONS) {
            *count += usize::from(meets(self));
        }
    }

    fn gave(&self, number: u32) -> bool {
        self.answer.0 == number
    }

    /// The log has no damage.
    fn played(&self) -> bool {
        self.gave(0) && self.log.damage.is_none()
    }

    fn is_cut(&self, damage: Damage) -> bool {
        self.gave(27) && self.log.damage == Some(damage)
    }

    fn is_over(&self) -> bool {
        self.book.used > self.book.room
    }

    fn added(&self) -> usize {
        self.numbers.iter().filter(|number| **number == 0).count()
    }

    fn numbers_before_damage(&self) -> &[u32] {
        &self.numbers[..self.log.whole]
    }

    /// An order is refused with that number, and a later one added.
    fn passes_over(&self, number: u32) -> bool {
        self.played() && self.adds_after(|earlier| earlier == number)
    }

    /// An order is added, and a later one refused with that number.
    fn adds_then(&self, number: u32) -> bool {
        let mut after = self.numbers.iter().skip_while(|number| **number != 0);
        self.played() && after.any(|later| *later == number)
    }

    /// An order is added after one of such a number.
    fn adds_after(&self, is_such: impl Fn(u32) -> bool) -> bool {
        let mut from = self.numbers.iter().skip_while(|number| !is_such(**number));
        from.any(|number| *number == 0)
    }
}
