//! Document 02, order 6: a log, "each order after its length in four bytes low first".

use crate::intake::intake;

/// The answer's number and the bytes in use at the log's end.
type Answer = (u32, usize);

/// "A log [..] ends as the single calls in turn would". "For a log, 27 cut short, before any call, book
/// as before".
pub fn intake_log(book: &mut [u8], used: usize, log: &[u8]) -> Answer {
    let Some(orders) = orders_of(log) else {
        return (27, used);
    };
    let mut used = used;
    for order in orders {
        (_, used) = intake(book, used, order);
    }
    (0, used)
}

/// The buffers of the orders in a log; none when it is "cut short".
pub fn orders_of(log: &[u8]) -> Option<Vec<&[u8]>> {
    let mut orders = Vec::new();
    let mut rest = log;
    while !rest.is_empty() {
        let (length, after) = rest.split_first_chunk::<4>()?;
        let length = u32::from_le_bytes(*length) as usize;
        let (order, after) = after.split_at_checked(length)?;
        orders.push(order);
        rest = after;
    }
    Some(orders)
}
