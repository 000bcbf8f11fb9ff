//! Document 02, order 6: "Intake that knows a double click."

use crate::lookup::lookup_at_each_heading;
use crate::order::Order;
use crate::sheet::{order_for_a_sheet, sheet_of};
use crate::LONGEST_TEXT;

/// The answer's number and "the bytes in use after it".
type Answer = (u32, usize);

/// Takes the order in `buffer` into the book, whose first `used` bytes are in use.
///
/// "The new sheet is written into the part of the book after the bytes in use". "Refusals: [..] book
/// and bytes in use as before".
pub fn intake(book: &mut [u8], used: usize, buffer: &[u8]) -> Answer {
    match addition(book, used, buffer) {
        Err(number) => (number, used),
        Ok(added) => {
            let end = used + added.len();
            book[used..end].copy_from_slice(&added);
            (0, end)
        }
    }
}

/// What comes after the bytes in use, or the number of the refusal.
///
/// "In turn, order 5's up to 15; 17 [..]; 18 [..]; 19 request seen; 1 new book over 65,536; 16."
fn addition(book: &[u8], used: usize, buffer: &[u8]) -> Result<Vec<u8>, u32> {
    let order = order_for_a_sheet(buffer)?;
    let request = filled(&order, b"REQUEST").ok_or(17u32)?;
    filled(&order, b"VIN").ok_or(17u32)?;
    let text = bytes_in_use(book, used).ok_or(18u32)?;
    if is_seen(text, request) {
        return Err(19);
    }
    let added = [missing_newline(text), &sheet_of(&order)].concat();
    let new_length = used + added.len();
    if new_length > LONGEST_TEXT {
        return Err(1);
    }
    if new_length > book.len() {
        return Err(16);
    }
    Ok(added)
}

/// The key's value; none when it is "missing or empty".
fn filled<'b>(order: &Order<'b>, key: &[u8]) -> Option<&'b [u8]> {
    order.value(key).filter(|value| !value.is_empty())
}

/// None when the "bytes in use" are "over the buffer or over 65,536".
fn bytes_in_use(book: &[u8], used: usize) -> Option<&[u8]> {
    book.get(..used).filter(|text| text.len() <= LONGEST_TEXT)
}

/// "A request value that `REQUEST` already looks up, byte for byte, at some heading".
fn is_seen(text: &[u8], request: &[u8]) -> bool {
    let answers = lookup_at_each_heading(text, b"REQUEST");
    let mut found = answers.iter().filter(|(number, ..)| *number == 0);
    found.any(|(_, start, end, _)| text[*start..*end] == *request)
}

/// "One byte 10 first if the book's last line lacks it". An empty book has no last line.
fn missing_newline(text: &[u8]) -> &'static [u8] {
    match text.last() {
        None | Some(10) => b"",
        Some(_) => b"\n",
    }
}
