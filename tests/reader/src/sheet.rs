//! Document 02, order 5: "Write a sheet, too."

use crate::line::{is_blank_byte, same_letters};
use crate::lookup::is_bad_key;
use crate::order::{Order, Pair};
use crate::LONGEST_TEXT;

/// The answer's number and the count it returns.
type Answer = (u32, usize);

/// Writes the sheet of the order in `buffer` into `output`.
///
/// "Refusals: 12 [..]; 13 [..]; 14 [..]; 15 [..]; 1 [..]; 16 [..]. In that order, each over the whole
/// buffer before the next; on a refusal the lent output, else what is past the sheet, stays as it
/// was."
pub fn write_sheet(buffer: &[u8], output: &mut [u8]) -> Answer {
    let sheet = match order_for_a_sheet(buffer) {
        Ok(order) => sheet_of(&order),
        Err(number) => return refusal(number),
    };
    if sheet.len() > LONGEST_TEXT {
        return refusal(1);
    }
    let Some(place) = output.get_mut(..sheet.len()) else {
        return (16, sheet.len());
    };
    place.copy_from_slice(&sheet);
    (0, sheet.len())
}

/// The order in `buffer`, or the number of its refusal "up to 15".
pub fn order_for_a_sheet(buffer: &[u8]) -> Result<Order<'_>, u32> {
    let order = Order::of(buffer).ok_or(12u32)?;
    if is_bad_text(order.title) || order.values().any(is_bad_text) {
        return Err(13);
    }
    if order.keys().any(is_no_key_of_a_sheet) {
        return Err(14);
    }
    if has_key_repeated(&order) {
        return Err(15);
    }
    Ok(order)
}

/// "The count returned is the sheet's length, for 16 the bytes needed, else 0."
fn refusal(number: u32) -> Answer {
    (number, 0)
}

/// "13 title or value with byte 10 or 13, or a blank byte at either end".
fn is_bad_text(text: &[u8]) -> bool {
    let ends = [text.first(), text.last()];
    let has_blank_end = ends.into_iter().flatten().any(|byte| is_blank_byte(*byte));
    text.contains(&10) || text.contains(&13) || has_blank_end
}

/// "14 bad key, or `END`", in any case.
fn is_no_key_of_a_sheet(key: &[u8]) -> bool {
    is_bad_key(key) || same_letters(key, b"END")
}

/// "15 key repeated, case ignored".
fn has_key_repeated(order: &Order) -> bool {
    let keys: Vec<&[u8]> = order.keys().collect();
    let is_repeated = |place: usize| {
        let mut before = keys[..place].iter();
        before.any(|earlier| same_letters(earlier, keys[place]))
    };
    (0..keys.len()).any(is_repeated)
}

/// "Write one star, a space and the title; `:PROPERTIES:`; for each pair [..]; `:END:`; every line
/// with byte 10 and no indentation."
pub fn sheet_of(order: &Order) -> Vec<u8> {
    let mut sheet = [b"* ", order.title, b"\n:PROPERTIES:\n"].concat();
    for pair in &order.pairs {
        sheet.extend(property_line(pair));
    }
    sheet.extend(b":END:\n");
    sheet
}

/// "For each pair in turn `:`, the key, `:` and, unless the value is empty, a space and the value".
fn property_line(pair: &Pair) -> Vec<u8> {
    let space: &[u8] = if pair.value.is_empty() { b"" } else { b" " };
    [b":", pair.key, b":", space, pair.value, b"\n"].concat()
}
