use crate::ffi::{self, number};
use crate::SheetRefusal;

/// Writes an order as its sheet, an Org text, into a lent output, and gives the sheet's
/// length. The sheet stands at the output's front; what is past it, and the whole output
/// on a refusal, stays as it was.
///
/// The order is a buffer as the site sends it: the title's length (two bytes, low byte
/// first) and the title; the number of pairs (one byte); and for each pair the key's
/// length (one byte) and the key, the value's length (as the title's) and the value.
/// [`Order`](crate::Order) makes such a buffer.
///
/// ```
/// use comaltzex::{property, write_sheet, SheetRefusal};
///
/// let order = b"\x01\x00A\x01\x03VIN\x01\x007";
/// let mut out = [0; 40];
/// let length = write_sheet(order, &mut out)?;
/// let sheet = &out[..length];
/// assert_eq!(sheet, b"* A\n:PROPERTIES:\n:VIN: 7\n:END:\n");
/// assert_eq!(property(sheet, 0, b"vin"), Ok(&b"7"[..]));
///
/// let refusal = write_sheet(order, &mut out[..30]);
/// assert_eq!(refusal, Err(SheetRefusal::ShortOutput { needed: 31 }));
/// # Ok::<(), SheetRefusal>(())
/// ```
///
/// # Errors
///
/// The first that holds of [`BadOrder`](SheetRefusal::BadOrder),
/// [`BadText`](SheetRefusal::BadText), [`BadName`](SheetRefusal::BadName),
/// [`RepeatedKey`](SheetRefusal::RepeatedKey), [`TooLong`](SheetRefusal::TooLong) and
/// [`ShortOutput`](SheetRefusal::ShortOutput), each asked of the whole order before the
/// next.
pub fn write_sheet(order: &[u8], out: &mut [u8]) -> Result<usize, SheetRefusal> {
    let written = ffi::write_sheet(order, out);
    match written.number {
        number::OK => Ok(written.count),
        number::BAD_ORDER => Err(SheetRefusal::BadOrder),
        number::BAD_TEXT => Err(SheetRefusal::BadText),
        number::BAD_NAME => Err(SheetRefusal::BadName),
        number::REPEATED_KEY => Err(SheetRefusal::RepeatedKey),
        number::TOO_LONG => Err(SheetRefusal::TooLong),
        number::SHORT_OUTPUT => Err(SheetRefusal::ShortOutput {
            needed: written.count,
        }),
        other => unreachable!("a sheet's answer is 0, 1 or 12 to 16, not {other}"),
    }
}

/// The sheet that [`write_sheet`] writes, in a vector of its own.
///
/// # Errors
///
/// As for [`write_sheet`], but never [`ShortOutput`](SheetRefusal::ShortOutput).
pub fn sheet(order: &[u8]) -> Result<Vec<u8>, SheetRefusal> {
    let mut out = vec![0; bytes_needed(order)?];
    write_sheet(order, &mut out)?;
    Ok(out)
}

/// How long an order's sheet is, asked with an output that has no room.
pub(crate) fn bytes_needed(order: &[u8]) -> Result<usize, SheetRefusal> {
    match write_sheet(order, &mut []) {
        Err(SheetRefusal::ShortOutput { needed }) => Ok(needed),
        answer => answer,
    }
}
