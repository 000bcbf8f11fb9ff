//! An order on its way into a book, so that no crash loses it or takes it in twice.

use comaltzex::{log_entry, Book, IntakeRefusal, TEXT_LIMIT};

use super::files::{Fault, Files};

/// What became of an order and its book.
pub struct Taking {
    /// The book's text after it.
    pub text: Vec<u8>,
    /// The book has a file now, and had none before.
    pub is_new: bool,
    /// Orders that an interrupted run had left in the log were taken in first.
    pub is_mended: bool,
    /// Why the order was not taken in, if it was not.
    pub refusal: Option<IntakeRefusal>,
}

/// Takes an order in, after those of the log. It stands in the log before it stands in the book,
/// and in the book on the disk before it is gone from the log.
pub fn take_in(files: &Files, order: &[u8]) -> Result<Taking, Fault> {
    let _held_to_the_end = files.lock()?;
    let (before, like) = files.read_book(TEXT_LIMIT)?.unzip();
    let before = before.unwrap_or_default();
    let log = files.read_log()?;
    let mut book = Book::from_text(before.clone());
    let mended = book.replay(&log).map_err(|cut| files.of_cut_log(cut))?;
    let refusal = book.intake_bytes(order).err();

    let is_taken = refusal.is_none();
    let is_grown = book.text() != before;
    if is_taken {
        let entry = log_entry(order).expect("an order that was taken in is short");
        files.write_log(&[log.as_slice(), &entry].concat(), like.as_ref())?;
    }
    if is_grown {
        let written = files.write_book(book.text(), like.as_ref());
        written.map_err(|fault| [&fault[..], b"; send the order again"].concat())?;
    }
    if is_taken || !log.is_empty() {
        let emptied = files.write_log(b"", like.as_ref());
        emptied.map_err(|fault| [&fault[..], b"; but the book is written"].concat())?;
    }
    Ok(Taking {
        text: book.text().to_vec(),
        is_new: is_grown && like.is_none(),
        is_mended: mended > before.len(),
        refusal,
    })
}
