//! What order 5 of document 02 promises of a sheet: "Each key looked up gives its pair's bytes back,
//! and the sheet reads as one heading with one property drawer."

use plain_reader::{Pair, NUMBERS_OF_A_RECORD};

use crate::check::NODE_PROPERTY;
use crate::escape::escape;
use crate::subject::{fresh_table, Subject};

/// The kinds of the document, the heading, its section and its property drawer.
const KINDS: [u32; 4] = [1, 2, 3, 5];

/// The number of stars, the seventh of the heading's numbers.
const STARS: usize = NUMBERS_OF_A_RECORD + 6;

/// Holds the subject's lookups and its reading of the sheet to the promise.
pub fn check_promise<'p>(
    sheet: &[u8],
    pairs: impl Iterator<Item = Pair<'p>>,
    subject: &Subject,
) -> Result<(), String> {
    let mut kinds = KINDS.to_vec();
    for pair in pairs {
        check_pair(sheet, pair, subject)?;
        kinds.push(NODE_PROPERTY);
    }
    check_kinds(sheet, &kinds, subject)
}

/// The key gives the value back, in its own letters, in small and in capital ones.
fn check_pair(sheet: &[u8], pair: Pair, subject: &Subject) -> Result<(), String> {
    let own = pair.key.to_vec();
    let small = pair.key.to_ascii_lowercase();
    let capital = pair.key.to_ascii_uppercase();
    for key in [own, small, capital] {
        let (number, start, end, further) = (subject.lookup)(sheet, 0, &key);
        let part = sheet.get(start..end).unwrap_or_default();
        if (number, part, further) != (0, pair.value, 0) {
            return Err(format!(
                "lookup of \"{}\" in the sheet: {number} \"{}\" further {further}",
                escape(&key),
                escape(part)
            ));
        }
    }
    Ok(())
}

/// The reading of the sheet has records of just those kinds, and the heading one star.
fn check_kinds(sheet: &[u8], kinds: &[u32], subject: &Subject) -> Result<(), String> {
    let mut table = fresh_table(kinds.len() * NUMBERS_OF_A_RECORD);
    let answer = (subject.read)(sheet, &mut table);
    let seen: Vec<u32> = table.iter().step_by(NUMBERS_OF_A_RECORD).copied().collect();
    if answer == (0, kinds.len()) && seen == kinds && table[STARS] == 1 {
        return Ok(());
    }
    Err(format!(
        "reading of the sheet: {answer:?}, kinds {seen:?}, {} stars",
        table[STARS]
    ))
}

#[cfg(test)]
mod tests {
    use super::*;
    use crate::subject::PLAIN_READER;

    /// Is the promise of the pairs `Vin`, `7` and `a`, nothing, kept?
    fn is_kept(sheet: &str) -> bool {
        let pairs = [("Vin", "7"), ("a", "")].map(|(key, value)| Pair {
            key: key.as_bytes(),
            value: value.as_bytes(),
        });
        check_promise(sheet.as_bytes(), pairs.into_iter(), &PLAIN_READER).is_ok()
    }

    #[test]
    fn one_heading_with_one_property_drawer() {
        assert!(is_kept("* T\n:PROPERTIES:\n:Vin: 7\n:a:\n:END:\n"));
        assert!(is_kept("* \n:PROPERTIES:\n:a:\n:VIN: 7\n:END:"));
    }

    #[test]
    fn other_sheets_break_it() {
        for sheet in [
            "",
            "* T\n:PROPERTIES:\n:Vin: 8\n:a:\n:END:\n",
            "* T\n:PROPERTIES:\n:Vin: 7\n:b:\n:END:\n",
            "* T\n:PROPERTIES:\n:Vin: 7\n:a: 1\n:END:\n",
            "* T\n:PROPERTIES:\n:Vin: 7\n:a:\n:b:\n:END:\n",
            "* T\n:PROPERTIES:\n:Vin: 7\n:a:\n:END:\nx\n",
            "* T\n:PROPERTIES:\n:Vin: 7\n:a:\n:END:\n* B\n",
            "** T\n:PROPERTIES:\n:Vin: 7\n:a:\n:END:\n",
            "* T\n\n:PROPERTIES:\n:Vin: 7\n:a:\n:END:\n",
        ] {
            assert!(!is_kept(sheet), "{sheet:?}");
        }
    }
}
