//! What order 6 of document 02 promises of a run of calls on one book: "`REQUEST` looks up each value
//! added by intake at one heading only, whose `VIN` is the accepted call's, and every earlier heading
//! looks up as before."

use plain_reader::{lookup_at_each_heading, Order};

use crate::check::property_name;
use crate::escape::escape;
use crate::subject::LookupAnswer;

/// The most names of a book that it is looked up by.
const MOST_NAMES: usize = 6;

/// Keys that every book is looked up by: a book may lack the third, and the fourth is a bad one.
const ALWAYS: [&[u8]; 4] = [b"VIN", b"REQUEST", b"nowhere", b"a+"];

/// The request and the VIN of an order that a call accepted.
pub struct Added {
    pub request: Vec<u8>,
    pub vin: Vec<u8>,
}

impl Added {
    /// None of an order that no call may accept.
    pub fn of(buffer: &[u8]) -> Option<Self> {
        let order = Order::of(buffer)?;
        Some(Added {
            request: order.value(b"REQUEST")?.to_vec(),
            vin: order.value(b"VIN")?.to_vec(),
        })
    }
}

/// Holds the book after a run to the promise, by the plain reader's lookups.
pub fn check_run(before: &[u8], after: &[u8], added: &[Added]) -> Result<(), String> {
    if before == after && added.is_empty() {
        return Ok(());
    }
    for key in keys(before) {
        check_earlier(before, after, &key)?;
    }
    let requests = parts(after, &lookup_at_each_heading(after, b"REQUEST"));
    let vins = parts(after, &lookup_at_each_heading(after, b"VIN"));
    let mut added = added.iter();
    added.try_for_each(|added| check_added(added, &requests, &vins))
}

/// Names that stand in the book, and those that are always asked.
fn keys(book: &[u8]) -> Vec<Vec<u8>> {
    let lines = book.split(|byte| *byte == 10);
    let mut keys: Vec<Vec<u8>> = ALWAYS.map(<[u8]>::to_vec).to_vec();
    for name in lines.map(property_name).filter(|name| !name.is_empty()) {
        let is_known = keys.iter().any(|key| key.eq_ignore_ascii_case(name));
        if !is_known && keys.len() < ALWAYS.len() + MOST_NAMES {
            keys.push(name.to_vec());
        }
    }
    keys
}

/// "Every earlier heading looks up as before": number, part and further number.
fn check_earlier(before: &[u8], after: &[u8], key: &[u8]) -> Result<(), String> {
    let earlier = lookup_at_each_heading(before, key);
    let later = lookup_at_each_heading(after, key);
    let later = &later[..later.len().min(earlier.len())];
    if earlier == later && parts(before, &earlier) == parts(after, later) {
        return Ok(());
    }
    Err(format!(
        "\"{}\" at the earlier headings: {earlier:?} before the run, {later:?} after it",
        escape(key)
    ))
}

/// The value of each answer; none of a refusal.
fn parts<'t>(text: &'t [u8], answers: &[LookupAnswer]) -> Vec<Option<&'t [u8]>> {
    let part = |answer: &LookupAnswer| match *answer {
        (0, start, end, _) => text.get(start..end),
        _ => None,
    };
    answers.iter().map(part).collect()
}

/// The request is that of one heading, whose VIN is the call's.
fn check_added(
    added: &Added,
    requests: &[Option<&[u8]>],
    vins: &[Option<&[u8]>],
) -> Result<(), String> {
    let has_request = |heading: &usize| requests[*heading] == Some(&added.request[..]);
    let with_request: Vec<usize> = (0..requests.len()).filter(has_request).collect();
    match with_request[..] {
        [heading] if vins[heading] == Some(&added.vin[..]) => Ok(()),
        [heading] => Err(format!(
            "the VIN of request \"{}\" at heading {heading} is not \"{}\"",
            escape(&added.request),
            escape(&added.vin)
        )),
        _ => Err(format!(
            "request \"{}\" is looked up at the headings {with_request:?}",
            escape(&added.request)
        )),
    }
}

#[cfg(test)]
mod tests {
    use super::*;

    const BEFORE: &str = "* Z\n:PROPERTIES:\n:VIN: 1\n:END:\n* Y\n:PROPERTIES:\n";

    /// Is the promise of a run that added request `r`, VIN `7`, kept in the book with that end?
    fn is_kept(before: &str, added: &str) -> bool {
        let after = format!("{before}{added}");
        let of_the_call = Added {
            request: b"r".to_vec(),
            vin: b"7".to_vec(),
        };
        let (before, after) = (BEFORE.as_bytes(), after.as_bytes());
        check_run(before, after, &[of_the_call]).is_ok()
    }

    #[test]
    fn a_request_at_one_heading_with_its_vin() {
        assert!(is_kept(
            BEFORE,
            "* T\n:PROPERTIES:\n:REQUEST: r\n:VIN: 7\n:END:\n"
        ));
    }

    #[test]
    fn what_breaks_the_promise() {
        let sheet = "* T\n:PROPERTIES:\n:REQUEST: r\n:VIN: 7\n:END:\n";
        for added in [
            "",
            "* T\n:PROPERTIES:\n:REQUEST: r\n:VIN: 8\n:END:\n",
            "* T\n:PROPERTIES:\n:REQUEST: R\n:VIN: 7\n:END:\n",
            "* T\n\n:PROPERTIES:\n:REQUEST: r\n:VIN: 7\n:END:\n",
            &format!("{sheet}{sheet}"),
            &format!(":END:\n{sheet}"),
        ] {
            assert!(!is_kept(BEFORE, added), "{added:?}");
        }
        assert!(!is_kept(&BEFORE.replace('1', "2 3"), sheet));
        assert!(!is_kept(
            "* Z\n:PROPERTIES:\n:VIN: 2\n:END:\n* Y\n:PROPERTIES:\n",
            sheet
        ));
    }
}
