//! One text against both readers: lookups with house defaults (document 02, order 13).

use std::cell::OnceCell;

use plain_reader::{Reading, Record};

use crate::check::{other_case, property_name, star_places};
use crate::drawers::HEADING;
use crate::escape::{escape, shown};
use crate::house::defaults_text;
use crate::random::Random;
use crate::situations::{Call, Met};
use crate::subject::{DefaultedAnswer, LookupAnswer, LIBRARY, PLAIN_READER};
use crate::words::{BAD_KEYS, KEYS, RESERVED_KEYS};

/// The kind of a property drawer.
const PROPERTY_DRAWER: u32 = 5;

/// Calls at headings of the order, with a drawer and without, and at another place; all with one
/// defaults text.
pub fn check_defaults(
    order: &[u8],
    records: &[Record],
    random: &mut Random,
    met: &mut Met,
) -> Result<(), String> {
    let defaults = Defaults {
        text: defaults_text(order, random),
        first_heading: OnceCell::new(),
    };
    for at in places(order, records, random) {
        for key in keys(order, &defaults.text, random) {
            check_call(order, at, &defaults, &key, met)?;
        }
    }
    let at = random.below(order.len() + 2);
    check_call(order, at, &defaults, random.pick(KEYS), met)
}

/// A line that begins with a star, and where something starts that has a property drawer: a
/// heading, or the document.
fn places(order: &[u8], records: &[Record], random: &mut Random) -> Vec<usize> {
    let stars: Vec<usize> = star_places(order).collect();
    let drawers = records
        .iter()
        .filter(|record| record.kind == PROPERTY_DRAWER);
    let sections = drawers.map(|drawer| &records[drawer.parent as usize]);
    let owners = sections.map(|section| records[section.parent as usize].start as usize);
    let choices = [stars, owners.collect()].into_iter();
    let choices = choices.filter(|places| !places.is_empty());
    choices
        .map(|places| places[random.below(places.len())])
        .collect()
}

/// A key of the order, two of the defaults, one that is never taken from these, and any other.
fn keys(order: &[u8], defaults: &[u8], random: &mut Random) -> [Vec<u8>; 5] {
    let others = if random.chance(20) { BAD_KEYS } else { KEYS };
    [
        some_name(order, random),
        some_name(defaults, random),
        some_name(defaults, random),
        random.pick(RESERVED_KEYS).to_vec(),
        random.pick(others).to_vec(),
    ]
}

/// The name on some line of the text, in the other letter case; empty where the line has none.
fn some_name(text: &[u8], random: &mut Random) -> Vec<u8> {
    let from = random.below(text.len() + 1);
    let mut lines = text[from..].split(|byte| *byte == 10).skip(1);
    other_case(property_name(lines.next().unwrap_or_default()))
}

fn check_call(
    order: &[u8],
    at: usize,
    defaults: &Defaults,
    key: &[u8],
    met: &mut Met,
) -> Result<(), String> {
    let answer = (PLAIN_READER.lookup_with_defaults)(order, at, &defaults.text, key);
    let seen = (LIBRARY.lookup_with_defaults)(order, at, &defaults.text, key);
    let call = Call {
        defaults: &defaults.text,
        key,
        answer,
    };
    call.count(met);
    let promised = promised(order, at, defaults, key, seen);
    if seen == answer && seen == promised {
        return Ok(());
    }
    Err(format!(
        "lookup of \"{}\" at {at} with defaults {}: plain reader {answer:?}, library {seen:?}, \
         by its own lookups {promised:?}",
        escape(key),
        shown(&defaults.text)
    ))
}

/// What the library's answer has to be by its own lookups, in the order and at the first heading of
/// the defaults' table. Where these have no table, what it is after the order's 6 stays open.
fn promised(
    order: &[u8],
    at: usize,
    defaults: &Defaults,
    key: &[u8],
    seen: DefaultedAnswer,
) -> DefaultedAnswer {
    let of_the_order = (LIBRARY.lookup)(order, at, key);
    let (whose, (number, start, end, further)) = if of_the_order.0 != 6 || is_reserved(key) {
        (1, of_the_order)
    } else {
        let (number, _, start, end, further) = seen;
        let open = (number, start, end, further);
        (2, defaults.own_answer(key).unwrap_or(open))
    };
    (number, whose, start, end, further)
}

/// "`VIN` and `REQUEST`, in any case".
fn is_reserved(key: &[u8]) -> bool {
    let capitals = key.to_ascii_uppercase();
    capitals == b"VIN" || capitals == b"REQUEST"
}

struct Defaults {
    text: Vec<u8>,
    /// By the plain reader's table, once that was asked for.
    first_heading: OnceCell<FirstHeading>,
}

/// Where the first heading of a table starts.
enum FirstHeading {
    At(usize),
    Nowhere,
    /// The reading is refused: there is no table.
    Unknown,
}

impl Defaults {
    /// The library's lookup at the first heading; 4 without one.
    fn own_answer(&self, key: &[u8]) -> Option<LookupAnswer> {
        match self.first_heading.get_or_init(|| first_heading(&self.text)) {
            FirstHeading::At(start) => Some((LIBRARY.lookup)(&self.text, *start, key)),
            FirstHeading::Nowhere => Some((4, 0, 0, 0)),
            FirstHeading::Unknown => None,
        }
    }
}

fn first_heading(text: &[u8]) -> FirstHeading {
    let Reading::Table(records) = plain_reader::read(text) else {
        return FirstHeading::Unknown;
    };
    let heading = records.iter().find(|record| record.kind == HEADING);
    heading.map_or(FirstHeading::Nowhere, |heading| {
        FirstHeading::At(heading.start as usize)
    })
}
