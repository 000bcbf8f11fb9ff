//! House defaults (document 02, order 13), through the safe interface.

use std::ops::Range;

use comaltzex::{
    lookup, lookup_with_defaults, property_or_default, LookupRefusal, Sourced, Whose, TEXT_LIMIT,
};

/// The order's drawer, at byte 0, has a VIN and a FUEL.
const ORDER: &str = "* A\n:PROPERTIES:\n:VIN: 7\n:FUEL: E85\n:END:\n";

/// The first heading is at byte 2.
const DEFAULTS: &str = "x\n* D\n:PROPERTIES:\n:VIN: 1\n:BOOST: 2\n:FUEL: 98\n:Request: 3\n:END:\n\
    * E\n:PROPERTIES:\n:NOX: 4\n:END:\n";

const NO_KEY: LookupRefusal = LookupRefusal::NoKey;

/// Texts whose heading at byte 0 has no property drawer, and why.
const REFUSED: [(&str, LookupRefusal); 4] = [
    ("* A\n", LookupRefusal::NoDrawer),
    ("* A\n\n:PROPERTIES:\n:END:\n", LookupRefusal::BlankFirst),
    (
        "* A\n:PROPERTIES:\n:VIN: 7\n x\n:END:\n",
        LookupRefusal::NotProperty { start: 25, line: 3 },
    ),
    ("* A\n:PROPERTIES:\n", LookupRefusal::NotClosed),
];

type Found = Result<Range<usize>, LookupRefusal>;

/// Whose an answer is, and the answer by itself.
fn parted<T>(
    sourced: Result<Sourced<T>, Sourced<LookupRefusal>>,
) -> (Whose, Result<T, LookupRefusal>) {
    match sourced {
        Ok(found) => (found.whose, Ok(found.answer)),
        Err(refused) => (refused.whose, Err(refused.answer)),
    }
}

/// Checks both calls at byte `at` of an order text. Places are in the text whose it is.
#[track_caller]
fn check_at(order: &str, at: usize, defaults: &str, key: &str, whose: Whose, wanted: Found) {
    let front = |text: &str| text.chars().take(80).collect::<String>();
    let [of, with] = [order, defaults].map(front);
    let context = format!("{key:?} at {at} of {of:?} with {with:?}");
    let [order, defaults, key] = [order, defaults, key].map(str::as_bytes);
    let part = lookup_with_defaults(order, at, defaults, key);
    assert_eq!(parted(part), (whose, wanted.clone()), "{context}");
    let value = property_or_default(order, at, defaults, key);
    let wanted = wanted.map(|part| &whose.text(order, defaults)[part]);
    assert_eq!(parted(value), (whose, wanted), "{context}");
}

/// Checks that the answer is the order's, at its byte 0.
#[track_caller]
fn check_own(order: &str, defaults: &str, key: &str, wanted: Found) {
    check_at(order, 0, defaults, key, Whose::Order, wanted);
}

/// Checks that the answer of the order at byte 0 is the defaults'.
#[track_caller]
fn check_default(order: &str, defaults: &str, key: &str, wanted: Found) {
    check_at(order, 0, defaults, key, Whose::Defaults, wanted);
}

#[test]
fn samples_of_the_order() {
    check_own(ORDER, DEFAULTS, "fuel", Ok(32..35));
    check_own("* A\n:PROPERTIES:\n:END:\n", DEFAULTS, "vin", Err(NO_KEY));
    let blank_first = "* A\n\n:PROPERTIES:\n:END:\n";
    let wanted = Err(LookupRefusal::BlankFirst);
    check_own(blank_first, DEFAULTS, "boost", wanted);
    let wanted = Err(LookupRefusal::NotClosed);
    check_own("* A\n:PROPERTIES:\n", DEFAULTS, "boost", wanted);
    let wanted = Err(LookupRefusal::NoHeading);
    check_at(ORDER, 1, DEFAULTS, "boost", Whose::Order, wanted);
    let long = "a".repeat(TEXT_LIMIT + 1);
    check_own(&long, DEFAULTS, "boost", Err(LookupRefusal::TooLong));
    check_own(ORDER, &long, "fuel", Ok(32..35));
    let empty_value = "* A\n:PROPERTIES:\n:FUEL:\n:END:\n";
    check_own(empty_value, DEFAULTS, "fuel", Ok(23..23));
}

#[test]
fn samples_of_the_defaults() {
    check_default(ORDER, DEFAULTS, "boost", Ok(35..36));
    check_default(ORDER, DEFAULTS, "none", Err(NO_KEY));
    check_default(ORDER, DEFAULTS, "NOX", Err(NO_KEY));
    check_default(ORDER, "", "boost", Err(LookupRefusal::NoHeading));
    check_default(ORDER, "* D\n", "boost", Err(LookupRefusal::NoDrawer));
    let not_property = LookupRefusal::NotProperty { start: 18, line: 2 };
    let blank_inside = "** D\n:PROPERTIES:\n\n:END:\n";
    check_default(ORDER, blank_inside, "boost", Err(not_property));
    let long = format!("* {}", "a".repeat(TEXT_LIMIT - 1));
    check_default(ORDER, &long, "boost", Err(LookupRefusal::TooLong));
}

/// Whatever the order answers but 6 stands, even where the defaults have a value.
#[test]
fn refusals_of_the_order_stand() {
    for (order, refusal) in REFUSED {
        check_own(order, DEFAULTS, "BOOST", Err(refusal));
        check_own(order, "", "BOOST", Err(refusal));
    }
    for at in [1, ORDER.len(), usize::MAX] {
        let wanted = Err(LookupRefusal::NoHeading);
        check_at(ORDER, at, DEFAULTS, "BOOST", Whose::Order, wanted);
    }
    for key in ["", "BO OST", "BOOST+", &"B".repeat(65)] {
        check_own(ORDER, DEFAULTS, key, Err(LookupRefusal::BadKey));
        check_own(ORDER, "", key, Err(LookupRefusal::BadKey));
    }
}

#[test]
fn refusals_of_the_defaults() {
    let long = "\n".repeat(TEXT_LIMIT + 1);
    check_default(ORDER, &long, "BOOST", Err(LookupRefusal::TooLong));
    for defaults in ["", "\n", "x\n*\n *  D\n*D\n", "*", "#+begin_src\n"] {
        check_default(ORDER, defaults, "BOOST", Err(LookupRefusal::NoHeading));
    }
    for (defaults, refusal) in REFUSED {
        check_default(ORDER, defaults, "BOOST", Err(refusal));
    }
    let defaults = "* D\n:PROPERTIES:\n:END:\n";
    check_default(ORDER, defaults, "BOOST", Err(NO_KEY));
}

/// The line of a refusal is counted in the text whose it is.
#[test]
fn lines_that_are_no_properties() {
    let order = "\n\n* A\n:PROPERTIES:\n:FUEL: 98\ny\n:END:\n";
    let wanted = Err(LookupRefusal::NotProperty { start: 29, line: 5 });
    check_at(order, 2, "* D\nx\n", "BOOST", Whose::Order, wanted);
    let defaults = "# x\n\n\n\n\n\n\n*** D\n:PROPERTIES:\n:FUEL: 98\n\ty\n:END:\n";
    let wanted = Err(LookupRefusal::NotProperty {
        start: 39,
        line: 10,
    });
    check_default(ORDER, defaults, "BOOST", wanted);
}

#[test]
fn identities_are_never_defaults() {
    let order = "* A\n:PROPERTIES:\n:FUEL: E85\n:END:\n";
    let defaults = "* D\n:PROPERTIES:\n:VIN: 1\n:REQUEST: 2\n:END:\n";
    let long = "\n".repeat(TEXT_LIMIT + 1);
    let keys = ["VIN", "vin", "vIn", "REQUEST", "request", "Request"];
    for key in keys {
        for defaults in [defaults, "", "* D\n", &long] {
            check_own(order, defaults, key, Err(NO_KEY));
        }
        for (refused, refusal) in REFUSED {
            check_own(refused, defaults, key, Err(refusal));
        }
    }
    check_own(ORDER, defaults, "Vin", Ok(23..24));
    let asked = "* A\n:PROPERTIES:\n:Request: R-1\n:END:\n";
    check_own(asked, defaults, "REQUEST", Ok(27..30));
}

/// Keys that only look like the two.
#[test]
fn other_keys_are_defaults() {
    let order = "* A\n:PROPERTIES:\n:FUEL: E85\n:END:\n";
    let keys = [
        "VI", "VINS", "XVIN", "VAN", "VIN:", "REQUES", "REQUESTS", "REQUEST-", "V1N", "\u{16}IN",
    ];
    for key in keys {
        let defaults = format!("* D\n:PROPERTIES:\n:VIN: 1\n:REQUEST: 2\n:{key}: 3\n:END:\n");
        let start = defaults.find('3').unwrap();
        check_default(order, &defaults, key, Ok(start..start + 1));
    }
}

/// An order's empty value stands; so does one of the defaults.
#[test]
fn empty_values() {
    let order = "* A\n:PROPERTIES:\n:FUEL+: \n:FUEL: E85\n:END:\n";
    check_own(order, DEFAULTS, "FUEL", Ok(24..24));
    let defaults = "* D\n:PROPERTIES:\n:BOOST:\n:END:\n";
    check_default(ORDER, defaults, "BOOST", Ok(24..24));
}

/// A heading of however many stars, and wherever it stands.
#[test]
fn the_first_heading_of_the_defaults() {
    let drawer = |value| format!(":PROPERTIES:\n:BOOST: {value}\n:END:\n");
    let (own, later) = (drawer("1"), drawer("2"));
    let fronts = [
        "* D\n",
        "**** D\n",
        "* \n",
        "\n* D\n",
        "#+TITLE: x\n *  x\n*x\n*\n* D\nSCHEDULED: <2026-11-16>\n",
        "#+begin_src\n** D\n",
        ":PROPERTIES:\n:BOOST: 0\n:END:\n* D\n",
        "# x\n:PROPERTIES:\n:BOOST: 0\n:END:\n\n** D\n",
    ];
    for front in fronts {
        let defaults = format!("{front}{own}* E\n{later}");
        let start = front.len() + 21;
        check_default(ORDER, &defaults, "boost", Ok(start..start + 1));
        let none_first = format!("{front}x\n* E\n{later}");
        let wanted = Err(LookupRefusal::NoDrawer);
        check_default(ORDER, &none_first, "boost", wanted);
    }
}

/// The answer of the defaults is the lookup's at their first heading, whatever it is.
#[test]
fn the_defaults_answer_as_a_lookup_does() {
    for key in ["BOOST", "Boost", "nox", "none"] {
        let wanted = lookup(DEFAULTS.as_bytes(), 2, key.as_bytes());
        check_default(ORDER, DEFAULTS, key, wanted);
    }
}

#[test]
fn each_order_of_a_book() {
    let book = format!("{ORDER}** B\n:PROPERTIES:\n:BOOST: 9\n:END:\n* C\n");
    check_default(&book, DEFAULTS, "BOOST", Ok(35..36));
    let second = ORDER.len();
    check_at(&book, second, DEFAULTS, "BOOST", Whose::Order, Ok(68..69));
    check_at(&book, second, DEFAULTS, "FUEL", Whose::Defaults, Ok(44..46));
    let third = book.len() - "* C\n".len();
    let wanted = Err(LookupRefusal::NoDrawer);
    check_at(&book, third, DEFAULTS, "FUEL", Whose::Order, wanted);
}

/// The book's own first heading as its defaults: the two texts are one, or overlap.
#[test]
fn one_text_for_both() {
    let book = format!("{ORDER}* B\n:PROPERTIES:\n:END:\n");
    let second = ORDER.len();
    check_at(&book, second, &book, "FUEL", Whose::Defaults, Ok(32..35));
    check_at(&book, second, &book, "VIN", Whose::Order, Err(NO_KEY));
    check_own(&book, &book, "FUEL", Ok(32..35));
    check_default(&book, &book[second..], "BOOST", Err(NO_KEY));
    check_own(&book[second..], &book, "VIN", Err(NO_KEY));
    check_default(&book[second..], &book, "FUEL", Ok(32..35));
}

#[test]
fn longest_texts() {
    let last = "* D\n:PROPERTIES:\n:BOOST: 2\n:END:";
    let front = TEXT_LIMIT - last.len();
    let defaults = format!("{}{last}", "\n".repeat(front));
    let start = front + last.find('2').unwrap();
    check_default(ORDER, &defaults, "BOOST", Ok(start..start + 1));
    let order = format!("{ORDER}{}", "x".repeat(TEXT_LIMIT - ORDER.len()));
    check_default(&order, &defaults, "BOOST", Ok(start..start + 1));
    let too_long = [&order, &defaults].map(|text| format!("{text}\n"));
    let wanted = Err(LookupRefusal::TooLong);
    check_default(&order, &too_long[1], "BOOST", wanted.clone());
    check_own(&too_long[0], &defaults, "BOOST", wanted.clone());
    check_own(&too_long[0], &too_long[1], "BOOST", wanted);
}

#[test]
fn whose_has_a_number_and_a_text() {
    assert_eq!([Whose::Order, Whose::Defaults].map(Whose::number), [1, 2]);
    assert_eq!(Whose::Order.text(b"order", b"defaults"), b"order");
    assert_eq!(Whose::Defaults.text(b"order", b"defaults"), b"defaults");
}

/// The refusals that have the same words in the defaults as in the order.
const WORDS: [(LookupRefusal, &str); 7] = [
    (
        LookupRefusal::TooLong,
        "the text is longer than 65,536 bytes",
    ),
    (
        LookupRefusal::NoDrawer,
        "this heading has no property drawer",
    ),
    (
        LookupRefusal::NoKey,
        "this heading's property drawer has no line with this key",
    ),
    (
        LookupRefusal::BadKey,
        "a key has 1 to 64 bytes, no blanks or line ends, and no `+` at its end",
    ),
    (
        LookupRefusal::BlankFirst,
        "a blank line stands above the property drawer",
    ),
    (
        LookupRefusal::NotClosed,
        "the property drawer is never closed",
    ),
    (
        LookupRefusal::NotProperty {
            start: 300,
            line: 11,
        },
        "line 12 is no property",
    ),
];

#[test]
fn refusals_say_whose_they_are() {
    let words = |whose, answer| Sourced { whose, answer }.to_string();
    for (refusal, own) in WORDS {
        assert_eq!(words(Whose::Order, refusal), own);
        let wanted = format!("in the defaults: {own}");
        assert_eq!(words(Whose::Defaults, refusal), wanted);
    }
    let no_heading = LookupRefusal::NoHeading;
    let own = words(Whose::Order, no_heading);
    assert_eq!(own, "no heading starts at this byte");
    let wanted = "in the defaults: there is no heading";
    assert_eq!(words(Whose::Defaults, no_heading), wanted);
}

#[test]
fn a_refusal_is_an_error() {
    let refused = || -> Result<(), Box<dyn std::error::Error>> {
        property_or_default(ORDER.as_bytes(), 0, b"", b"BOOST")?;
        Ok(())
    };
    let error = refused().unwrap_err();
    assert_eq!(error.to_string(), "in the defaults: there is no heading");
}
