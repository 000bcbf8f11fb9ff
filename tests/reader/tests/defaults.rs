//! Document 02, order 13: house defaults.

use plain_reader::{lookup, lookup_with_defaults};

/// The answer's number, whose it is, the value's two ends and the further number.
type Answer = (u32, u32, usize, usize, usize);

/// An order without any key.
const ORDER: &str = "* A\n:PROPERTIES:\n:END:\n";

/// Defaults with the two keys that are never taken from them. The values of `BOOST` and `FUEL` are
/// bytes 45 and 54 to 56.
const HOUSE: &str = "* D\n:PROPERTIES:\n:VIN: 1\n:REQUEST: 2\n:BOOST: 3\n:FUEL: 98\n:END:\n";

const OF_THE_HOUSE: Answer = (0, 2, 45, 46, 0);

fn refused(number: u32, whose: u32) -> Answer {
    (number, whose, 0, 0, 0)
}

fn at(order: &str, at: usize, defaults: &str, key: &str) -> Answer {
    lookup_with_defaults(order.as_bytes(), at, defaults.as_bytes(), key.as_bytes())
}

/// `BOOST` for an order without any key.
fn boost_of(defaults: &str) -> Answer {
    at(ORDER, 0, defaults, "BOOST")
}

#[test]
fn a_part_of_the_order_text_or_of_the_defaults_text() {
    let order = "* A\n:PROPERTIES:\n:FUEL: E85\n:END:\n";
    assert_eq!(at(order, 0, HOUSE, "FUEL"), (0, 1, 24, 27, 0));
    assert_eq!(at(order, 0, HOUSE, "fuel"), (0, 1, 24, 27, 0));
    assert_eq!(at(order, 0, HOUSE, "BOOST"), OF_THE_HOUSE);
    assert_eq!(at(order, 0, HOUSE, "boost"), OF_THE_HOUSE);
    assert_eq!(at(ORDER, 0, HOUSE, "FUEL"), (0, 2, 54, 56, 0));
}

#[test]
fn an_empty_value_is_an_answer() {
    let empty = "* A\n:PROPERTIES:\n:BOOST:\n:END:\n";
    assert_eq!(at(empty, 0, HOUSE, "BOOST"), (0, 1, 24, 24, 0));
    assert_eq!(boost_of(empty), (0, 2, 24, 24, 0));
}

#[test]
fn the_first_line_with_the_key() {
    let house = "* D\n:PROPERTIES:\n:a: 1\n:BOOST+: 2\n:BOOST: 3\n:END:\n";
    assert_eq!(boost_of(house), (0, 2, 32, 33, 0));
}

#[test]
fn under_the_first_heading() {
    for (house, start) in [
        ("* D\n:PROPERTIES:\n:BOOST: 2\n:END:\n", 25),
        ("x\n\n* D\n:PROPERTIES:\n:BOOST: 2\n:END:\n", 28),
        ("**** D\n:PROPERTIES:\n:BOOST: 2\n:END:\n", 28),
        (
            "** D\n:PROPERTIES:\n:BOOST: 2\n:END:\n* E\n:PROPERTIES:\n:BOOST: 3\n:END:\n",
            26,
        ),
        ("*D\n* E\n:PROPERTIES:\n:BOOST: 2\n:END:\n", 28),
        (
            "#+begin_src\n* D\n:PROPERTIES:\n:BOOST: 2\n:END:\n#+end_src\n",
            37,
        ),
        (
            "* D\nCLOSED: [2024-01-01]\n:PROPERTIES:\n:BOOST: 2\n:END:\n",
            46,
        ),
    ] {
        assert_eq!(boost_of(house), (0, 2, start, start + 1, 0), "{house}");
    }
}

#[test]
fn not_in_the_zeroth_section() {
    let zeroth = ":PROPERTIES:\n:BOOST: 1\n:END:\n";
    assert_eq!(boost_of(zeroth), refused(4, 2));
    let with = |heading: &str| boost_of(&format!("{zeroth}{heading}"));
    assert_eq!(with("* D\n"), refused(5, 2));
    assert_eq!(with("* D\n:PROPERTIES:\n:END:\n"), refused(6, 2));
    assert_eq!(
        with("* D\n:PROPERTIES:\n:BOOST: 2\n:END:\n"),
        (0, 2, 54, 55, 0)
    );
}

#[test]
fn not_under_the_second_heading() {
    let second = "* E\n:PROPERTIES:\n:BOOST: 2\n:END:\n";
    let after = |first: &str| boost_of(&format!("{first}{second}"));
    assert_eq!(after("* D\n"), refused(5, 2));
    assert_eq!(after("* D\n\n"), refused(5, 2));
    assert_eq!(after("* D\n:PROPERTIES:\n"), refused(10, 2));
    assert_eq!(after("* D\n:PROPERTIES:\n:END:\n"), refused(6, 2));
    assert_eq!(after("*D\n"), (0, 2, 28, 29, 0));
}

#[test]
fn vin_and_request_are_never_taken_from_the_defaults() {
    for key in [
        "VIN", "vin", "ViN", "Vin", "REQUEST", "request", "Request", "rEqUeSt",
    ] {
        for defaults in [
            HOUSE,
            "",
            "* D\n",
            "* D\n\n:PROPERTIES:\n",
            &"a".repeat(65_537),
        ] {
            assert_eq!(at(ORDER, 0, defaults, key), refused(6, 1), "{key}");
        }
    }
}

#[test]
fn keys_that_are_nearly_vin_or_request_are() {
    for key in [
        "VI",
        "VINS",
        "VIN2",
        "XVIN",
        "V1N",
        "NIV",
        "REQUES",
        "REQUESTS",
        "XREQUEST",
        "request2",
        "VIN:",
        ":VIN",
        "V\u{131}N",
        "REQUE\u{17F}T",
    ] {
        assert_eq!(at(ORDER, 0, HOUSE, key), refused(6, 2), "{key}");
        let house = format!("* D\n:PROPERTIES:\n:{key}: 1\n:END:\n");
        let start = 20 + key.len();
        assert_eq!(
            at(ORDER, 0, &house, key),
            (0, 2, start, start + 1, 0),
            "{key}"
        );
    }
}

#[test]
fn vin_and_request_of_the_order_itself() {
    let order = "* A\n:PROPERTIES:\n:Vin: 7\n:request:\n:END:\n";
    assert_eq!(at(order, 0, HOUSE, "VIN"), (0, 1, 23, 24, 0));
    assert_eq!(at(order, 0, HOUSE, "REQUEST"), (0, 1, 34, 34, 0));
}

#[test]
fn any_answer_but_6_from_the_order_stands() {
    for (order, answer) in [
        ("", refused(4, 1)),
        ("x\n", refused(4, 1)),
        ("* A", refused(5, 1)),
        ("* A\nx\n:PROPERTIES:\n:END:\n", refused(5, 1)),
        ("* A\n\n:PROPERTIES:\n:END:\n", refused(8, 1)),
        ("* A\n:PROPERTIES:\n:a: 1\nx\n:END:\n", (9, 1, 0, 0, 23)),
        ("* A\n:PROPERTIES:\n:a: 1\n", refused(10, 1)),
        ("* A\n:PROPERTIES:\n:a: 1\n:END:\n", OF_THE_HOUSE),
    ] {
        assert_eq!(at(order, 0, HOUSE, "BOOST"), answer, "{order}");
    }
    for place in [1, 4, 22, 23, 24, usize::MAX] {
        assert_eq!(at(ORDER, place, HOUSE, "BOOST"), refused(4, 1), "{place}");
    }
}

#[test]
fn a_bad_key_is_the_orders_refusal() {
    let longest = "k".repeat(64);
    let too_long = "k".repeat(65);
    let house = format!("* D\n:PROPERTIES:\n:{too_long}: 1\n:{longest}: 2\n:END:\n");
    for key in ["", "BOOST+", "VIN+", "BO OST", "VIN ", "BOOST\n", &too_long] {
        assert_eq!(at(ORDER, 0, &house, key), refused(7, 1), "{key}");
    }
    assert_eq!(at(ORDER, 0, &house, &longest), (0, 2, 154, 155, 0));
}

#[test]
fn a_refusal_of_the_defaults_is_theirs() {
    for (defaults, answer) in [
        ("", refused(4, 2)),
        ("BOOST\n", refused(4, 2)),
        ("*D\n:PROPERTIES:\n:BOOST: 2\n:END:\n", refused(4, 2)),
        (" * D\n:PROPERTIES:\n:BOOST: 2\n:END:\n", refused(4, 2)),
        ("*", refused(4, 2)),
        ("* ", refused(5, 2)),
        ("* D\nx\n:PROPERTIES:\n:BOOST: 2\n:END:\n", refused(5, 2)),
        ("* D\n\n:PROPERTIES:\n:BOOST: 2\n:END:\n", refused(8, 2)),
        (
            "* D\n:PROPERTIES:\n:BOOST: 2\n x\n:END:\n",
            (9, 2, 0, 0, 27),
        ),
        ("x\n* D\n:PROPERTIES:\n\n:END:\n", (9, 2, 0, 0, 19)),
        ("* D\n:PROPERTIES:\n:BOOST: 2\n* E\n:END:\n", refused(10, 2)),
        ("* D\n:PROPERTIES:\n:BOOSTS: 2\n:END:\n", refused(6, 2)),
    ] {
        assert_eq!(boost_of(defaults), answer, "{defaults}");
    }
}

#[test]
fn texts_around_the_longest() {
    let filled = |text: &str, length: usize| text.to_string() + &"a".repeat(length - text.len());
    let (longest, too_long) = (filled(ORDER, 65_536), filled(ORDER, 65_537));
    assert_eq!(at(&longest, 0, HOUSE, "BOOST"), OF_THE_HOUSE);
    assert_eq!(at(&too_long, 0, HOUSE, "BOOST"), refused(1, 1));
    assert_eq!(at(&too_long, 0, HOUSE, ""), refused(1, 1));
    assert_eq!(boost_of(&filled(HOUSE, 65_536)), OF_THE_HOUSE);
    assert_eq!(boost_of(&filled(HOUSE, 65_537)), refused(1, 2));
    assert_eq!(boost_of(&filled("", 65_536)), refused(4, 2));
    assert_eq!(boost_of(&filled("", 65_537)), refused(1, 2));
    assert_eq!(at("* A", 0, &filled("", 65_537), "BOOST"), refused(5, 1));
    assert_eq!(
        at(&too_long, 0, &filled("", 65_537), "BOOST"),
        refused(1, 1)
    );
}

#[test]
fn the_order_text_as_its_own_defaults() {
    let text = "* A\n:PROPERTIES:\n:BOOST: 2\n:VIN: 7\n:END:\n* B\n:PROPERTIES:\n:a: 1\n:END:\n";
    assert_eq!(at(text, 0, text, "BOOST"), (0, 1, 25, 26, 0));
    assert_eq!(at(text, 41, text, "BOOST"), (0, 2, 25, 26, 0));
    assert_eq!(at(text, 41, text, "VIN"), refused(6, 1));
    assert_eq!(at(text, 41, text, "a"), (0, 1, 62, 63, 0));
    assert_eq!(at(text, 0, text, "a"), refused(6, 2));
}

/// The defaults change nothing in the lookup itself, which knows of one text only.
#[test]
fn the_lookup_of_the_order_alone_is_as_before() {
    assert_eq!(lookup(ORDER.as_bytes(), 0, b"BOOST"), (6, 0, 0, 0));
    assert_eq!(lookup(HOUSE.as_bytes(), 0, b"VIN"), (0, 23, 24, 0));
}
