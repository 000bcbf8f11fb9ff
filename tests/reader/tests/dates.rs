//! Document 02, order 1: timestamps, planning lines, days between two dates.

use plain_reader::{timestamp, MomentNumbers, StampNumbers, NO_MOMENT, NO_STAMP};

/// The units of repeaters and delays as numbers.
const H: u32 = b'h' as u32;
const D: u32 = b'd' as u32;
const W: u32 = b'w' as u32;
const M: u32 = b'm' as u32;
const Y: u32 = b'y' as u32;

/// A moment without time, repeater and delay.
const fn day(year: u32, month: u32, day: u32) -> MomentNumbers {
    [year, month, day, 0, 0, 0, 0, 0, 0, 0, 0, 0, 0, 0, 0]
}

/// A day of no importance.
const ONE: MomentNumbers = day(2024, 1, 1);

/// The moment with other numbers from place `from` on.
fn with(mut moment: MomentNumbers, from: usize, numbers: &[u32]) -> MomentNumbers {
    moment[from..from + numbers.len()].copy_from_slice(numbers);
    moment
}

fn stamp(kind: u32, first: MomentNumbers, second: MomentNumbers) -> StampNumbers {
    let numbers = [&[kind], first.as_slice(), &second].concat();
    numbers.try_into().unwrap()
}

/// The whole of `text` is a timestamp of those numbers.
fn is_stamp(text: &str, kind: u32, first: MomentNumbers, second: MomentNumbers) {
    let expected = (text.len(), stamp(kind, first, second));
    assert_eq!(timestamp(text.as_bytes(), 0), expected, "{text}");
}

/// `<2024-01-01 PARTS>` is a timestamp alone with those numbers from place `from` on.
fn has(parts: &str, from: usize, numbers: &[u32]) {
    let text = format!("<2024-01-01 {parts}>");
    is_stamp(&text, 1, with(ONE, from, numbers), NO_MOMENT);
}

fn is_none(text: &[u8]) {
    let told = String::from_utf8_lossy(text);
    assert_eq!(timestamp(text, 0), (0, NO_STAMP), "{told}");
}

mod stamps {
    use super::*;

    #[test]
    fn kinds() {
        let time = with(ONE, 3, &[1, 9, 5]);
        let until = with(ONE, 3, &[1, 10, 30]);
        is_stamp("<2024-01-01>", 1, ONE, NO_MOMENT);
        is_stamp("<2024-01-01 9:05>", 1, time, NO_MOMENT);
        is_stamp("<2024-01-01 9:05-10:30>", 2, time, until);
        is_stamp("<2024-01-01>--<0000-99-00>", 3, ONE, day(0, 99, 0));
        is_stamp("[2024-01-01]", 4, ONE, NO_MOMENT);
        is_stamp("[2024-01-01 9:05-10:30]", 5, time, until);
        is_stamp("[2024-01-01 9:05]--[2024-01-01 10:30]", 6, time, until);
    }

    #[test]
    fn a_time_range_has_repeater_and_delay_at_its_first_time() {
        let first = with(ONE, 3, &[1, 9, 0, 1, 1, D, 0, 0, 2, 2, H, 1]);
        let second = with(ONE, 3, &[1, 10, 0]);
        is_stamp("<2024-01-01 9:00-10:00 --2h +1d>", 2, first, second);
    }

    #[test]
    fn each_half_has_its_own() {
        let first = with(ONE, 3, &[1, 7, 0, 3, 5, W, 0, 0, 0, 0, 0, 0]);
        let second = with(day(2025, 2, 2), 3, &[0, 0, 0, 0, 0, 0, 0, 0, 1, 6, M, 0]);
        is_stamp(
            "[2024-01-01 7:00 .+5w]--[2025-02-02 x -6m]",
            6,
            first,
            second,
        );
    }

    #[test]
    fn marks_amounts_and_units() {
        has("+1h", 6, &[1, 1, H]);
        has("++22D", 6, &[2, 22, D]);
        has(".+999999999w", 6, &[3, 999_999_999, W]);
        has("+000000001M/03y", 6, &[1, 1, M, 3, Y]);
        has("-0y", 11, &[1, 0, Y]);
        has("--7H", 11, &[2, 7, H]);
        has("+1d -2w", 6, &[1, 1, D, 0, 0, 1, 2, W, 0]);
        has("-2w +1d", 6, &[1, 1, D, 0, 0, 1, 2, W, 1]);
    }

    #[test]
    fn only_the_shape_is_judged() {
        is_stamp("<2024-02-30>", 1, day(2024, 2, 30), NO_MOMENT);
        let odd = with(day(0, 99, 0), 3, &[1, 99, 77]);
        is_stamp("<0000-99-00 99:77>", 1, odd, NO_MOMENT);
    }

    #[test]
    fn day_names() {
        for name in [
            "Mon", "x", "\u{e9}", ".", "<", "[", "a[b<c", ":", "/", "\u{b}", "%%(x)",
        ] {
            has(name, 0, &[]);
        }
        for name in ["a1", "1", "a+", "+", "-", "a-b", "a]", "a\nb", "a b"] {
            is_none(format!("<2024-01-01 {name}>").as_bytes());
        }
        is_none(b"[2024-01-01 a>]");
    }

    #[test]
    fn blank_bytes() {
        is_stamp("<2024-01-01\r\t  Mon>", 1, ONE, NO_MOMENT);
        for text in [
            "< 2024-01-01>",
            "<2024-01-01 >",
            "<2024-01-01\t>",
            "<2024-01-01 9:00\r>",
        ] {
            is_none(text.as_bytes());
        }
        for text in [
            "<2024-01-01Mon>",
            "<2024-01-01 Mon9:00>",
            "<2024-01-01 9:00+1d>",
        ] {
            is_none(text.as_bytes());
        }
        is_none(b"<2024-01-01 +1d-1d>");
        is_none(b"<2024-01-01\n+1d>");
    }

    #[test]
    fn order_of_the_parts() {
        has("Mon 9:05 +1d", 3, &[1, 9, 5, 1, 1, D]);
        for parts in [
            "9:05 Mon",
            "+1d 9:05",
            "Mon Tue",
            "9:05 9:05",
            "+1d Mon",
            "-1d 9:05",
        ] {
            is_none(format!("<2024-01-01 {parts}>").as_bytes());
        }
        for parts in [
            "+1d +1d",
            "-1d --1d",
            "+1d -1d +1d",
            "-1d +1d -1d",
            "+1d 9:00 -1d",
        ] {
            is_none(format!("<2024-01-01 {parts}>").as_bytes());
        }
    }

    #[test]
    fn parts_that_just_fail() {
        for date in [
            "999-01-01",
            "12024-01-01",
            "2024-1-01",
            "2024-01-1",
            "2024-01-011",
            "2024-01-01-01",
            "2024-01",
        ] {
            is_none(format!("<{date}>").as_bytes());
        }
        for part in [
            "009:05",
            "9:5",
            "9:005",
            ":05",
            "9:",
            "9:05-",
            "9:05-10",
            "9:05--10:00",
        ] {
            is_none(format!("<2024-01-01 {part}>").as_bytes());
        }
        for part in [
            "+1",
            "+d",
            "+1x",
            "+1234567890d",
            "+++1d",
            "..+1d",
            ".1d",
            "+ 1d",
            "+1dd",
        ] {
            is_none(format!("<2024-01-01 {part}>").as_bytes());
        }
        for part in [
            "+1d/",
            "+1d/2",
            "+1d/w",
            "+1d/2w/3w",
            "+1/2d",
            "+1d/+2d",
            "+1d/1234567890w",
        ] {
            is_none(format!("<2024-01-01 {part}>").as_bytes());
        }
        for part in [
            "---1d",
            "-1",
            "-d",
            "-1d/2d",
            "-1234567890d",
            "1d",
            "-+1d",
            "+-1d",
        ] {
            is_none(format!("<2024-01-01 {part}>").as_bytes());
        }
    }

    #[test]
    fn brackets() {
        for text in [
            "<2024-01-01]",
            "[2024-01-01>",
            "<2024-01-01",
            "2024-01-01>",
            "<>",
            "<",
            "",
        ] {
            is_none(text.as_bytes());
        }
        is_none(b"<%%(diary-float t 4 2)>");
        is_none(b"<<2024-01-01>>");
    }

    #[test]
    fn what_is_no_second_date_leaves_the_first() {
        let alone = |text: &str| {
            let expected = (12, stamp(1, ONE, NO_MOMENT));
            assert_eq!(timestamp(text.as_bytes(), 0), expected, "{text}");
        };
        for rest in [
            "--[2024-01-02]",
            "-<2024-01-02>",
            "---<2024-01-02>",
            " --<2024-01-02>",
        ] {
            alone(&format!("<2024-01-01>{rest}"));
        }
        for rest in [
            "--<2024-01>",
            "-- <2024-01-02>",
            "--",
            "--<2024-01-02 9:00-10:00>",
            "x",
        ] {
            alone(&format!("<2024-01-01>{rest}"));
        }
        let range = b"<2024-01-01 9:00-10:00>--<2024-01-02>";
        assert_eq!(timestamp(range, 0), timestamp(&range[..23], 0));
        assert_eq!(timestamp(range, 0).0, 23);
        let three = b"<2024-01-01>--<2024-01-02>--<2024-01-03>";
        assert_eq!(timestamp(three, 0), timestamp(&three[..26], 0));
        assert_eq!(timestamp(three, 0).0, 26);
    }

    #[test]
    fn anywhere_in_a_text_of_any_length() {
        let mut text = vec![b'x'; 70_000];
        text.extend(b"[2024-01-01]");
        let expected = (70_012, stamp(4, ONE, NO_MOMENT));
        assert_eq!(timestamp(&text, 70_000), expected);
        for at in [0, 70_001, 70_011, 70_012, 70_013, usize::MAX] {
            assert_eq!(timestamp(&text, at), (0, NO_STAMP), "at {at}");
        }
    }
}

mod planning {
    use super::*;
    use plain_reader::{lookup, planning, read, Reading};

    const SECOND: MomentNumbers = day(2024, 2, 2);
    const ACTIVE: fn(MomentNumbers) -> StampNumbers = |moment| stamp(1, moment, NO_MOMENT);
    const NONE: [StampNumbers; 3] = [NO_STAMP; 3];

    /// Is the line under a heading a planning line? Reading, lookup and planning must agree.
    fn is_planning(line: &str) -> bool {
        let text = format!("* A\n{line}\n:PROPERTIES:\n:a: 1\n:END:\n");
        let Reading::Table(records) = read(text.as_bytes()) else {
            panic!("{line}: refused")
        };
        let holds = records[3].kind == 4;
        let looked_up = lookup(text.as_bytes(), 0, b"a").0;
        assert_eq!(looked_up, if holds { 0 } else { 5 }, "{line}");
        assert_eq!(planning(text.as_bytes(), 0).1 != NONE, holds, "{line}");
        holds
    }

    #[test]
    fn lines_that_are_planning() {
        for line in [
            "CLOSED: <2024-01-01>",
            "deadline: [2024-01-01]",
            "\t Scheduled:\t\r <2024-01-01>--<2024-02-02>\r",
            "CLOSED: [2024-01-01]\tCLOSED: <2024-01-01> DEADLINE:\r<2024-01-01 9:00-10:00>",
        ] {
            assert!(is_planning(line), "{line}");
        }
    }

    #[test]
    fn lines_that_are_not() {
        for line in [
            "SCHEDULED: ring him back",
            "CLOSED:",
            "CLOSED:<2024-01-01>",
            "CLOSED : <2024-01-01>",
            "CLOSED <2024-01-01>",
            "XCLOSED: <2024-01-01>",
            "DEADLINES: <2024-01-01>",
            "\rCLOSED: <2024-01-01>",
            "CLOSED: <2024-01-01>x",
            "CLOSED: <2024-01-01> x",
            "x CLOSED: <2024-01-01>",
            "CLOSED: <2024-01-01>CLOSED: <2024-01-01>",
            "CLOSED: <2024-01-01> DEADLINE:",
            "CLOSED: <2024-01-01> <2024-01-01>",
            "CLOSED: <2024-01-01>--[2024-01-01]",
            "CLOSED: <2024-01-01 9:00-10:00>--<2024-01-01>",
            "CLOSED: <2024-01-01>, DEADLINE: <2024-01-01>",
            "CLOCK: [2024-01-01]",
        ] {
            assert!(!is_planning(line), "{line}");
        }
    }

    #[test]
    fn elsewhere_the_line_is_a_paragraph() {
        for before in ["", "* A\n\n", "* A\nx\n", "* A\nCLOSED: <2024-01-01>\n"] {
            let text = format!("{before}CLOSED: <2024-01-01>\n");
            let Reading::Table(records) = read(text.as_bytes()) else {
                panic!("{text}: refused")
            };
            assert_eq!(records.last().map(|record| record.kind), Some(16), "{text}");
        }
    }

    #[test]
    fn each_keyword_has_its_stamp() {
        let text = b"* A\nSCHEDULED: <2024-02-02> CLOSED: <2024-01-01>\n";
        let expected = [ACTIVE(ONE), NO_STAMP, ACTIVE(SECOND)];
        assert_eq!(planning(text, 0), (0, expected));
    }

    #[test]
    fn the_last_of_a_keyword_counts() {
        let text = b"* A\nDEADLINE: <2024-02-02> deadline: <2024-01-01>";
        assert_eq!(planning(text, 0), (0, [NO_STAMP, ACTIVE(ONE), NO_STAMP]));
    }

    #[test]
    fn only_the_line_right_after() {
        let line = "CLOSED: <2024-01-01>\n";
        for between in ["\n", "x\n", "** B\n"] {
            let text = format!("* A\n{between}{line}");
            assert_eq!(planning(text.as_bytes(), 0), (0, NONE), "{text}");
        }
        for text in ["* A", "* A\n", "* A\n** B\n", "* CLOSED: <2024-01-01>\n"] {
            assert_eq!(planning(text.as_bytes(), 0), (0, NONE), "{text}");
        }
    }

    #[test]
    fn refusals() {
        let text = b"* A\nCLOSED: <2024-01-01>\n*\n";
        for at in [1, 4, 12, 25, 27, 28, usize::MAX] {
            assert_eq!(planning(text, at), (4, NONE), "at {at}");
        }
        let mut long = text.to_vec();
        long.resize(65_536, b'x');
        assert_eq!(planning(&long, 0).0, 0);
        long.push(b'x');
        assert_eq!(planning(&long, 0), (1, NONE));
        assert_eq!(planning(&long, 1), (1, NONE));
    }
}

mod days {
    use plain_reader::{days_between, Date};

    fn date(year: u32, month: u32, day: u32) -> Date {
        Date { year, month, day }
    }

    /// The day after, by the calendar: the day before March is the 29th of February in every fourth
    /// year, but not in full hundreds that no 400 divides.
    fn next(today: Date) -> Date {
        let Date { year, month, day } = today;
        let is_leap = year % 400 == 0 || (year % 4 == 0 && year % 100 != 0);
        match (month, day) {
            (12, 31) => date(year + 1, 1, 1),
            (2, 28) if is_leap => date(year, 2, 29),
            (2, 28 | 29) => date(year, 3, 1),
            (4 | 6 | 9 | 11, 30) | (_, 31) => date(year, month + 1, 1),
            _ => date(year, month, day + 1),
        }
    }

    #[test]
    fn every_day_of_years_1_to_9999() {
        let first = date(1, 1, 1);
        let mut today = first;
        let mut count = 0;
        while today.year < 10_000 {
            assert_eq!(days_between(first, today), (0, count), "{today:?}");
            if today.day == 1 {
                assert_eq!(days_between(today, first), (0, -count), "{today:?}");
            }
            today = next(today);
            count += 1;
        }
        assert_eq!(count, 3_652_059);
    }

    #[test]
    fn no_calendar_days() {
        let good = date(2024, 1, 1);
        for bad in [
            date(0, 1, 1),
            date(10_000, 1, 1),
            date(u32::MAX, 1, 1),
            date(2024, 0, 1),
            date(2024, 13, 1),
            date(2024, u32::MAX, 1),
            date(2024, 1, 0),
            date(2024, 1, 32),
            date(2024, 4, 31),
            date(2024, 2, 30),
            date(2023, 2, 29),
            date(1900, 2, 29),
            date(2024, 12, u32::MAX),
        ] {
            assert_eq!(days_between(good, bad), (11, 0), "{bad:?}");
            assert_eq!(days_between(bad, good), (11, 0), "{bad:?}");
            assert_eq!(days_between(bad, bad), (11, 0), "{bad:?}");
        }
    }
}
