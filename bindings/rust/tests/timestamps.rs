//! Timestamps (document 02, order 1) through the safe interface.

use comaltzex::{
    timestamp, Date, Delay, Interval, Mark, Moment, Repeater, Repeats, Time, Timestamp, Unit,
    TEXT_LIMIT,
};

fn date(year: u32, month: u32, day: u32) -> Date {
    Date { year, month, day }
}

fn time(hour: u32, minute: u32) -> Time {
    Time { hour, minute }
}

fn interval(count: u32, unit: Unit) -> Interval {
    Interval { count, unit }
}

fn repeater(mark: Mark, count: u32, unit: Unit) -> Repeater {
    Repeater {
        mark,
        every: interval(count, unit),
        within: None,
    }
}

fn delay(first_only: bool, count: u32, unit: Unit) -> Delay {
    Delay {
        first_only,
        by: interval(count, unit),
    }
}

fn whole_day(date: Date) -> Moment {
    Moment {
        date,
        time: None,
        repeats: Repeats::Nothing,
    }
}

fn single(active: bool, date: Date) -> Timestamp {
    Timestamp::Single {
        active,
        moment: whole_day(date),
    }
}

/// The timestamp that is all of this text.
#[track_caller]
fn whole(text: &str) -> Timestamp {
    let found = timestamp(text.as_bytes(), 0).expect(text);
    assert_eq!(found.span, 0..text.len(), "{text}");
    found.timestamp
}

/// The repeater and delay between the date and the bracket of an active timestamp.
#[track_caller]
fn repeats(between: &str) -> Repeats {
    whole(&format!("<2024-01-01 {between}>")).start().repeats
}

#[track_caller]
fn check_none(texts: &[&str]) {
    for text in texts {
        assert_eq!(timestamp(text.as_bytes(), 0), None, "{text:?}");
    }
}

#[test]
fn a_date_and_a_time() {
    let moment = Moment {
        time: Some(time(19, 15)),
        ..whole_day(date(1997, 11, 3))
    };
    let active = true;
    assert_eq!(
        whole("<1997-11-03 Mon 19:15>"),
        Timestamp::Single { active, moment }
    );
    assert_eq!(whole("<1997-11-03 Mon>"), single(true, moment.date));
    assert_eq!(whole("[1997-11-03]"), single(false, moment.date));
}

#[test]
fn a_second_date() {
    assert_eq!(
        whole("[2004-08-24 Tue]--[2004-08-26 Thu]"),
        Timestamp::DateRange {
            active: false,
            start: whole_day(date(2004, 8, 24)),
            end: whole_day(date(2004, 8, 26)),
        }
    );
}

#[test]
fn two_dates_have_their_own_parts() {
    let start = Moment {
        date: date(2024, 1, 1),
        time: Some(time(9, 0)),
        repeats: Repeats::Repeater(repeater(Mark::CatchUp, 1, Unit::Day)),
    };
    let end = Moment {
        date: date(2024, 1, 2),
        time: Some(time(8, 30)),
        repeats: Repeats::Delay(delay(false, 2, Unit::Year)),
    };
    assert_eq!(
        whole("<2024-01-01 9:00 ++1d>--<2024-01-02 08:30 -2y>"),
        Timestamp::DateRange {
            active: true,
            start,
            end,
        }
    );
}

#[test]
fn a_time_range() {
    let range = |active| Timestamp::TimeRange {
        active,
        date: date(2024, 1, 1),
        start: time(9, 0),
        end: time(10, 30),
        repeats: Repeats::Delay(delay(true, 2, Unit::Hour)),
    };
    assert_eq!(whole("[2024-01-01 9:00-10:30 --2H]"), range(false));
    assert_eq!(whole("<2024-01-01 9:00-10:30 --2H>"), range(true));
}

#[test]
fn what_a_timestamp_starts_with() {
    let date = date(2024, 1, 1);
    let start = Moment {
        date,
        time: Some(time(9, 0)),
        repeats: Repeats::Repeater(repeater(Mark::Cumulate, 1, Unit::Day)),
    };
    assert_eq!(whole("<2024-01-01 9:00 +1d>").start(), start);
    assert_eq!(whole("<2024-01-01 9:00-10:30 +1d>").start(), start);
    assert_eq!(whole("<2024-01-01 9:00 +1d>--<2024-01-02>").start(), start);
    assert_eq!(whole("<2024-01-01>").start(), whole_day(date));
}

#[test]
fn active_and_inactive() {
    for parts in ["2024-01-01", "2024-01-01 9:00-10:00"] {
        assert!(whole(&format!("<{parts}>")).is_active());
        assert!(!whole(&format!("[{parts}]")).is_active());
    }
    assert!(whole("<2024-01-01>--<2024-01-02>").is_active());
    assert!(!whole("[2024-01-01]--[2024-01-02]").is_active());
}

#[test]
fn a_repeater_and_a_delay() {
    let month = repeater(Mark::Cumulate, 1, Unit::Month);
    let days = delay(false, 3, Unit::Day);
    let moment = Moment {
        repeats: Repeats::RepeaterDelay(month, days),
        ..whole_day(date(2030, 10, 5))
    };
    let active = true;
    let wanted = Timestamp::Single { active, moment };
    assert_eq!(whole("<2030-10-05 Sat +1m -3d>"), wanted);
}

#[test]
fn repeaters_and_delays() {
    let month = repeater(Mark::Cumulate, 1, Unit::Month);
    let days = delay(false, 3, Unit::Day);
    assert_eq!(repeats("+1m -3d"), Repeats::RepeaterDelay(month, days));
    assert_eq!(repeats("-3d +1m"), Repeats::DelayRepeater(days, month));
    assert_eq!(repeats("+1m"), Repeats::Repeater(month));
    assert_eq!(repeats("-3d"), Repeats::Delay(days));
    assert_eq!(repeats("Sat"), Repeats::Nothing);

    for between in ["+1m -3d", "-3d +1m"] {
        assert_eq!(repeats(between).repeater(), Some(month), "{between}");
        assert_eq!(repeats(between).delay(), Some(days), "{between}");
    }
    assert_eq!(
        (repeats("+1m").delay(), repeats("-3d").repeater()),
        (None, None)
    );
    assert_eq!(repeats("+1m").repeater(), Some(month));
    assert_eq!(repeats("-3d").delay(), Some(days));
}

#[test]
fn marks_units_and_numbers() {
    let repeated = |between| repeats(between).repeater().unwrap();
    assert_eq!(repeated("+0H"), repeater(Mark::Cumulate, 0, Unit::Hour));
    assert_eq!(repeated("++01w"), repeater(Mark::CatchUp, 1, Unit::Week));
    let most = repeater(Mark::Restart, 999_999_999, Unit::Year);
    assert_eq!(repeated(".+999999999Y"), most);
    let both = Repeater {
        within: Some(interval(2, Unit::Month)),
        ..repeater(Mark::CatchUp, 1, Unit::Day)
    };
    assert_eq!(repeated("++1D/2m"), both);
    assert_eq!(repeats("--4w").delay(), Some(delay(true, 4, Unit::Week)));
}

#[test]
fn blank_bytes_stand_between_parts() {
    let spaced = whole("<2024-01-01 \t\rMon\t10:00 \r+1d\t\t-1d>");
    assert_eq!(spaced, whole("<2024-01-01 Mon 10:00 +1d -1d>"));
    check_none(&[
        "<2024-01-01Mon>",
        "<2024-01-01\nMon>",
        "<2024-01-01 10:00+1d>",
        "<2024-01-01 +1d-1d>",
        "< 2024-01-01>",
        "<2024-01-01 >",
    ]);
}

#[test]
fn day_names() {
    for name in ["M", "lun.", "söndag", "[x:y", "."] {
        let text = format!("<2024-01-01 {name} +1d>");
        assert_eq!(whole(&text), whole("<2024-01-01 +1d>"), "{name}");
    }
    check_none(&[
        "<2024-01-01 Mo1>",
        "<2024-01-01 Mo-n>",
        "<2024-01-01 Mo+>",
        "<2024-01-01 Mo]>",
        "<2024-01-01 Mo n>",
        "<2024-01-01 10:00 Mon>",
    ]);
}

#[test]
fn only_the_shape_is_judged() {
    assert_eq!(whole("<2023-02-30>"), single(true, date(2023, 2, 30)));
    assert_eq!(whole("[0000-99-00]"), single(false, date(0, 99, 0)));
    let odd = whole("<2024-01-01 99:77>");
    assert_eq!(odd.start().time, Some(time(99, 77)));
}

#[test]
fn no_timestamps() {
    check_none(&[
        "",
        "<",
        "2024-01-01",
        "<999-01-01>",
        "<20245-01-01>",
        "<2024-1-01>",
        "<2024-01-01",
        "<2024-01-01]",
        "[2024-01-01>",
        "<2024-01-01 +1x>",
        "<2024-01-01 +1234567890d>",
        "<2024-01-01 +d>",
        "<2024-01-01 +1d/2>",
        "<2024-01-01 -1d --2d>",
        "<2024-01-01 +1d ++2d>",
        "<2024-01-01 +1d 10:00>",
        "<2024-01-01 100:00>",
        "<2024-01-01 1:0>",
        "<%%(diary-float t 4 2)>",
        "<%%(diary-float t 4 2) 12:00-14:00>",
    ]);
}

#[test]
fn a_bad_second_date_leaves_the_first() {
    let texts = [
        "<2024-01-01>--<2024-01>",
        "<2024-01-01>--[2024-01-02]",
        "<2024-01-01>-<2024-01-02>",
        "<2024-01-01> --<2024-01-02>",
        "<2024-01-01>--<2024-01-02 9:00-10:00>",
    ];
    for text in texts {
        let found = timestamp(text.as_bytes(), 0).expect(text);
        assert_eq!(found.span, 0..12, "{text}");
        assert_eq!(found.timestamp, single(true, date(2024, 1, 1)), "{text}");
    }
    let range = "<2024-01-01 9:00-10:00>";
    let found = timestamp(format!("{range}--<2024-01-02>").as_bytes(), 0).unwrap();
    assert_eq!(
        (found.timestamp, found.span),
        (whole(range), 0..range.len())
    );
}

#[test]
fn a_timestamp_inside_a_text() {
    let text = b"due <2024-01-01 Mon>, not [2024-01-02]";
    let found = timestamp(text, 4).unwrap();
    assert_eq!(found.timestamp, single(true, date(2024, 1, 1)));
    assert_eq!(found.span, 4..20);
    assert_eq!(timestamp(text, 26).unwrap().span, 26..text.len());
    for at in [0, 3, 5, 20, text.len() - 1, text.len(), usize::MAX] {
        assert_eq!(timestamp(text, at), None, "at {at}");
    }
}

#[test]
fn timestamps_have_no_text_limit() {
    let mut text = vec![b' '; 2 * TEXT_LIMIT];
    let start = text.len();
    text.extend(b"<2024-01-01");
    text.extend(vec![b' '; TEXT_LIMIT]);
    text.extend(b"Mon>");
    let found = timestamp(&text, start).unwrap();
    assert_eq!(found.span, start..text.len());
}

#[test]
fn displayed_in_org_form() {
    let texts = [
        ("<2026-11-16 Mon>", "<2026-11-16>"),
        ("[0007-01-02 Tue 9:05]", "[0007-01-02 09:05]"),
        (
            "<2026-11-16 Mon 9:30-10:00 +1W/02w  -3d>",
            "<2026-11-16 09:30-10:00 +1w/2w -3d>",
        ),
        ("[2026-11-16 9:30-10:00]", "[2026-11-16 09:30-10:00]"),
        (
            "[2026-11-16 x]--[2026-11-17 y]",
            "[2026-11-16]--[2026-11-17]",
        ),
        (
            "<2026-11-16 --1D .+2Y>--<2026-11-17 17:00 ++3H>",
            "<2026-11-16 --1d .+2y>--<2026-11-17 17:00 ++3h>",
        ),
    ];
    for (text, displayed) in texts {
        assert_eq!(whole(text).to_string(), displayed);
    }
}

/// Every repeater, delay, and pair of them that has these numbers.
fn all_repeats() -> Vec<Repeats> {
    let units = [Unit::Hour, Unit::Day, Unit::Week, Unit::Month, Unit::Year];
    let repeaters = [Mark::Cumulate, Mark::CatchUp, Mark::Restart].map(|mark| {
        let plain = units.map(|unit| repeater(mark, 10, unit));
        plain.map(|plain| {
            let within = Some(interval(999_999_999, plain.every.unit));
            [plain, Repeater { within, ..plain }]
        })
    });
    let repeaters = repeaters.as_flattened().as_flattened();
    let delays = [false, true].map(|first_only| units.map(|unit| delay(first_only, 0, unit)));
    let delays = delays.as_flattened();
    let mut all = vec![Repeats::Nothing];
    all.extend(repeaters.iter().copied().map(Repeats::Repeater));
    all.extend(delays.iter().copied().map(Repeats::Delay));
    for &repeater in repeaters {
        for &delay in delays {
            all.push(Repeats::RepeaterDelay(repeater, delay));
            all.push(Repeats::DelayRepeater(delay, repeater));
        }
    }
    all
}

/// Every kind of timestamp with this repeater and delay, with a time and without.
fn all_kinds(repeats: Repeats) -> Vec<Timestamp> {
    let (date, later) = (date(0, 99, 7), whole_day(date(9999, 0, 10)));
    let (start, end) = (time(0, 77), time(10, 5));
    let mut all = Vec::new();
    for active in [true, false] {
        for time in [None, Some(start)] {
            let moment = Moment {
                date,
                time,
                repeats,
            };
            all.push(Timestamp::Single { active, moment });
            for (start, end) in [(moment, later), (later, moment), (moment, moment)] {
                all.push(Timestamp::DateRange { active, start, end });
            }
        }
        all.push(Timestamp::TimeRange {
            active,
            date,
            start,
            end,
            repeats,
        });
    }
    all
}

#[test]
fn displayed_ones_read_as_the_same() {
    for timestamp in all_repeats().into_iter().flat_map(all_kinds) {
        let displayed = timestamp.to_string();
        assert_eq!(whole(&displayed), timestamp, "{displayed}");
    }
}
