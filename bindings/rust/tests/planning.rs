//! Planning lines (document 02, order 1) through the safe interface.

use comaltzex::{
    lookup, planning, timestamp, Kind, Planning, PlanningRefusal, Table, Timestamp, TEXT_LIMIT,
};

const BOOK: &[u8] = include_bytes!("../../../tests/books/orders.org");

/// The timestamp at the front of this text.
#[track_caller]
fn stamp(text: &str) -> Timestamp {
    timestamp(text.as_bytes(), 0).expect(text).timestamp
}

/// The kinds of a text with this line between a heading line and a drawer.
fn kinds_around(line: &str) -> Vec<u32> {
    let text = format!("* A\n{line}\n:PROPERTIES:\n:END:\n");
    let table = Table::read(text.as_bytes()).unwrap();
    table.records().map(|record| record.kind.number()).collect()
}

#[test]
fn planning_lines() {
    let lines = [
        "SCHEDULED: <2024-01-01>",
        "CLOSED: [2024-01-01] CLOSED: [2024-01-02]",
        "CLOSED: <0000-99-00>",
        "  closed: [2024-01-01 Mon 9:05 +1w]",
        "CLOSED: <2024-01-01 10:00-11:00>",
        "CLOSED: <2024-01-01 +1d -2d> DEADLINE: <2024-01-01 -2d .+1d>",
    ];
    for line in lines {
        assert_eq!(kinds_around(line), [1, 2, 3, 4, 5], "{line}");
    }
}

#[test]
fn lines_that_are_no_planning_lines() {
    let lines = [
        "SCHEDULED: ring him back",
        "CLOSED: [2024-01-01]x",
        "CLOSED: [2024-01-01] x",
        "CLOSED:",
        "CLOSED: <%%(diary-float t 4 2)>",
        "CLOSED: <2024-01-01>--[2024-01-02]",
        "CLOSED: <2024-01-01 -1d --2d>",
        "CLOSED: <2024-01-01 +1d 10:00>",
        "CLOSED: <2024-01-01 +1234567890d>",
        "CLOSED: <2024-01-01 >",
        "CLOSED: < 2024-01-01>",
        "CLOSED: <2024-01-01 10:00 Mon>",
    ];
    for line in lines {
        assert_eq!(kinds_around(line), [1, 2, 3, 16, 7], "{line}");
    }
}

#[test]
#[rustfmt::skip]
fn table_of_a_planning_line() {
    let table = Table::read(b"* A\n CLOSED: [2024-01-01]\n").unwrap();
    assert_eq!(table.numbers(), [
        1, 0, 26, 0, 26, 0, 0, 0,
        2, 0, 26, 4, 26, 0, 1, 0,
        3, 4, 26, 4, 26, 1, 0, 1,
        4, 4, 26, 5, 25, 2, 0, 1,
    ]);
}

#[test]
#[rustfmt::skip]
fn table_of_a_failed_planning_line() {
    let table = Table::read(b"* A\nSCHEDULED: x\n:PROPERTIES:\n:VIN: 7\n:END:\n").unwrap();
    assert_eq!(table.numbers(), [
        1, 0, 44, 0, 44, 0, 0, 0,
        2, 0, 44, 4, 44, 0, 1, 0,
        3, 4, 44, 4, 44, 1, 0, 1,
        16, 4, 17, 4, 17, 2, 0, 1,
        7, 17, 44, 30, 38, 2, 0, 2,
        16, 30, 38, 30, 38, 4, 0, 3,
    ]);
}

#[test]
fn a_planning_line_keeps_the_drawer() {
    let text = b"* A\nSCHEDULED: <2024-01-01>\n:PROPERTIES:\n:VIN: 7\n:END:\n";
    assert_eq!(lookup(text, 0, b"VIN"), Ok(47..48));
}

/// The planning line right below a heading line.
#[track_caller]
fn plan(line: &str) -> Planning {
    planning(format!("* A\n{line}\n").as_bytes(), 0).unwrap()
}

#[test]
fn each_keyword_has_its_timestamp() {
    let [closed, deadline, scheduled] =
        ["[2024-01-01 10:00]", "<2024-01-02 -1d>", "<2024-01-03>"].map(|text| Some(stamp(text)));
    let all = Planning {
        closed,
        deadline,
        scheduled,
    };
    let line = "Deadline: <2024-01-02 -1d>\tscheduled:  <2024-01-03> CLOSED: [2024-01-01 10:00]";
    assert_eq!(plan(line), all);
    let line = "\t CLOSED:\r[2024-01-01 10:00] \r";
    let closed = Planning {
        closed,
        ..Planning::default()
    };
    assert_eq!(plan(line), closed);
}

#[test]
fn timestamps_of_planning_lines_are_of_any_kind() {
    let texts = [
        "<2024-01-01>",
        "<2024-01-01 9:00-10:00>",
        "<2024-01-01>--<2024-01-02>",
        "[2024-01-01]",
        "[2024-01-01 9:00-10:00]",
        "[2024-01-01]--[2024-01-02]",
    ];
    for text in texts {
        let scheduled = Some(stamp(text));
        let wanted = Planning {
            scheduled,
            ..Planning::default()
        };
        assert_eq!(plan(&format!("SCHEDULED: {text}")), wanted);
    }
}

#[test]
fn of_a_keyword_twice_the_last_counts() {
    let line = "CLOSED: [2024-01-01] DEADLINE: <2024-01-03> closed: [2024-01-02]";
    let twice = plan(line);
    assert_eq!(twice.closed, Some(stamp("[2024-01-02]")));
    assert_eq!(twice.deadline, Some(stamp("<2024-01-03>")));
    assert_eq!(twice.scheduled, None);
}

#[test]
fn headings_without_a_planning_line() {
    let texts = [
        "* ",
        "* A",
        "* A\n",
        "* A\n* B\nCLOSED: [2024-01-01]\n",
        "* A\n\nCLOSED: [2024-01-01]\n",
        "* A\nx\nCLOSED: [2024-01-01]\n",
        "* A\nSCHEDULED: ring him back\n",
        "* A\nCLOSED: [2024-01-01] x\n",
        "* A\nCLOSED: [2024-01-01]DEADLINE: <2024-01-02>\n",
        "* A\nCLOSED:[2024-01-01]\n",
        "* A\nCLOSED [2024-01-01]\n",
        "* A\nCLOSED: \n[2024-01-01]\n",
        "* A\n\rCLOSED: [2024-01-01]\n",
        "* A\nOPENED: [2024-01-01]\n",
    ];
    for text in texts {
        let plan = planning(text.as_bytes(), 0);
        assert_eq!(plan, Ok(Planning::default()), "{text:?}");
    }
}

#[test]
fn planning_of_a_later_heading() {
    let text = b"x\n* A\nCLOSED: [2024-01-01]\n** B\nDEADLINE: <2024-01-02>";
    let a = planning(text, 2).unwrap();
    assert_eq!((a.closed, a.deadline), (Some(stamp("[2024-01-01]")), None));
    let b = planning(text, 27).unwrap();
    assert_eq!((b.closed, b.deadline), (None, Some(stamp("<2024-01-02>"))));
}

#[test]
fn planning_refusals() {
    let text = b"x\n* A\nCLOSED: [2024-01-01]\n*B\n";
    for at in [0, 1, 3, 6, 27, text.len(), usize::MAX] {
        assert_eq!(
            planning(text, at),
            Err(PlanningRefusal::NoHeading),
            "at {at}"
        );
    }
    assert_eq!(planning(b"", 0), Err(PlanningRefusal::NoHeading));
    assert_eq!(planning(b"** A\n", 1), Err(PlanningRefusal::NoHeading));

    let mut long = b"* A\nCLOSED: [2024-01-01]\n".to_vec();
    long.resize(TEXT_LIMIT, b'x');
    assert!(planning(&long, 0).unwrap().closed.is_some());
    long.push(b'x');
    for at in [0, 1] {
        assert_eq!(planning(&long, at), Err(PlanningRefusal::TooLong));
    }
}

/// A heading has dates exactly when its section starts with a planning record.
#[test]
fn planning_of_the_shipped_book() {
    let table = Table::read(BOOK).unwrap();
    let records: Vec<_> = table.records().collect();
    let mut planned = 0;
    for (index, heading) in records.iter().enumerate() {
        if heading.kind != Kind::Heading {
            continue;
        }
        let third = records.get(index + 2).map(|record| record.kind);
        let plan = planning(BOOK, heading.span.start).unwrap();
        let has_dates = plan != Planning::default();
        assert_eq!(has_dates, third == Some(Kind::Planning), "{heading:?}");
        planned += usize::from(has_dates);
    }
    let lines = records
        .iter()
        .filter(|record| record.kind == Kind::Planning);
    assert_eq!(planned, lines.count());
    assert!(planned > 50);
}

#[test]
fn refusals_have_numbers_and_words() {
    let refusals = [PlanningRefusal::TooLong, PlanningRefusal::NoHeading];
    assert_eq!(refusals.map(PlanningRefusal::number), [1, 4]);
    let words = refusals.map(|refusal| refusal.to_string());
    assert_eq!(words[0], "the text is longer than 65,536 bytes");
    assert_eq!(words[1], "no heading starts at this byte");
}
