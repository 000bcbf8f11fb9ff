//! Seeded runs of intake calls and logs against both readers (document 02, order 6).

use plain_reader::orders_of;

use crate::calls::Book;
use crate::escape::shown;
use crate::intake_runs::{seeded_run, SeededRun};
use crate::intake_situations::{self, Call};
use crate::log_situations::{self, LogCall};
use crate::output::check_output;
use crate::random::Random;
use crate::run_promise::{check_run, Added};
use crate::subject::{IntakeAnswer, LIBRARY, PLAIN_READER};

/// How many calls and logs met what.
pub struct Met {
    pub calls: intake_situations::Met,
    pub logs: log_situations::Met,
}

impl Default for Met {
    fn default() -> Self {
        Met {
            calls: [0; intake_situations::SITUATIONS.len()],
            logs: [0; log_situations::SITUATIONS.len()],
        }
    }
}

/// One run on a book, by single calls and as a log.
pub fn check_intakes(text: &[u8], random: &mut Random, met: &mut Met) -> Result<(), String> {
    let run = seeded_run(text, random);
    check_both(&run, met).map_err(|difference| {
        let orders: Vec<String> = run.orders.iter().map(|order| shown(order)).collect();
        format!(
            "book {}, room {}, {} bytes in use, orders {}, log damage {:?}: {difference}",
            shown(&run.book.buffer[..run.book.room]),
            run.book.room,
            run.book.used,
            orders.join(", "),
            run.log.damage
        )
    })
}

fn check_both(run: &SeededRun, met: &mut Met) -> Result<(), String> {
    let numbers = check_calls(run, &mut met.calls)?;
    check_log(run, &numbers, &mut met.logs)
}

/// The calls in turn, each compared whole, and what is promised of the run; gives their numbers.
fn check_calls(run: &SeededRun, met: &mut intake_situations::Met) -> Result<Vec<u32>, String> {
    let mut expected = run.book.clone();
    let mut seen = run.book.clone();
    let (mut added, mut refused) = (Vec::new(), Vec::new());
    let mut numbers = Vec::new();
    for (index, order) in run.orders.iter().enumerate() {
        let used = expected.used;
        let answer = expected.take(order, &PLAIN_READER);
        let given = seen.take(order, &LIBRARY);
        let told = |difference| format!("call {index}: {difference}");
        same(answer, given).map_err(told)?;
        check_output(&expected.buffer, &seen.buffer).map_err(told)?;
        let before = [&added[..], &refused[..]];
        Call::new(&run.book, &expected.buffer, used, order, before, answer).count(met);
        numbers.push(answer.0);
        let outcome = if answer.0 == 0 {
            &mut added
        } else {
            &mut refused
        };
        outcome.extend(Added::of(order));
    }
    check_run(run.book.text(), seen.text(), &added)?;
    Ok(numbers)
}

/// The log, compared whole. It ends as the library's single calls in turn, and played again it changes
/// no byte.
fn check_log(
    run: &SeededRun,
    numbers: &[u32],
    met: &mut log_situations::Met,
) -> Result<(), String> {
    let log = &run.log.bytes;
    let mut expected = run.book.clone();
    let mut seen = run.book.clone();
    let answer = expected.play(log, &PLAIN_READER);
    let given = seen.play(log, &LIBRARY);
    let told = |difference| format!("log: {difference}");
    same(answer, given).map_err(told)?;
    check_output(&expected.buffer, &seen.buffer).map_err(told)?;
    let call = LogCall {
        book: &run.book,
        log: &run.log,
        numbers,
        answer,
    };
    call.count(met);
    match orders_of(log) {
        Some(orders) => check_played(run, &orders, seen),
        None => Ok(()),
    }
}

/// The book after a log: as after the single calls, and after the log played again.
fn check_played(run: &SeededRun, orders: &[&[u8]], played: Book) -> Result<(), String> {
    let mut single = run.book.clone();
    single.take_in_turn(orders, &LIBRARY);
    if single != played {
        return Err("the log ends otherwise than the single calls".to_string());
    }
    let mut again = played.clone();
    let answer = again.play(&run.log.bytes, &LIBRARY);
    if answer != (0, played.used) || again != played {
        return Err(format!("the log played again: {answer:?}"));
    }
    Ok(())
}

fn same(expected: IntakeAnswer, seen: IntakeAnswer) -> Result<(), String> {
    if expected == seen {
        return Ok(());
    }
    Err(format!("plain reader {expected:?}, library {seen:?}"))
}
