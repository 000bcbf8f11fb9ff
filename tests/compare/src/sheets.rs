//! Seeded orders against both readers: the sheets written from them (document 02, order 5).

use plain_reader::{Order, LONGEST_TEXT};

use crate::escape::shown;
use crate::orders::{seeded_order, Seeded};
use crate::output::{check_output, fresh_output};
use crate::promise::check_promise;
use crate::random::Random;
use crate::sheet_situations::{Call, Met};
use crate::subject::{SheetAnswer, LIBRARY, PLAIN_READER};

/// Room for most of the sheets that are too long.
const MUCH_ROOM: usize = 66_000;

/// One order in several rooms, and what is promised of its sheet.
pub fn check_sheets(random: &mut Random, met: &mut Met) -> Result<(), String> {
    let seeded = seeded_order(random);
    let told = |difference| {
        format!(
            "order {}, faults {:?}, damage {:?}: {difference}",
            shown(&seeded.buffer),
            seeded.faults,
            seeded.damage
        )
    };
    let without_room = (PLAIN_READER.write_sheet)(&seeded.buffer, &mut []);
    for room in rooms(without_room, random) {
        check_call(&seeded, room, met).map_err(told)?;
    }
    check_promises(&seeded.buffer).map_err(told)
}

/// Rooms around what the sheet needs; for an order that is refused in any room, such as would do
/// and such as would not.
fn rooms(without_room: SheetAnswer, random: &mut Random) -> Vec<usize> {
    match without_room {
        (16, need) => vec![
            0,
            need,
            need - 1,
            need + random.between(1, 40),
            random.below(need),
        ],
        (1, _) => vec![0, random.below(LONGEST_TEXT), MUCH_ROOM],
        _ => vec![0, random.between(1, 400)],
    }
}

fn check_call(seeded: &Seeded, room: usize, met: &mut Met) -> Result<(), String> {
    let mut expected_output = fresh_output(room);
    let mut output = expected_output.clone();
    let answer = (PLAIN_READER.write_sheet)(&seeded.buffer, &mut expected_output[..room]);
    let seen = (LIBRARY.write_sheet)(&seeded.buffer, &mut output[..room]);
    let call = Call {
        seeded,
        room,
        answer,
    };
    call.count(met);
    if seen != answer {
        return Err(format!(
            "room {room}: plain reader {answer:?}, library {seen:?}"
        ));
    }
    check_output(&expected_output, &output).map_err(|told| format!("room {room}: {told}"))
}

/// Both readers' own lookups and readings of the sheet that the library writes, if it writes one.
fn check_promises(buffer: &[u8]) -> Result<(), String> {
    let (number, need) = (LIBRARY.write_sheet)(buffer, &mut []);
    let Some(order) = Order::of(buffer).filter(|_| number == 16) else {
        return Ok(());
    };
    let mut sheet = vec![0; need];
    (LIBRARY.write_sheet)(buffer, &mut sheet);
    for subject in [&LIBRARY, &PLAIN_READER] {
        let promise = check_promise(&sheet, order.pairs.iter().copied(), subject);
        promise.map_err(|told| format!("{}: {told}", subject.name))?;
    }
    Ok(())
}
