//! The static library's functions, made safe. All unsafe code is here.

use crate::RECORD_SIZE;

/// `COMALTZEX_VERSION` of the header.
const VERSION: u32 = 9;

/// The numbers of an answer, as in `comaltzex.h`.
pub(crate) mod number {
    pub(crate) const OK: u32 = 0;
    pub(crate) const TOO_LONG: u32 = 1;
    pub(crate) const TOO_DEEP: u32 = 2;
    pub(crate) const NO_ROOM: u32 = 3;
    pub(crate) const NO_HEADING: u32 = 4;
    pub(crate) const NO_DRAWER: u32 = 5;
    pub(crate) const NO_KEY: u32 = 6;
    pub(crate) const BAD_KEY: u32 = 7;
    pub(crate) const BLANK_FIRST: u32 = 8;
    pub(crate) const NOT_PROPERTY: u32 = 9;
    pub(crate) const NOT_CLOSED: u32 = 10;
    pub(crate) const NO_DAY: u32 = 11;
    pub(crate) const BAD_ORDER: u32 = 12;
    pub(crate) const BAD_TEXT: u32 = 13;
    pub(crate) const BAD_NAME: u32 = 14;
    pub(crate) const REPEATED_KEY: u32 = 15;
    pub(crate) const SHORT_OUTPUT: u32 = 16;
    pub(crate) const MISSING_KEY: u32 = 17;
    pub(crate) const BAD_USED: u32 = 18;
    pub(crate) const SEEN: u32 = 19;
    pub(crate) const NOT_OPEN: u32 = 21;
    pub(crate) const CUT_LOG: u32 = 27;
}

/// Whose an answer is, as in `comaltzex.h`.
pub(crate) mod whose {
    pub(crate) const ORDER: u32 = 1;
    pub(crate) const DEFAULTS: u32 = 2;
}

/// The kinds of a timestamp, as in `comaltzex.h`.
pub(crate) mod stamp_kind {
    pub(crate) const NONE: u32 = 0;
    pub(crate) const ACTIVE: u32 = 1;
    pub(crate) const ACTIVE_TIMES: u32 = 2;
    pub(crate) const ACTIVE_DATES: u32 = 3;
    pub(crate) const INACTIVE: u32 = 4;
    pub(crate) const INACTIVE_TIMES: u32 = 5;
    pub(crate) const INACTIVE_DATES: u32 = 6;
}

/// `comaltzex_reading` of the header.
#[repr(C)]
pub(crate) struct Reading {
    pub(crate) number: u32,
    pub(crate) count: usize,
}

/// `comaltzex_part` of the header.
#[repr(C)]
pub(crate) struct Part {
    pub(crate) number: u32,
    pub(crate) start: usize,
    pub(crate) end: usize,
    pub(crate) further: usize,
}

/// `comaltzex_sourced_part` of the header.
#[repr(C)]
pub(crate) struct SourcedPart {
    pub(crate) number: u32,
    pub(crate) whose: u32,
    pub(crate) start: usize,
    pub(crate) end: usize,
    pub(crate) further: usize,
}

/// `comaltzex_closer` of the header.
#[repr(C)]
pub(crate) struct Closer {
    pub(crate) found: u32,
    pub(crate) start: usize,
    pub(crate) end: usize,
    pub(crate) compared: usize,
}

/// `comaltzex_date` of the header.
#[derive(Clone, Copy)]
#[repr(C)]
pub(crate) struct Date {
    pub(crate) year: u32,
    pub(crate) month: u32,
    pub(crate) day: u32,
}

/// `comaltzex_moment` of the header.
#[repr(C)]
pub(crate) struct Moment {
    pub(crate) date: Date,
    pub(crate) has_time: u32,
    pub(crate) hour: u32,
    pub(crate) minute: u32,
    pub(crate) repeat_mark: u32,
    pub(crate) every: u32,
    pub(crate) every_unit: u32,
    pub(crate) within: u32,
    pub(crate) within_unit: u32,
    pub(crate) delay_mark: u32,
    pub(crate) delay: u32,
    pub(crate) delay_unit: u32,
    pub(crate) delay_first: u32,
}

/// `comaltzex_stamp` of the header.
#[repr(C)]
pub(crate) struct Stamp {
    pub(crate) kind: u32,
    pub(crate) first: Moment,
    pub(crate) second: Moment,
}

/// `comaltzex_found_stamp` of the header.
#[repr(C)]
pub(crate) struct FoundStamp {
    pub(crate) kind: u32,
    pub(crate) end: usize,
    pub(crate) first: Moment,
    pub(crate) second: Moment,
}

/// `comaltzex_plan` of the header.
#[repr(C)]
pub(crate) struct Plan {
    pub(crate) number: u32,
    pub(crate) closed: Stamp,
    pub(crate) deadline: Stamp,
    pub(crate) scheduled: Stamp,
}

/// `comaltzex_days` of the header.
#[repr(C)]
pub(crate) struct Days {
    pub(crate) number: u32,
    pub(crate) days: i32,
}

/// `comaltzex_written` of the header.
#[repr(C)]
pub(crate) struct Written {
    pub(crate) number: u32,
    pub(crate) count: usize,
}

/// `comaltzex_taken` of the header.
#[repr(C)]
pub(crate) struct Taken {
    pub(crate) number: u32,
    pub(crate) count: usize,
}

/// `comaltzex_stream` of the header.
#[derive(Clone, Copy, Debug, PartialEq)]
#[repr(C)]
pub(crate) struct Stream {
    pub(crate) total: u32,
    pub(crate) line: u32,
    pub(crate) stars: u32,
    pub(crate) title: u32,
    pub(crate) ended: u32,
}

/// `comaltzex_streamed` of the header.
#[repr(C)]
pub(crate) struct Streamed {
    pub(crate) state: Stream,
    pub(crate) number: u32,
    pub(crate) count: usize,
}

extern "C" {
    fn comaltzex_read(
        text: *const u8,
        text_len: usize,
        table: *mut u32,
        table_len: usize,
    ) -> Reading;

    fn comaltzex_lookup(
        text: *const u8,
        text_len: usize,
        at: usize,
        key: *const u8,
        key_len: usize,
    ) -> Part;

    fn comaltzex_lookup_with_defaults(
        order: *const u8,
        order_len: usize,
        at: usize,
        defaults: *const u8,
        defaults_len: usize,
        key: *const u8,
        key_len: usize,
    ) -> SourcedPart;

    fn comaltzex_find_closer(text: *const u8, text_len: usize, at: usize, end: usize) -> Closer;

    fn comaltzex_timestamp(text: *const u8, text_len: usize, at: usize) -> FoundStamp;

    fn comaltzex_planning(text: *const u8, text_len: usize, at: usize) -> Plan;

    fn comaltzex_days_between(
        year: u32,
        month: u32,
        day: u32,
        second_year: u32,
        second_month: u32,
        second_day: u32,
    ) -> Days;

    fn comaltzex_write_sheet(
        order: *const u8,
        order_len: usize,
        out: *mut u8,
        out_len: usize,
    ) -> Written;

    fn comaltzex_intake(
        book: *mut u8,
        book_len: usize,
        used: usize,
        order: *const u8,
        order_len: usize,
    ) -> Taken;

    fn comaltzex_intake_log(
        book: *mut u8,
        book_len: usize,
        used: usize,
        log: *const u8,
        log_len: usize,
    ) -> Taken;

    fn comaltzex_stream_new() -> Stream;

    fn comaltzex_stream_piece(
        state: Stream,
        bytes: *const u8,
        bytes_len: usize,
        list: *mut u32,
        list_len: usize,
    ) -> Streamed;

    fn comaltzex_stream_end(state: Stream, list: *mut u32, list_len: usize) -> Streamed;

    fn comaltzex_record_size() -> usize;

    fn comaltzex_version() -> u32;
}

/// That the library is the one this crate is for: the structs of another may have
/// other sizes.
fn assert_version() {
    debug_assert_eq!(
        (version(), record_size()),
        (VERSION, RECORD_SIZE),
        "the library has another version or record size than this crate"
    );
}

pub(crate) fn read(text: &[u8], table: &mut [u32]) -> Reading {
    assert_version();
    // SAFETY: each pointer and length are those of one slice, so the pointers are
    // not null and the borrows keep both slices alive and apart. The library
    // stays within these lengths, writes only the table and keeps no pointer.
    unsafe { comaltzex_read(text.as_ptr(), text.len(), table.as_mut_ptr(), table.len()) }
}

pub(crate) fn lookup(text: &[u8], at: usize, key: &[u8]) -> Part {
    assert_version();
    // SAFETY: as in `read`; the library writes nothing, and `at` may be any number.
    unsafe { comaltzex_lookup(text.as_ptr(), text.len(), at, key.as_ptr(), key.len()) }
}

pub(crate) fn lookup_with_defaults(
    order: &[u8],
    at: usize,
    defaults: &[u8],
    key: &[u8],
) -> SourcedPart {
    assert_version();
    // SAFETY: as in `lookup`; the two texts may overlap.
    unsafe {
        comaltzex_lookup_with_defaults(
            order.as_ptr(),
            order.len(),
            at,
            defaults.as_ptr(),
            defaults.len(),
            key.as_ptr(),
            key.len(),
        )
    }
}

pub(crate) fn find_closer(text: &[u8], at: usize, end: usize) -> Closer {
    assert_version();
    // SAFETY: as in `lookup`; `end` too may be any number.
    unsafe { comaltzex_find_closer(text.as_ptr(), text.len(), at, end) }
}

pub(crate) fn timestamp(text: &[u8], at: usize) -> FoundStamp {
    assert_version();
    // SAFETY: as in `lookup`.
    unsafe { comaltzex_timestamp(text.as_ptr(), text.len(), at) }
}

pub(crate) fn planning(text: &[u8], at: usize) -> Plan {
    assert_version();
    // SAFETY: as in `lookup`.
    unsafe { comaltzex_planning(text.as_ptr(), text.len(), at) }
}

pub(crate) fn days_between(first: Date, second: Date) -> Days {
    assert_version();
    let (year, month, day) = (first.year, first.month, first.day);
    // SAFETY: the function takes numbers, any numbers, and touches no memory of the
    // caller's.
    unsafe { comaltzex_days_between(year, month, day, second.year, second.month, second.day) }
}

pub(crate) fn write_sheet(order: &[u8], out: &mut [u8]) -> Written {
    assert_version();
    // SAFETY: as in `read`; the library writes only the output.
    unsafe { comaltzex_write_sheet(order.as_ptr(), order.len(), out.as_mut_ptr(), out.len()) }
}

pub(crate) fn intake(book: &mut [u8], used: usize, order: &[u8]) -> Taken {
    assert_version();
    let (book, length) = (book.as_mut_ptr(), book.len());
    // SAFETY: as in `read`; the library writes only the book, and `used` may be any number.
    unsafe { comaltzex_intake(book, length, used, order.as_ptr(), order.len()) }
}

pub(crate) fn intake_log(book: &mut [u8], used: usize, log: &[u8]) -> Taken {
    assert_version();
    let (book, length) = (book.as_mut_ptr(), book.len());
    // SAFETY: as in `intake`.
    unsafe { comaltzex_intake_log(book, length, used, log.as_ptr(), log.len()) }
}

pub(crate) fn stream_new() -> Stream {
    assert_version();
    // SAFETY: the function takes nothing and touches no memory of the caller's.
    unsafe { comaltzex_stream_new() }
}

pub(crate) fn stream_piece(state: Stream, bytes: &[u8], list: &mut [u32]) -> Streamed {
    assert_version();
    let (list, length) = (list.as_mut_ptr(), list.len());
    // SAFETY: as in `read`; the library writes only the list, and the state may have any numbers.
    unsafe { comaltzex_stream_piece(state, bytes.as_ptr(), bytes.len(), list, length) }
}

pub(crate) fn stream_end(state: Stream, list: &mut [u32]) -> Streamed {
    assert_version();
    // SAFETY: as in `stream_piece`.
    unsafe { comaltzex_stream_end(state, list.as_mut_ptr(), list.len()) }
}

fn record_size() -> usize {
    // SAFETY: the function takes nothing and touches no memory of the caller's.
    unsafe { comaltzex_record_size() }
}

fn version() -> u32 {
    // SAFETY: as in `record_size`.
    unsafe { comaltzex_version() }
}

#[cfg(test)]
mod tests {
    use std::mem::size_of;

    use super::*;

    #[test]
    fn the_library_is_the_one_that_is_declared() {
        assert_eq!(version(), VERSION);
        assert_eq!(record_size(), RECORD_SIZE);
    }

    #[test]
    fn structs_have_the_sizes_of_c() {
        assert_eq!(size_of::<Part>(), 32);
        assert_eq!(size_of::<SourcedPart>(), 32);
        assert_eq!(size_of::<Date>(), 12);
        assert_eq!(size_of::<Moment>(), 60);
        assert_eq!(size_of::<Stamp>(), 124);
        assert_eq!(size_of::<FoundStamp>(), 136);
        assert_eq!(size_of::<Plan>(), 376);
        assert_eq!(size_of::<Days>(), 8);
        assert_eq!(size_of::<Written>(), 16);
        assert_eq!(size_of::<Taken>(), 16);
        assert_eq!(size_of::<Stream>(), 20);
        assert_eq!(size_of::<Streamed>(), 32);
    }

    #[test]
    fn a_refused_order_has_no_count() {
        let long = [&b"\xff\xff"[..], &[b't'; 65_535], b"\x00"].concat();
        let refused: [(u32, &[u8]); 5] = [
            (number::BAD_ORDER, b""),
            (number::BAD_TEXT, b"\x01\x00 \x00"),
            (number::BAD_NAME, b"\x00\x00\x01\x00\x00\x00"),
            (
                number::REPEATED_KEY,
                b"\x00\x00\x02\x01A\x00\x00\x01a\x00\x00",
            ),
            (number::TOO_LONG, &long),
        ];
        for (number, order) in refused {
            let written = write_sheet(order, &mut [0; 40]);
            assert_eq!((written.number, written.count), (number, 0));
        }
    }

    #[test]
    fn a_refused_call_gives_the_bytes_in_use_as_they_were() {
        let order = b"\x00\x00\x02\x07REQUEST\x02\x00r1\x03VIN\x01\x007";
        let refused: [(u32, usize, &[u8]); 5] = [
            (number::BAD_ORDER, 3, b""),
            (number::MISSING_KEY, 3, b"\x00\x00\x00"),
            (number::BAD_USED, 41, order),
            (number::BAD_USED, usize::MAX, order),
            (number::SHORT_OUTPUT, 3, order),
        ];
        for (number, used, order) in refused {
            let taken = intake(&mut [0; 40], used, order);
            assert_eq!((taken.number, taken.count), (number, used));
        }
        let mut book = [0; 100];
        let used = intake(&mut book, 0, order).count;
        let again = intake(&mut book, used, order);
        assert_eq!((again.number, again.count), (number::SEEN, used));
        let cut = intake_log(&mut [0; 40], 3, b"\x00");
        assert_eq!((cut.number, cut.count), (number::CUT_LOG, 3));
    }

    /// The state of these numbers.
    fn stream([total, line, stars, title, ended]: [u32; 5]) -> Stream {
        Stream {
            total,
            line,
            stars,
            title,
            ended,
        }
    }

    /// Checks that a piece is refused: the state and the list are as they were.
    #[track_caller]
    fn check_piece_refused(state: [u32; 5], piece: &[u8], room: usize, wanted: (u32, usize)) {
        let mut list = vec![u32::MAX; room];
        let answer = stream_piece(stream(state), piece, &mut list);
        assert_eq!((answer.number, answer.count), wanted);
        assert_eq!(answer.state, stream(state));
        assert!(list.iter().all(|&number| number == u32::MAX));
    }

    #[track_caller]
    fn check_end_refused(state: [u32; 5], room: usize, wanted: (u32, usize)) {
        let mut list = vec![u32::MAX; room];
        let answer = stream_end(stream(state), &mut list);
        assert_eq!((answer.number, answer.count), wanted);
        assert_eq!(answer.state, stream(state));
        assert!(list.iter().all(|&number| number == u32::MAX));
    }

    #[test]
    fn a_new_stream_is_all_zeros() {
        assert_eq!(stream_new(), stream([0; 5]));
    }

    #[test]
    fn a_refused_piece_gives_the_state_as_it_was() {
        for room in [0, 2, 3, 8] {
            for state in [[3, 3, 1, 1, 1], [0, 0, 0, 0, 2], [0, 1, 0, 0, 0]] {
                for piece in [&b""[..], b"\n", b"* A\n* B\n* C\n", &[b'\n'; 65_537]] {
                    check_piece_refused(state, piece, room, (number::NOT_OPEN, 0));
                }
                check_end_refused(state, room, (number::NOT_OPEN, 0));
            }
            let open = [65_535, 3, 1, 1, 0];
            check_piece_refused(open, b"\n\n", room, (number::TOO_LONG, 0));
            check_piece_refused([0; 5], &[b'\n'; 65_537], room, (number::TOO_LONG, 0));
            check_piece_refused([0; 5], b"* A\n* B\n* C\n", room, (number::NO_ROOM, 3));
        }
        for room in 0..3 {
            check_piece_refused([3, 3, 1, 1, 0], b"\n", room, (number::NO_ROOM, 1));
            check_end_refused([3, 3, 1, 1, 0], room, (number::NO_ROOM, 1));
        }
    }

    #[test]
    fn an_end_that_is_taken_changes_one_number() {
        for state in [
            [0, 0, 0, 0, 0],
            [9, 2, 0, 0, 0],
            [9, 3, 3, 0, 0],
            [9, 5, 2, 1, 0],
        ] {
            let answer = stream_end(stream(state), &mut [0; 3]);
            let [total, line, stars, title, _] = state;
            assert_eq!(answer.state, stream([total, line, stars, title, 1]));
            assert_eq!((answer.number, answer.count), (0, usize::from(title > 0)));
        }
    }
}
