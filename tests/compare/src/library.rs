//! The library under test, through its C ABI. Nothing else here knows that ABI.

use plain_reader::{Date, MomentNumbers, StampNumbers, StreamState, NO_STAMP};

/// The answer of a reading, that of a sheet, and that of an intake call or a log.
#[repr(C)]
struct CountAnswer {
    number: u32,
    count: usize,
}

#[repr(C)]
struct LookupAnswer {
    number: u32,
    start: usize,
    end: usize,
    further: usize,
}

#[repr(C)]
struct DefaultedAnswer {
    number: u32,
    whose: u32,
    start: usize,
    end: usize,
    further: usize,
}

#[repr(C)]
struct FindCloserAnswer {
    found: u32,
    start: usize,
    end: usize,
    compared: usize,
}

#[repr(C)]
struct FoundStamp {
    kind: u32,
    end: usize,
    first: MomentNumbers,
    second: MomentNumbers,
}

#[repr(C)]
struct Plan {
    number: u32,
    closed: StampNumbers,
    deadline: StampNumbers,
    scheduled: StampNumbers,
}

#[repr(C)]
struct Days {
    number: u32,
    days: i32,
}

/// The state of a stream.
#[repr(C)]
struct StreamNumbers {
    total: u32,
    line: u32,
    stars: u32,
    title: u32,
    ended: u32,
}

#[repr(C)]
struct StreamAnswer {
    state: StreamNumbers,
    number: u32,
    count: usize,
}

#[link(name = "comaltzex", kind = "static")]
extern "C" {
    /// `room` is how many numbers the table holds.
    fn comaltzex_read(text: *const u8, len: usize, table: *mut u32, room: usize) -> CountAnswer;

    fn comaltzex_lookup(
        text: *const u8,
        len: usize,
        at: usize,
        key: *const u8,
        key_len: usize,
    ) -> LookupAnswer;

    fn comaltzex_lookup_with_defaults(
        order: *const u8,
        order_len: usize,
        at: usize,
        defaults: *const u8,
        defaults_len: usize,
        key: *const u8,
        key_len: usize,
    ) -> DefaultedAnswer;

    fn comaltzex_find_closer(
        text: *const u8,
        len: usize,
        at: usize,
        end: usize,
    ) -> FindCloserAnswer;

    fn comaltzex_timestamp(text: *const u8, len: usize, at: usize) -> FoundStamp;

    fn comaltzex_planning(text: *const u8, len: usize, at: usize) -> Plan;

    fn comaltzex_days_between(
        year: u32,
        month: u32,
        day: u32,
        second_year: u32,
        second_month: u32,
        second_day: u32,
    ) -> Days;

    fn comaltzex_write_sheet(
        order: *const u8,
        order_len: usize,
        out: *mut u8,
        out_len: usize,
    ) -> CountAnswer;

    fn comaltzex_intake(
        book: *mut u8,
        book_len: usize,
        used: usize,
        order: *const u8,
        order_len: usize,
    ) -> CountAnswer;

    fn comaltzex_intake_log(
        book: *mut u8,
        book_len: usize,
        used: usize,
        log: *const u8,
        log_len: usize,
    ) -> CountAnswer;

    fn comaltzex_stream_new() -> StreamNumbers;

    /// `list_len` is how many numbers the list holds.
    fn comaltzex_stream_piece(
        state: StreamNumbers,
        bytes: *const u8,
        bytes_len: usize,
        list: *mut u32,
        list_len: usize,
    ) -> StreamAnswer;

    fn comaltzex_stream_end(state: StreamNumbers, list: *mut u32, list_len: usize) -> StreamAnswer;
}

/// Reads `text` into `table`; gives the answer's number and count.
pub fn read(text: &[u8], table: &mut [u32]) -> (u32, usize) {
    // SAFETY: both pointers come with the length of the slice they belong to.
    let answer =
        unsafe { comaltzex_read(text.as_ptr(), text.len(), table.as_mut_ptr(), table.len()) };
    (answer.number, answer.count)
}

/// Looks `key` up at byte `at`; gives the answer's number, the value's two ends and the further
/// number.
pub fn lookup(text: &[u8], at: usize, key: &[u8]) -> (u32, usize, usize, usize) {
    // SAFETY: both pointers come with the length of the slice they belong to.
    let answer =
        unsafe { comaltzex_lookup(text.as_ptr(), text.len(), at, key.as_ptr(), key.len()) };
    (answer.number, answer.start, answer.end, answer.further)
}

/// Looks `key` up at byte `at` of `order`, then in `defaults`; gives the answer's number, whose it
/// is, the value's two ends and the further number.
pub fn lookup_with_defaults(
    order: &[u8],
    at: usize,
    defaults: &[u8],
    key: &[u8],
) -> (u32, u32, usize, usize, usize) {
    // SAFETY: each pointer comes with the length of the slice it belongs to.
    let answer = unsafe {
        comaltzex_lookup_with_defaults(
            order.as_ptr(),
            order.len(),
            at,
            defaults.as_ptr(),
            defaults.len(),
            key.as_ptr(),
            key.len(),
        )
    };
    (
        answer.number,
        answer.whose,
        answer.start,
        answer.end,
        answer.further,
    )
}

/// Finds the closer of the opener at byte `at` before byte `end`; gives whether it is found, its
/// line's two ends and how many lines were compared.
pub fn find_closer(text: &[u8], at: usize, end: usize) -> (u32, usize, usize, usize) {
    // SAFETY: the pointer comes with the length of the slice it belongs to.
    let answer = unsafe { comaltzex_find_closer(text.as_ptr(), text.len(), at, end) };
    (answer.found, answer.start, answer.end, answer.compared)
}

/// The timestamp at byte `at`: its end and its numbers.
pub fn timestamp(text: &[u8], at: usize) -> (usize, StampNumbers) {
    // SAFETY: the pointer comes with the length of the slice it belongs to.
    let found = unsafe { comaltzex_timestamp(text.as_ptr(), text.len(), at) };
    let mut numbers = NO_STAMP;
    numbers[0] = found.kind;
    numbers[1..16].copy_from_slice(&found.first);
    numbers[16..].copy_from_slice(&found.second);
    (found.end, numbers)
}

/// The planning of the heading at byte `at`: the answer's number and the stamps.
pub fn planning(text: &[u8], at: usize) -> (u32, [StampNumbers; 3]) {
    // SAFETY: the pointer comes with the length of the slice it belongs to.
    let plan = unsafe { comaltzex_planning(text.as_ptr(), text.len(), at) };
    (plan.number, [plan.closed, plan.deadline, plan.scheduled])
}

/// The days from the first date to the second, after the answer's number.
pub fn days_between(first: Date, second: Date) -> (u32, i32) {
    // SAFETY: the call takes and gives numbers only.
    let answer = unsafe {
        comaltzex_days_between(
            first.year,
            first.month,
            first.day,
            second.year,
            second.month,
            second.day,
        )
    };
    (answer.number, answer.days)
}

/// Writes the sheet of the order in `buffer` into `output`; gives the answer's number and count.
pub fn write_sheet(buffer: &[u8], output: &mut [u8]) -> (u32, usize) {
    // SAFETY: both pointers come with the length of the slice they belong to.
    let answer = unsafe {
        comaltzex_write_sheet(
            buffer.as_ptr(),
            buffer.len(),
            output.as_mut_ptr(),
            output.len(),
        )
    };
    (answer.number, answer.count)
}

/// Takes the order in `buffer` into the book, whose first `used` bytes are in use; gives the answer's
/// number and the bytes in use after it.
pub fn intake(book: &mut [u8], used: usize, buffer: &[u8]) -> (u32, usize) {
    // SAFETY: both pointers come with the length of the slice they belong to.
    let answer = unsafe {
        comaltzex_intake(
            book.as_mut_ptr(),
            book.len(),
            used,
            buffer.as_ptr(),
            buffer.len(),
        )
    };
    (answer.number, answer.count)
}

/// The same for a log of orders.
pub fn intake_log(book: &mut [u8], used: usize, log: &[u8]) -> (u32, usize) {
    // SAFETY: both pointers come with the length of the slice they belong to.
    let answer = unsafe {
        comaltzex_intake_log(book.as_mut_ptr(), book.len(), used, log.as_ptr(), log.len())
    };
    (answer.number, answer.count)
}

/// A stream: its state, which goes by what each call gives, a refused one too.
pub struct Stream {
    pub state: StreamState,
}

impl Stream {
    pub fn new() -> Self {
        // SAFETY: the call takes and gives numbers only.
        let numbers = unsafe { comaltzex_stream_new() };
        Stream {
            state: state_of(numbers),
        }
    }

    /// Hands the stream its next bytes; gives the answer's number and count.
    pub fn piece(&mut self, bytes: &[u8], list: &mut [u32]) -> (u32, usize) {
        // SAFETY: both pointers come with the length of the slice they belong to.
        let answer = unsafe {
            comaltzex_stream_piece(
                numbers_of(self.state),
                bytes.as_ptr(),
                bytes.len(),
                list.as_mut_ptr(),
                list.len(),
            )
        };
        self.state = state_of(answer.state);
        (answer.number, answer.count)
    }

    /// Declares the end; gives the answer's number and count.
    pub fn end(&mut self, list: &mut [u32]) -> (u32, usize) {
        // SAFETY: the pointer comes with the length of the slice it belongs to.
        let answer =
            unsafe { comaltzex_stream_end(numbers_of(self.state), list.as_mut_ptr(), list.len()) };
        self.state = state_of(answer.state);
        (answer.number, answer.count)
    }
}

impl Default for Stream {
    fn default() -> Self {
        Stream::new()
    }
}

fn state_of(numbers: StreamNumbers) -> StreamState {
    StreamState {
        total: numbers.total,
        line: numbers.line,
        stars: numbers.stars,
        title: numbers.title,
        ended: numbers.ended,
    }
}

fn numbers_of(state: StreamState) -> StreamNumbers {
    StreamNumbers {
        total: state.total,
        line: state.line,
        stars: state.stars,
        title: state.title,
        ended: state.ended,
    }
}
