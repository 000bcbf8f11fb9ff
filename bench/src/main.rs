//! How long a reading takes beside a count of byte 10 over the same text and
//! beside an independent plain reader; a search for a closer, a refused lookup, a
//! house default, a timestamp, a planning line, the writing of a sheet, the search of an
//! intake and the headings of a book in pieces beside the count; and a count of days.
//!
//!     bench            prints the table
//!     bench --check    exits with 1 if a limit of `check` is passed

mod check;
mod contest;
mod count;
mod intakes;
mod lists;
mod report;
mod sheets;
mod streams;
mod texts;

use std::env;
use std::process::ExitCode;

fn main() -> ExitCode {
    let arguments: Vec<String> = env::args().skip(1).collect();
    let arguments: Vec<&str> = arguments.iter().map(String::as_str).collect();
    match arguments[..] {
        [] => {
            report::print();
            ExitCode::SUCCESS
        }
        ["--check"] if check::passes() => ExitCode::SUCCESS,
        ["--check"] => ExitCode::FAILURE,
        _ => {
            eprintln!("usage: bench [--check]");
            ExitCode::from(2)
        }
    }
}
