//! The clerk's tool: lists the headings of order books with their VINs and deadlines,
//! or warns of those whose VIN is missing, in the `file:line: text` form that editors
//! jump by. Another property than the VIN may come from the house defaults.
//! `orders --help` tells its use.

mod arguments;
#[path = "../common/contents.rs"]
mod contents;
mod entry;
mod finding;
#[path = "../common/output.rs"]
mod output;
#[path = "../common/printable.rs"]
mod printable;
mod report;
#[path = "../common/shown.rs"]
mod shown;
#[path = "../common/source.rs"]
mod source;
#[path = "../common/status.rs"]
mod status;
#[path = "../common/title.rs"]
mod title;
#[path = "../common/words.rs"]
mod words;

use std::env;
use std::error::Error;
use std::process::ExitCode;

use comaltzex::{LookupRefusal, TEXT_LIMIT};

use arguments::{Command, Request};
use report::Report;
use source::Source;
use status::{complain, complain_of, print, Status};

const PROGRAM: &str = "orders";
const HELP: &str = include_str!("help.txt");
const VERSION: &str = concat!("orders (comaltzex) ", env!("CARGO_PKG_VERSION"), "\n");

fn main() -> ExitCode {
    let status = match arguments::parse(env::args_os().skip(1)) {
        Ok(Command::Help) => print(HELP.as_bytes()).err().unwrap_or(Status::Good),
        Ok(Command::Version) => print(VERSION.as_bytes()).err().unwrap_or(Status::Good),
        Ok(Command::Report(request)) => report_all(&request),
        Err(error) => complain(error.as_bytes()),
    };
    ExitCode::from(status as u8)
}

/// Reports on each book in turn, and gives the worst status. Without the defaults that
/// were asked for, what a drawer lacks would be told wrong, and no book is read.
fn report_all(request: &Request) -> Status {
    match request.defaults.as_ref().map(read_defaults).transpose() {
        Ok(defaults) => report_each(request, defaults.as_deref()),
        Err(status) => status,
    }
}

fn report_each(request: &Request, defaults: Option<&[u8]>) -> Status {
    let mut worst = Status::Good;
    for source in &request.books {
        match report_on(source, request, defaults) {
            Ok(report) => {
                worst = worst.max(status_of(&report));
                if let Err(status) = print(&report.lines) {
                    return worst.max(status);
                }
            }
            Err(error) => worst = complain_of(source.name(), &*error),
        }
    }
    worst
}

fn report_on(
    source: &Source,
    request: &Request,
    defaults: Option<&[u8]>,
) -> Result<Report, Box<dyn Error>> {
    let book = source.contents(TEXT_LIMIT)?;
    Ok(Report::new(source.name(), &book, request, defaults)?)
}

/// The text of the defaults, if it can be looked up. An error is how to end.
fn read_defaults(source: &Source) -> Result<Vec<u8>, Status> {
    match source.contents(TEXT_LIMIT) {
        Ok(text) if text.len() <= TEXT_LIMIT => Ok(text),
        Ok(_) => Err(complain_of(source.name(), &LookupRefusal::TooLong)),
        Err(error) => Err(complain_of(source.name(), &error)),
    }
}

fn status_of(report: &Report) -> Status {
    if report.has_warnings {
        Status::Warned
    } else {
        Status::Good
    }
}
