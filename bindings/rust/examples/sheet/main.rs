//! The clerk's pen: writes an order as Org text, from a title and properties on the
//! command line or from a buffer as the site sends it. `sheet --help` tells its use.

mod arguments;
#[path = "../common/contents.rs"]
mod contents;
#[path = "../common/ending.rs"]
mod ending;
#[path = "../common/given.rs"]
mod given;
#[path = "../common/output.rs"]
mod output;
#[path = "../common/printable.rs"]
mod printable;
#[path = "../common/source.rs"]
mod source;

use std::env;
use std::process::ExitCode;

use comaltzex::sheet;

use arguments::Command;
use ending::{complain, print, Status};
use given::{Given, NoOrder};

const PROGRAM: &str = "sheet";
const HELP: &str = include_str!("help.txt");
const VERSION: &str = concat!("sheet (comaltzex) ", env!("CARGO_PKG_VERSION"), "\n");

fn main() -> ExitCode {
    let status = match arguments::parse(env::args_os().skip(1)) {
        Ok(Command::Help) => print(HELP.as_bytes()),
        Ok(Command::Version) => print(VERSION.as_bytes()),
        Ok(Command::Write(order)) => write(&order),
        Err(error) => complain(error.as_bytes(), Status::Failed),
    };
    ExitCode::from(status as u8)
}

fn write(order: &Given) -> Status {
    match order.bytes().map(|bytes| sheet(&bytes)) {
        Ok(Ok(sheet)) => print(&sheet),
        Ok(Err(refusal)) => complain(&order.told(&refusal), Status::Refused),
        Err(NoOrder::Refused(error)) => complain(&order.told(&error), Status::Refused),
        Err(NoOrder::Unread(error)) => complain(&order.told(&error), Status::Failed),
    }
}
