//! `plain-table`: prints the plain reader's table of standard input as document 01 says of the
//! program: a line of numbers for each record, or the refusal.

use std::io::{self, Read, Write};

use plain_reader::{answer, NUMBERS_OF_A_RECORD};

/// "a table of 16,384 numbers", which by order 7 is room for 2,048 records.
const TABLE_LENGTH: usize = 16_384;

fn main() -> io::Result<()> {
    let mut text = Vec::new();
    io::stdin().read_to_end(&mut text)?;
    let mut table = [0; TABLE_LENGTH];
    let printed = match answer(&text, &mut table) {
        (0, count) => {
            let records = table.chunks_exact(NUMBERS_OF_A_RECORD).take(count);
            records.map(line).collect()
        }
        (3, count) => format!("refused 3 {count}\n"),
        (number, _) => format!("refused {number}\n"),
    };
    io::stdout().write_all(printed.as_bytes())
}

fn line(numbers: &[u32]) -> String {
    let words: Vec<String> = numbers.iter().map(u32::to_string).collect();
    words.join(" ") + "\n"
}
