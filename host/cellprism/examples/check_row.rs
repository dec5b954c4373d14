//! Checks one row from a file, or from standard input, and prints what the check says.
//!
//! ```text
//! cargo run --example check_row -- ROW
//! cargo run --example check_row < ROW
//! ```
//!
//! The exit status is 0 where the row is accepted, 1 where it is not, 2 where it cannot be read.
#![forbid(unsafe_code)]

use std::env;
use std::fs::File;
use std::io::{self, Read};
use std::process::ExitCode;

use cellprism::{check_row, ROW_BYTES};

fn main() -> ExitCode {
    let bytes = match env::args_os().nth(1) {
        Some(path) => File::open(path).and_then(read_row),
        None => read_row(io::stdin()),
    };
    match bytes {
        Ok(bytes) => {
            let answer = check_row(&bytes);
            println!("{answer}");
            ExitCode::from(u8::from(!answer.is_accepted()))
        }
        Err(error) => {
            eprintln!("check_row: {error}");
            ExitCode::from(2)
        }
    }
}

/// At most one byte more than a row has: enough to tell that there is too much.
fn read_row(source: impl Read) -> io::Result<Vec<u8>> {
    let mut bytes = Vec::with_capacity(ROW_BYTES + 1);
    source.take(ROW_BYTES as u64 + 1).read_to_end(&mut bytes)?;
    Ok(bytes)
}
