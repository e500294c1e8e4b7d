//! `to_mps` reads a listing from standard input and writes it in free MPS format, as a
//! minimization of minus the net benefit.

use peer::listing::read_listing;
use peer::mps::mps_of;
use std::io::{self, Read, Write};
use std::process::ExitCode;

fn main() -> io::Result<ExitCode> {
    let mut input = Vec::new();
    io::stdin().lock().read_to_end(&mut input)?;
    match read_listing(&input) {
        Ok(book) => {
            io::stdout().lock().write_all(mps_of(&book).as_bytes())?;
            Ok(ExitCode::SUCCESS)
        }
        Err(fault) => {
            eprintln!("listing refused: {fault:?}");
            Ok(ExitCode::FAILURE)
        }
    }
}
