//! `realistic SEED` writes a case of the size of a small power system to standard output.

use std::io::{self, Write};
use std::process::ExitCode;

fn main() -> io::Result<ExitCode> {
    let Some(Ok(seed)) = std::env::args().nth(1).map(|word| word.parse()) else {
        eprintln!("usage: realistic SEED");
        return Ok(ExitCode::from(2));
    };
    io::stdout().lock().write_all(&peer::generating::realistic::case(seed).bytes())?;
    Ok(ExitCode::SUCCESS)
}
