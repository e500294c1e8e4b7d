//! `list [ALLOWANCE]` reads a case from standard input and writes the listing of its book, with
//! another allowance than that of the case if one is given.

use peer::book::Book;
use peer::case::Case;
use peer::listing::listing_of;
use std::io::{self, Read, Write};
use std::process::ExitCode;

fn main() -> io::Result<ExitCode> {
    let mut input = Vec::new();
    io::stdin().lock().read_to_end(&mut input)?;
    let allowance = match std::env::args().nth(1).map(|word| word.parse()) {
        Some(Ok(allowance)) => Some(allowance),
        Some(Err(_)) => {
            eprintln!("usage: list [ALLOWANCE]");
            return Ok(ExitCode::from(2));
        }
        None => None,
    };
    let book = Case::read(&input).and_then(|mut case| {
        case.period.allowance = allowance.unwrap_or(case.period.allowance);
        Book::over(&case, input.len())
    });
    match book {
        Ok(book) => {
            io::stdout().lock().write_all(&listing_of(&book))?;
            Ok(ExitCode::SUCCESS)
        }
        Err(fault) => {
            eprintln!("case refused: {fault:?}");
            Ok(ExitCode::FAILURE)
        }
    }
}
