//! `generate SEED INDEX` writes one input of the verdict program to standard output.

use std::io::{self, Write};
use std::process::ExitCode;

fn main() -> ExitCode {
    let numbers: Option<Vec<u64>> = std::env::args().skip(1).map(|word| word.parse().ok()).collect();
    let Some([seed, index]) = numbers.as_deref() else {
        eprintln!("usage: generate SEED INDEX");
        return ExitCode::from(2);
    };
    match io::stdout().lock().write_all(&peer::generating::input(*seed, *index)) {
        Ok(()) => ExitCode::SUCCESS,
        Err(error) => {
            eprintln!("{error}");
            ExitCode::FAILURE
        }
    }
}
