//! `certify CASE LABEL PRIMAL DUAL` writes a schedule made from the values of the solver's file
//! PRIMAL and a set of multipliers made from the dual values of the file DUAL, as two fields with
//! the label. A file given as `-` is left out.

use peer::case::Case;
use peer::certify::{Solution, multipliers_of, schedule_of};
use peer::fields::{multipliers_field, schedule_field};
use std::fs;
use std::io::{self, Write};
use std::process::ExitCode;

fn main() -> io::Result<ExitCode> {
    let arguments: Vec<String> = std::env::args().skip(1).collect();
    let [case, label, primal, dual] = arguments.as_slice() else {
        eprintln!("usage: certify CASE LABEL PRIMAL DUAL");
        return Ok(ExitCode::from(2));
    };
    let (Ok(case), Ok(label)) = (Case::read(&fs::read(case)?), label.parse()) else {
        eprintln!("the case or the label is unfit");
        return Ok(ExitCode::FAILURE);
    };
    let mut output = io::stdout().lock();
    if primal != "-" {
        let solution = Solution::read(&fs::read_to_string(primal)?);
        output.write_all(&schedule_field(label, &schedule_of(&case, &solution)))?;
    }
    if dual != "-" {
        let solution = Solution::read(&fs::read_to_string(dual)?);
        output.write_all(&multipliers_field(label, &multipliers_of(&case, &solution)))?;
    }
    Ok(ExitCode::SUCCESS)
}
