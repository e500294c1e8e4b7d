//! A book as a file in free MPS format, for solvers.

use crate::book::{Book, Column, Row};
use std::fmt::Write;

/// The name of the objective row.
pub const OBJECTIVE: &str = "COST";

/// The book as a minimization of minus its net benefit. Columns are C0, C1, … and rows R0, R1, …;
/// every number is whole and exact. A row of two different sides is an upper side with a range.
pub fn mps_of(book: &Book) -> String {
    let mut text = format!("NAME BOOK\nROWS\n N {OBJECTIVE}\n");
    for (number, row) in book.rows.iter().enumerate() {
        push(&mut text, format_args!(" {} R{number}", kind(row)));
    }
    let mut uses = vec![Vec::new(); book.columns.len()];
    for (number, row) in book.rows.iter().enumerate() {
        row.terms.iter().for_each(|(column, coefficient)| uses[*column].push((number, *coefficient)));
    }
    text += "COLUMNS\n";
    let mut within_marks = false;
    for (number, column) in book.columns.iter().enumerate() {
        if column.switch != within_marks {
            mark(&mut text, number, column.switch);
            within_marks = column.switch;
        }
        push(&mut text, format_args!(" C{number} {OBJECTIVE} {}", -column.price));
        for (row, coefficient) in &uses[number] {
            push(&mut text, format_args!(" C{number} R{row} {coefficient}"));
        }
    }
    if within_marks {
        mark(&mut text, book.columns.len(), false);
    }
    text += "RHS\n";
    for (number, row) in book.rows.iter().enumerate() {
        let side = row.upper.or(row.lower).unwrap_or(0);
        push(&mut text, format_args!(" RHS R{number} {side}"));
    }
    text += "RANGES\n";
    for (number, row) in book.rows.iter().enumerate() {
        if let (Some(lower), Some(upper)) = (row.lower, row.upper)
            && lower < upper
        {
            push(&mut text, format_args!(" RNG R{number} {}", upper - lower));
        }
    }
    text += "BOUNDS\n";
    for (number, Column { lower, upper, .. }) in book.columns.iter().enumerate() {
        if lower == upper {
            push(&mut text, format_args!(" FX BND C{number} {lower}"));
        } else {
            push(&mut text, format_args!(" LO BND C{number} {lower}"));
            push(&mut text, format_args!(" UP BND C{number} {upper}"));
        }
    }
    text + "ENDATA\n"
}

fn kind(row: &Row) -> char {
    match (row.lower, row.upper) {
        (Some(lower), Some(upper)) if lower == upper => 'E',
        (_, Some(_)) => 'L',
        (Some(_), None) => 'G',
        (None, None) => 'N',
    }
}

fn mark(text: &mut String, number: usize, begins: bool) {
    let which = if begins { "INTORG" } else { "INTEND" };
    push(text, format_args!(" M{number} 'MARKER' '{which}'"));
}

fn push(text: &mut String, line: std::fmt::Arguments) {
    writeln!(text, "{line}").expect("writing to a string does not fail");
}

#[cfg(test)]
mod tests {
    use super::*;

    #[test]
    fn small_book() {
        let column = |lower, upper, price, switch| Column { lower, upper, price, switch };
        let row = |lower, upper, terms: &[(usize, i64)]| Row {
            code: 0,
            lower,
            upper,
            terms: terms.iter().copied().collect(),
        };
        let book = Book {
            columns: vec![column(-2, 3, 5, false), column(0, 1, 0, true), column(4, 4, -1, false)],
            rows: vec![
                row(None, Some(2), &[(0, 1)]),
                row(Some(-7), Some(9), &[(0, 6), (1, -8)]),
                row(Some(1), None, &[]),
            ],
        };
        let expected = "NAME BOOK\nROWS\n N COST\n L R0\n L R1\n G R2\nCOLUMNS\n C0 COST -5\n C0 R0 1\n C0 R1 6\n \
                        M1 'MARKER' 'INTORG'\n C1 COST 0\n C1 R1 -8\n M2 'MARKER' 'INTEND'\n C2 COST 1\nRHS\n \
                        RHS R0 2\n RHS R1 9\n RHS R2 1\nRANGES\n RNG R1 16\nBOUNDS\n LO BND C0 -2\n UP BND C0 3\n \
                        LO BND C1 0\n UP BND C1 1\n FX BND C2 4\nENDATA\n";
        assert_eq!(mps_of(&book), expected);
    }
}
