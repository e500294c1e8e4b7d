//! The docket: schedules and multipliers laid on a book, and what stands.

use crate::book::Book;
use crate::fields::{Fault, MULTIPLIERS, SCHEDULE, read_certificate};
use std::ops::RangeInclusive;

/// Fine units in one unit of net benefit.
pub const FINE: i128 = 100_000;
pub const BENEFIT_REACH: i128 = 10_000_000_000_000;
pub const MULTIPLIER_REACH: i64 = 1_000_000_000_000;
pub const RUNNING_REACH: i128 = 1 << 60;

/// A figure and the label of the certificate that first reached it.
#[derive(Clone, Copy, Debug, PartialEq, Eq)]
pub struct Figure {
    pub label: u32,
    pub value: i128,
}

/// What stands: the best net benefit and the lowest bound, as far as they are there.
#[derive(Clone, Copy, Debug, Default, PartialEq, Eq)]
pub struct Standing {
    pub best: Option<Figure>,
    pub bound: Option<Figure>,
}

impl Standing {
    pub fn gap(&self) -> Option<i128> {
        Some(self.bound?.value - FINE * self.best?.value)
    }
}

pub struct Docket<'a> {
    book: &'a Book,
    /// For each column, the rows that have a term on it, in order, with the coefficient.
    uses: Vec<Vec<(usize, i64)>>,
    standing: Standing,
}

fn within(value: i128, range: RangeInclusive<i128>) -> bool {
    range.contains(&value)
}

/// The value if it lies within ±2^60.
fn running(value: i128) -> Option<i128> {
    within(value, -RUNNING_REACH..=RUNNING_REACH).then_some(value)
}

/// The numbers of the value bytes if there are exactly so many.
fn exact_numbers<const N: usize>(values: &[u8], count: usize) -> Result<Vec<[u8; N]>, Fault> {
    let (numbers, rest) = values.as_chunks::<N>();
    if rest.is_empty() && numbers.len() == count { Ok(numbers.to_vec()) } else { Err(Fault::at_offset(20, 0)) }
}

impl<'a> Docket<'a> {
    pub fn over(book: &'a Book) -> Self {
        let mut uses = vec![Vec::new(); book.columns.len()];
        for (number, row) in book.rows.iter().enumerate() {
            for (column, coefficient) in &row.terms {
                uses[*column].push((number, *coefficient));
            }
        }
        Docket { book, uses, standing: Standing::default() }
    }

    pub fn standing(&self) -> Standing {
        self.standing
    }

    /// Lays a schedule: its net benefit, or the first check that fails.
    pub fn lay_schedule(&mut self, field: &[u8]) -> Result<i128, Fault> {
        let (label, values) = read_certificate(field, SCHEDULE)?;
        let numbers = exact_numbers::<4>(values, self.book.columns.len())?;
        let schedule: Vec<i64> = numbers.into_iter().map(|bytes| i32::from_be_bytes(bytes).into()).collect();
        let value = self.judge_schedule(&schedule)?;
        if self.standing.best.is_none_or(|best| value > best.value) {
            self.standing.best = Some(Figure { label, value });
        }
        Ok(value)
    }

    /// Lays a set of multipliers: its bound, or the first check that fails.
    pub fn lay_multipliers(&mut self, field: &[u8]) -> Result<i128, Fault> {
        let (label, values) = read_certificate(field, MULTIPLIERS)?;
        let numbers = exact_numbers::<8>(values, self.book.rows.len())?;
        let multipliers: Vec<i64> = numbers.into_iter().map(i64::from_be_bytes).collect();
        let value = self.judge_multipliers(&multipliers)?;
        if self.standing.bound.is_none_or(|bound| value < bound.value) {
            self.standing.bound = Some(Figure { label, value });
        }
        Ok(value)
    }

    /// The checks 21 to 23 on one number a column.
    pub fn judge_schedule(&self, schedule: &[i64]) -> Result<i128, Fault> {
        let mut pairs = self.book.columns.iter().zip(schedule);
        if let Some(column) = pairs.position(|(column, number)| !(column.lower..=column.upper).contains(number)) {
            return Err(Fault::at_column(21, column));
        }
        if let Some(row) = self.book.rows.iter().position(|row| !row.is_met(schedule)) {
            return Err(Fault::at_row(22, row));
        }
        let benefit = self.book.net_benefit(schedule);
        if within(benefit, -BENEFIT_REACH..=BENEFIT_REACH) { Ok(benefit) } else { Err(Fault::at_offset(23, 0)) }
    }

    /// The checks 24 to 26 on one number a row.
    pub fn judge_multipliers(&self, multipliers: &[i64]) -> Result<i128, Fault> {
        let reach = -MULTIPLIER_REACH..=MULTIPLIER_REACH;
        if let Some(row) = multipliers.iter().position(|multiplier| !reach.contains(multiplier)) {
            return Err(Fault::at_row(24, row));
        }
        let side = |row: usize| match multipliers[row].signum() {
            1 => self.book.rows[row].upper,
            -1 => self.book.rows[row].lower,
            _ => Some(0),
        };
        let mut sides = Vec::new();
        for row in 0..multipliers.len() {
            sides.push(side(row).ok_or(Fault::at_row(25, row))?);
        }
        let mut total = 0;
        for (row, (multiplier, side)) in multipliers.iter().zip(sides).enumerate() {
            let added = running(i128::from(*multiplier) * i128::from(side));
            total = added.and_then(|added| running(total + added)).ok_or(Fault::at_row(26, row))?;
        }
        for column in 0..self.book.columns.len() {
            let added = self.column_part(column, multipliers);
            total = added.and_then(|added| running(total + added)).ok_or(Fault::at_column(26, column))?;
        }
        Ok(total)
    }

    /// What a column adds to the bound; none if a product or a running value is out of reach.
    fn column_part(&self, number: usize, multipliers: &[i64]) -> Option<i128> {
        let column = &self.book.columns[number];
        let mut reduced = running(FINE * i128::from(column.price))?;
        for (row, coefficient) in &self.uses[number] {
            let product = running(i128::from(multipliers[*row]) * i128::from(*coefficient))?;
            reduced = running(reduced - product)?;
        }
        let limit = match reduced.signum() {
            1 => column.upper,
            -1 => column.lower,
            _ => 0,
        };
        running(reduced * i128::from(limit))
    }
}

#[cfg(test)]
mod tests {
    use super::*;
    use crate::book::{Column, Row};
    use crate::fields::{multipliers_field, schedule_field};

    fn column(lower: i64, upper: i64, price: i64) -> Column {
        Column { lower, upper, price, switch: false }
    }

    fn row(lower: Option<i64>, upper: Option<i64>, terms: &[(usize, i64)]) -> Row {
        Row { code: 1, lower, upper, terms: terms.iter().copied().collect() }
    }

    #[test]
    fn empty_book() {
        let book = Book::default();
        let mut docket = Docket::over(&book);
        assert_eq!(docket.lay_schedule(&schedule_field(1, &[])), Ok(0));
        assert_eq!(docket.lay_multipliers(&multipliers_field(2, &[])), Ok(0));
        assert_eq!(docket.standing().gap(), Some(0));
    }

    /// One column from −2 to 3 at price 5 and one row, at most 2 of it.
    #[test]
    fn small_book() {
        let book = Book { columns: vec![column(-2, 3, 5)], rows: vec![row(None, Some(2), &[(0, 1)])] };
        let mut docket = Docket::over(&book);
        assert_eq!(docket.lay_schedule(&schedule_field(1, &[4])), Err(Fault::at_column(21, 0)));
        assert_eq!(docket.lay_schedule(&schedule_field(1, &[3])), Err(Fault::at_row(22, 0)));
        assert_eq!(docket.lay_schedule(&schedule_field(1, &[])), Err(Fault::at_offset(20, 0)));
        assert_eq!(docket.lay_schedule(&schedule_field(1, &[2])), Ok(10));
        assert_eq!(docket.lay_schedule(&schedule_field(7, &[2])), Ok(10));
        assert_eq!(docket.lay_schedule(&schedule_field(8, &[-2])), Ok(-10));
        // y = 0: 5 × 100,000 × 3. y = 500,000: 2 × 500,000. y = 500,001: the reduced cost is −1.
        assert_eq!(docket.lay_multipliers(&multipliers_field(2, &[0])), Ok(1_500_000));
        assert_eq!(docket.lay_multipliers(&multipliers_field(3, &[500_000])), Ok(1_000_000));
        assert_eq!(docket.lay_multipliers(&multipliers_field(4, &[500_001])), Ok(1_000_004));
        assert_eq!(docket.lay_multipliers(&multipliers_field(4, &[-1])), Err(Fault::at_row(25, 0)));
        let past = MULTIPLIER_REACH + 1;
        assert_eq!(docket.lay_multipliers(&multipliers_field(4, &[-past])), Err(Fault::at_row(24, 0)));
        let standing = docket.standing();
        assert_eq!(standing.best, Some(Figure { label: 1, value: 10 }));
        assert_eq!(standing.bound, Some(Figure { label: 3, value: 1_000_000 }));
        assert_eq!(standing.gap(), Some(0));
    }

    #[test]
    fn net_benefit_out_of_reach() {
        let book = Book { columns: vec![column(0, 1_000_000, 10_000_000), column(-1, 1, 1)], rows: vec![] };
        let docket = Docket::over(&book);
        assert_eq!(docket.judge_schedule(&[1_000_000, 0]), Ok(BENEFIT_REACH));
        assert_eq!(docket.judge_schedule(&[1_000_000, 1]), Err(Fault::at_offset(23, 0)));
        assert_eq!(docket.judge_schedule(&[1_000_000, -1]), Ok(BENEFIT_REACH - 1));
    }

    /// The product of row 0 is 2^60 and that of row 1 adds 1 to it.
    #[test]
    fn reach_of_rows() {
        let sides = |side: i64| row(Some(-side), Some(side), &[]);
        let book = Book { columns: vec![], rows: vec![sides(1 << 50), sides(1)] };
        let docket = Docket::over(&book);
        let edge = 1 << 10;
        assert_eq!(docket.judge_multipliers(&[edge, 0]), Ok(RUNNING_REACH));
        assert_eq!(docket.judge_multipliers(&[-edge, 0]), Ok(RUNNING_REACH));
        assert_eq!(docket.judge_multipliers(&[edge, 1]), Err(Fault::at_row(26, 1)));
        assert_eq!(docket.judge_multipliers(&[edge + 1, 1]), Err(Fault::at_row(26, 0)));
    }

    /// A reduced cost of −2^60 is in reach; one beyond is not, also where it comes back.
    #[test]
    fn reach_of_columns() {
        let any = |terms| row(Some(0), Some(0), terms);
        let book = Book {
            columns: vec![column(0, 1, 0)],
            rows: vec![any(&[(0, 1_000_000)]), any(&[(0, 1_000_000)]), any(&[(0, 1)])],
        };
        let docket = Docket::over(&book);
        let (first, second, third) = (MULTIPLIER_REACH, 152_921_504_606, 846_976);
        assert_eq!(docket.judge_multipliers(&[first, second, third]), Ok(0));
        assert_eq!(docket.judge_multipliers(&[-first, -second, -third]), Ok(RUNNING_REACH));
        let fault = Err(Fault::at_column(26, 0));
        assert_eq!(docket.judge_multipliers(&[first, second, third + 1]), fault);
        assert_eq!(docket.judge_multipliers(&[-first, -second, -third - 1]), fault);
        assert_eq!(docket.judge_multipliers(&[first, second + 1, -1_000_000]), fault);
    }
}
