//! Added rows: rows of a layer's own behind those of any other book.

use crate::book::{Book, COEFFICIENT_REACH, MOST_ROWS, Row, sides_fit};
use crate::fields::Fault;

pub const MOST_ADDED: usize = 32;
pub const MOST_ADDED_TERMS: usize = 16;

/// A book with a layer of added rows on it. Layers may stand on layers: `over` starts a new one.
#[derive(Clone, Debug, PartialEq, Eq)]
pub struct AddedRows {
    book: Book,
    added: usize,
}

impl AddedRows {
    pub fn over(book: Book) -> Self {
        AddedRows { book, added: 0 }
    }

    pub fn book(&self) -> &Book {
        &self.book
    }

    pub fn into_book(self) -> Book {
        self.book
    }

    /// Adds a row of code 0 and answers its number, or fault 30 or 31 at the number it would get.
    pub fn add(&mut self, lower: Option<i64>, upper: Option<i64>, terms: &[(usize, i64)]) -> Result<usize, Fault> {
        let number = self.book.rows.len();
        if self.added >= MOST_ADDED || number >= MOST_ROWS {
            return Err(Fault::at_row(30, number));
        }
        let columns = self.book.columns.len();
        let fits = terms.len() <= MOST_ADDED_TERMS
            && sides_fit(lower, upper)
            && terms.is_sorted_by(|left, right| left.0 < right.0)
            && terms.iter().all(|(column, coefficient)| {
                *column < columns && *coefficient != 0 && (-COEFFICIENT_REACH..=COEFFICIENT_REACH).contains(coefficient)
            });
        if !fits {
            return Err(Fault::at_row(31, number));
        }
        self.book.rows.push(Row { code: 0, lower, upper, terms: terms.iter().copied().collect() });
        self.added += 1;
        Ok(number)
    }
}

#[cfg(test)]
mod tests {
    use super::*;
    use crate::book::Column;

    #[test]
    fn added_rows() {
        let column = Column { lower: 0, upper: 1, price: 0, switch: false };
        let mut rows = AddedRows::over(Book { columns: vec![column; 2], rows: vec![] });
        let unfit = |number| Err(Fault::at_row(31, number));
        assert_eq!(rows.add(None, Some(0), &[(0, 1), (1, -1)]), Ok(0));
        assert_eq!(rows.add(None, None, &[]), unfit(1));
        assert_eq!(rows.add(Some(1), Some(0), &[]), unfit(1));
        assert_eq!(rows.add(Some(0), None, &[(1, 1), (0, 1)]), unfit(1));
        assert_eq!(rows.add(Some(0), None, &[(2, 1)]), unfit(1));
        assert_eq!(rows.add(Some(0), None, &[(1, 0)]), unfit(1));
        assert_eq!(rows.add(Some(0), None, &[(1, 1_000_001)]), unfit(1));
        for number in 1..32 {
            assert_eq!(rows.add(Some(0), None, &[]), Ok(number));
        }
        assert_eq!(rows.add(None, None, &[]), Err(Fault::at_row(30, 32)));
        let mut more = AddedRows::over(rows.into_book());
        assert_eq!(more.add(Some(0), None, &[]), Ok(32));
        assert_eq!(more.book().rows.len(), 33);
    }
}
