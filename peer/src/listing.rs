//! Listings: a book read from and written as bytes.

use crate::book::{Book, COEFFICIENT_REACH, Column, HIGHEST_CODE, Row, sides_fit};
use crate::fields::{Fault, Fields, Numbers, field_bytes};

pub const COLUMN: u8 = 10;
pub const ROW: u8 = 11;

/// The book whose listing these bytes are, or the first fault of a field, or fault 7.
pub fn read_listing(input: &[u8]) -> Result<Book, Fault> {
    let mut book = Book::default();
    for field in Fields::of(input) {
        let field = field?;
        let refuse = |number| Fault::at_offset(number, field.offset);
        match field.tag {
            COLUMN => {
                let column = read_column(&book, field.body).map_err(refuse)?;
                book.columns.push(column);
            }
            ROW => {
                let row = read_row(&book, field.body).map_err(refuse)?;
                book.rows.push(row);
            }
            _ => return Err(refuse(2)),
        }
    }
    if book.is_too_large() { Err(Fault::at_offset(7, input.len())) } else { Ok(book) }
}

fn read_column(book: &Book, body: &[u8]) -> Result<Column, u8> {
    if !book.rows.is_empty() {
        return Err(3);
    }
    if body.len() != 13 {
        return Err(4);
    }
    let mut numbers = Numbers(body);
    let [lower, upper, price] = std::array::from_fn(|_| i64::from(numbers.i32()));
    let switch = numbers.u8();
    let column = Column { lower, upper, price, switch: switch == 1 };
    if switch <= 1 && column.fits() { Ok(column) } else { Err(5) }
}

fn read_row(book: &Book, body: &[u8]) -> Result<Row, u8> {
    if !body.len().checked_sub(18).is_some_and(|rest| rest.is_multiple_of(6)) {
        return Err(4);
    }
    let mut numbers = Numbers(body);
    let code = numbers.u8();
    let present = numbers.u8();
    let [lower, upper] = std::array::from_fn(|_| numbers.i64());
    let mut terms = Vec::new();
    while !numbers.is_empty() {
        terms.push((usize::from(numbers.u16()), i64::from(numbers.i32())));
    }
    let side = |bit, number| (present & bit != 0).then_some(number);
    let absent_is_zero = (present & 1 != 0 || lower == 0) && (present & 2 != 0 || upper == 0);
    let (lower, upper) = (side(1, lower), side(2, upper));
    let coefficients_in_range =
        terms.iter().all(|(_, coefficient)| (-COEFFICIENT_REACH..=COEFFICIENT_REACH).contains(coefficient));
    if code > HIGHEST_CODE
        || !(1..=3).contains(&present)
        || !absent_is_zero
        || !sides_fit(lower, upper)
        || !coefficients_in_range
    {
        return Err(5);
    }
    if terms.iter().any(|(column, _)| *column >= book.columns.len()) {
        return Err(6);
    }
    let rising = terms.is_sorted_by(|left, right| left.0 < right.0);
    if !rising || terms.iter().any(|(_, coefficient)| *coefficient == 0) {
        return Err(8);
    }
    Ok(Row { code, lower, upper, terms: terms.into_iter().collect() })
}

/// The listing of a book that keeps the conditions.
pub fn listing_of(book: &Book) -> Vec<u8> {
    let narrow = |number: i64| i32::try_from(number).expect("a book keeps the conditions").to_be_bytes();
    let mut bytes = Vec::new();
    for column in &book.columns {
        let mut body = [narrow(column.lower), narrow(column.upper), narrow(column.price)].concat();
        body.push(column.switch.into());
        bytes.extend(field_bytes(COLUMN, &body));
    }
    for row in &book.rows {
        let present = u8::from(row.lower.is_some()) + 2 * u8::from(row.upper.is_some());
        let mut body = vec![row.code, present];
        body.extend(row.lower.unwrap_or(0).to_be_bytes());
        body.extend(row.upper.unwrap_or(0).to_be_bytes());
        for (column, coefficient) in &row.terms {
            body.extend(u16::try_from(*column).expect("a book keeps the conditions").to_be_bytes());
            body.extend(narrow(*coefficient));
        }
        bytes.extend(field_bytes(ROW, &body));
    }
    bytes
}

/// Writes the listing to the front of the buffer and answers its length, or fault 40 with the
/// length needed, and then the buffer is left as it was.
pub fn write_listing(book: &Book, buffer: &mut [u8]) -> Result<usize, Fault> {
    let bytes = listing_of(book);
    match buffer.get_mut(..bytes.len()) {
        Some(front) => {
            front.copy_from_slice(&bytes);
            Ok(bytes.len())
        }
        None => Err(Fault::at_offset(40, bytes.len())),
    }
}

#[cfg(test)]
mod tests {
    use super::*;
    use crate::case::Case;

    fn column(lower: i32, upper: i32, price: i32, switch: u8) -> Vec<u8> {
        let mut body = [lower, upper, price].map(i32::to_be_bytes).concat();
        body.push(switch);
        field_bytes(COLUMN, &body)
    }

    fn row(code: u8, present: u8, lower: i64, upper: i64, terms: &[(u16, i32)]) -> Vec<u8> {
        let mut body = vec![code, present];
        body.extend(lower.to_be_bytes());
        body.extend(upper.to_be_bytes());
        for (column, coefficient) in terms {
            body.extend(column.to_be_bytes());
            body.extend(coefficient.to_be_bytes());
        }
        field_bytes(ROW, &body)
    }

    fn fault(fields: &[Vec<u8>]) -> Fault {
        read_listing(&fields.concat()).unwrap_err()
    }

    #[test]
    fn empty_listing() {
        assert_eq!(read_listing(&[]), Ok(Book::default()));
    }

    #[test]
    fn row_of_the_documents() {
        let bytes = [
            0x0B, 0x00, 0x1E, 0x12, 0x02, 0, 0, 0, 0, 0, 0, 0, 0, 0, 0, 0, 0, 0, 0, 0, 0, 0x00, 0x03, 0x00, 0x00, 0x00,
            0x01, 0x00, 0x04, 0xFF, 0xF0, 0xBD, 0xC0,
        ];
        assert_eq!(row(18, 2, 0, 0, &[(3, 1), (4, -1_000_000)]), bytes);
        let listing = [column(0, 1, 0, 0).repeat(5), bytes.to_vec()].concat();
        let book = read_listing(&listing).unwrap();
        assert_eq!(book.rows[0].upper, Some(0));
        assert_eq!(book.rows[0].lower, None);
        assert_eq!(listing_of(&book), listing);
    }

    #[test]
    fn listing_of_the_worked_case() {
        let input = include_bytes!("../../crates/describe/stdin");
        let book = Book::over(&Case::read(input).unwrap(), input.len()).unwrap();
        let listing = listing_of(&book);
        assert_eq!(read_listing(&listing), Ok(book.clone()));
        let mut buffer = vec![7; listing.len() + 1];
        assert_eq!(write_listing(&book, &mut buffer), Ok(listing.len()));
        assert_eq!(buffer[listing.len()], 7);
        let mut short = vec![7; listing.len() - 1];
        assert_eq!(write_listing(&book, &mut short), Err(Fault::at_offset(40, listing.len())));
        assert!(short.iter().all(|byte| *byte == 7));
    }

    #[test]
    fn faults() {
        let good = column(0, 1, 0, 1);
        let at = Fault::at_offset;
        assert_eq!(fault(&[row(0, 1, 0, 0, &[]), good.clone()]), at(3, 21));
        assert_eq!(fault(&[column(0, 2, 0, 1)]), at(5, 0));
        assert_eq!(fault(&[column(1, 0, 0, 0)]), at(5, 0));
        assert_eq!(fault(&[column(0, 1, 0, 2)]), at(5, 0));
        assert_eq!(fault(&[row(20, 1, 0, 0, &[])]), at(5, 0));
        assert_eq!(fault(&[row(0, 0, 0, 0, &[])]), at(5, 0));
        assert_eq!(fault(&[row(0, 1, 0, 1, &[])]), at(5, 0));
        assert_eq!(fault(&[row(0, 3, 1, 0, &[])]), at(5, 0));
        assert_eq!(fault(&[row(0, 1, 10_000_000_000_000_001, 0, &[])]), at(5, 0));
        assert_eq!(fault(&[good.clone(), row(0, 1, 0, 0, &[(0, 0)])]), at(8, 16));
        assert_eq!(fault(&[good.clone(), row(0, 1, 0, 0, &[(0, 0), (1, 1)])]), at(6, 16));
        assert_eq!(fault(&[good.clone(), row(0, 1, 0, 0, &[(0, 1), (0, 1)])]), at(8, 16));
        assert_eq!(fault(&[good.clone(), row(0, 1, 0, 0, &[(0, 1_000_001), (1, 0)])]), at(5, 16));
        assert_eq!(fault(&[column(0, 0, 0, 0).repeat(4_001)]), at(7, 4_001 * 16));
    }
}
