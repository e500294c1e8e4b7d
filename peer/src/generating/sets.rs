//! Sets of multipliers.

use super::random::Random;
use crate::book::{Book, Row};
use crate::judging::MULTIPLIER_REACH;

/// The signs that a row has a side for.
fn signs(row: &Row) -> &'static [i64] {
    match (row.lower, row.upper) {
        (Some(_), Some(_)) => &[-1, 1],
        (Some(_), None) => &[-1],
        _ => &[1],
    }
}

/// Multipliers of one size whose signs fit.
pub fn fitting(random: &mut Random, book: &Book) -> Vec<i64> {
    let size = 10_i64.pow(random.below(13) as u32);
    let sparse = random.pick(&[1, 2, 8]);
    book.rows
        .iter()
        .map(|row| if random.below(sparse) == 0 { random.pick(signs(row)) * random.from(0..=size) } else { 0 })
        .collect()
}

/// One price for energy at all nodes, one for regulation; a good bound where the lines are idle.
pub fn one_price(random: &mut Random, book: &Book) -> Vec<i64> {
    let energy = 100_000 * random.number(0..=1_000_000);
    let regulation = 100_000 * random.number(0..=100_000);
    book.rows
        .iter()
        .map(|row| match row.code {
            1 => -energy / 2,
            2 | 9 => energy,
            14 => -energy,
            15 => regulation,
            19 => -regulation,
            _ => 0,
        })
        .collect()
}

/// A fitting set with one multiplier at or past its reach, or of the wrong sign, or a few of these.
pub fn strained(random: &mut Random, book: &Book) -> Vec<i64> {
    let mut set = if random.once_in(2) { vec![0; book.rows.len()] } else { fitting(random, book) };
    for _ in 0..1 + random.below(2) {
        let row = random.below(set.len());
        let sign = random.pick(signs(&book.rows[row]));
        set[row] = match random.below(8) {
            0 => sign * MULTIPLIER_REACH,
            1 => sign * (MULTIPLIER_REACH + 1),
            2 => -sign * (MULTIPLIER_REACH + 1),
            3 => random.pick(&[i64::MIN, i64::MAX]),
            4 => -sign * MULTIPLIER_REACH,
            5 => -sign,
            6 => sign * (MULTIPLIER_REACH - 1),
            _ => sign * random.from(0..=MULTIPLIER_REACH),
        };
    }
    set
}

/// Any numbers.
pub fn anything(random: &mut Random, book: &Book) -> Vec<i64> {
    let size = 10_i64.pow(random.below(14) as u32);
    let any = random.once_in(3);
    book.rows.iter().map(|_| if any { random.next() as i64 } else { random.number(-size..=size) }).collect()
}
