//! Inputs of the verdict program from a seed and an index: valid and damaged, at every edge.

mod cases;
mod damage;
mod edges;
mod random;
pub mod realistic;
mod sets;

use crate::book::{Book, Names};
use crate::case::Case;
use crate::fields::{field_bytes, multipliers_field, schedule_field};
use crate::text::MOST_BYTES;
use random::Random;

/// The kinds of input take turns by the index.
const KINDS: u64 = 16;

/// The input of a seed and an index. The same two give the same bytes.
pub fn input(seed: u64, index: u64) -> Vec<u8> {
    let mut random = Random::new(seed, index);
    let turn = index / KINDS;
    match index % KINDS {
        0..=3 => small(&mut random).concat(),
        4 => fitted(&mut random).concat(),
        5 => large(&mut random),
        6 => damaged_case(&mut random),
        7 | 8 => changed_case(&mut random, 2 * turn + index % 2),
        9 | 10 => damaged_certificates(&mut random),
        11 | 12 => edge(&mut random),
        13 => cut(seed, turn),
        14 => full(&mut random, turn),
        _ => damaged_bytes(&mut random),
    }
}

/// A case and certificates on it, as fields.
struct Parts {
    case: Vec<Vec<u8>>,
    certificates: Vec<Vec<u8>>,
}

impl Parts {
    fn concat(&self) -> Vec<u8> {
        [self.case.concat(), self.certificates.concat()].concat()
    }
}

fn label(random: &mut Random) -> u32 {
    random.pick(&[0, 1, 2, 7, 255, 65_536, u32::MAX, 1 << 31])
}

/// Certificates on the case, so many; the case is changed so that most schedules meet it.
fn laid(random: &mut Random, mut case: Case, count: usize) -> Parts {
    let schedule = cases::dispatch(random, &mut case);
    let names = Names::of(&case);
    let book = Book { rows: names.rows(&case), columns: names.columns };
    let mut certificates = Vec::new();
    for _ in 0..count {
        let label = label(random);
        certificates.push(match random.below(12) {
            0 | 1 => schedule_field(label, &schedule),
            2..=4 => schedule_field(label, &cases::disturb(random, &book, &schedule)),
            5 => schedule_field(label, &cases::anything(random, &book)),
            6 => multipliers_field(label, &vec![0; book.rows.len()]),
            7 => multipliers_field(label, &sets::one_price(random, &book)),
            8 | 9 => multipliers_field(label, &sets::fitting(random, &book)),
            10 => multipliers_field(label, &sets::strained(random, &book)),
            _ => multipliers_field(label, &sets::anything(random, &book)),
        });
    }
    Parts { case: case.fields(), certificates }
}

fn small(random: &mut Random) -> Parts {
    let size = random.pick(&[0, 1, 2, 4, 8, 20]);
    let case = if random.once_in(3) { of_every_kind(random) } else { cases::case(random, size) };
    let count = random.below(8);
    laid(random, case, count)
}

/// A schedule that meets the case and each number of it moved by one, one certificate each.
fn fitted(random: &mut Random) -> Parts {
    let size = random.pick(&[2, 4, 8]);
    let mut case = if random.once_in(2) { of_every_kind(random) } else { cases::case(random, size) };
    let schedule = cases::dispatch(random, &mut case);
    let mut certificates = vec![schedule_field(0, &schedule)];
    let first = random.below(schedule.len());
    for step in 0..schedule.len().min(24) {
        let column = (first + step) % schedule.len();
        let mut numbers = schedule.clone();
        numbers[column] = numbers[column].wrapping_add(random.pick(&[-1, 1]));
        certificates.push(schedule_field(column as u32, &numbers));
    }
    Parts { case: case.fields(), certificates }
}

/// A case of up to some hundred records, as many certificates as there is room for.
fn large(random: &mut Random) -> Vec<u8> {
    let size = random.pick(&[50, 100, 200, 400, 700]);
    let case = cases::case(random, size);
    let count = 1 + random.below(5);
    let mut parts = laid_if_sized(random, case, count);
    while parts.concat().len() > MOST_BYTES && !parts.certificates.is_empty() {
        parts.certificates.pop();
    }
    parts.concat()
}

/// As `laid`, but with no certificate where a field would be too long for its numbers.
fn laid_if_sized(random: &mut Random, case: Case, count: usize) -> Parts {
    if Names::of(&case).columns.len() < 8_000 {
        laid(random, case, count)
    } else {
        Parts { case: case.fields(), certificates: vec![schedule_field(1, &[])] }
    }
}

fn damaged_case(random: &mut Random) -> Vec<u8> {
    let mut parts = small(random);
    for _ in 0..1 + random.below(3) / 2 {
        damage::case_fields(random, &mut parts.case);
    }
    parts.concat()
}

/// A case with records of every kind.
fn of_every_kind(random: &mut Random) -> Case {
    loop {
        let case = cases::case(random, 6);
        if !case.lines.is_empty() && !case.bids.is_empty() && !case.regulations.is_empty() {
            return case;
        }
    }
}

/// A case with records of every kind and the change whose turn it is.
fn changed_case(random: &mut Random, turn: u64) -> Vec<u8> {
    let case = of_every_kind(random);
    let count = random.below(3);
    let mut parts = laid(random, case, count);
    damage::in_turn(random, &mut parts.case, turn);
    parts.concat()
}

fn damaged_certificates(random: &mut Random) -> Vec<u8> {
    let size = random.pick(&[0, 1, 2, 6]);
    let case = cases::case(random, size);
    let count = 1 + random.below(5);
    let mut parts = laid(random, case, count);
    for _ in 0..1 + random.below(3) {
        damage::certificates(random, &mut parts.certificates);
    }
    parts.concat()
}

fn damaged_bytes(random: &mut Random) -> Vec<u8> {
    if random.once_in(16) {
        let count = random.below(64);
        return random.bytes(count);
    }
    let mut bytes = small(random).concat();
    for _ in 0..1 + random.below(3) {
        damage::input(random, &mut bytes);
    }
    bytes
}

fn edge(random: &mut Random) -> Vec<u8> {
    let edge = edges::edge(random);
    let mut certificates = edge.certificates;
    if random.once_in(8) {
        damage::certificates(random, &mut certificates);
    }
    let bytes = [edge.case.bytes(), certificates.concat()].concat();
    if bytes.len() > MOST_BYTES { edge.case.bytes() } else { bytes }
}

/// One small input of the seed, cut at each of its lengths in turn.
fn cut(seed: u64, turn: u64) -> Vec<u8> {
    let mut draw = 0;
    let mut bytes = loop {
        let mut random = Random::new(seed, u64::MAX - draw);
        let case = cases::case(&mut random, 2);
        let bytes = laid(&mut random, case, 2).concat();
        if (150..=300).contains(&bytes.len()) {
            break bytes;
        }
        draw += 1;
    };
    let length = turn % (bytes.len() as u64 + 1);
    bytes.truncate(length as usize);
    bytes
}

/// An input of 65,535, 65,536 or 65,537 bytes or far more, filled up with certificates.
fn full(random: &mut Random, turn: u64) -> Vec<u8> {
    let length = MOST_BYTES - 1 + (turn % 3) as usize;
    let length = if random.once_in(24) { 2 * MOST_BYTES } else { length };
    let mut bytes = small(random).concat();
    if bytes.len() > length {
        bytes.truncate(length);
    }
    let tag = random.pick(&[20, 21, 21, 5]);
    let most = random.pick(&[0, 4, 30, 4_000, 65_535]);
    while bytes.len() + 3 <= length {
        let room = (length - bytes.len() - 3).min(most);
        let count = random.below(room + 1);
        let count = if length - bytes.len() - 3 <= most { room } else { count };
        let body = random.bytes(count);
        bytes.extend(field_bytes(tag, &body));
    }
    bytes.resize(length, 21);
    bytes
}

#[cfg(test)]
mod tests {
    use super::*;

    #[test]
    fn the_same_input_again() {
        assert_eq!(input(1, 5), input(1, 5));
        assert_ne!(input(1, 16), input(2, 16));
    }
}
