//! Damage to bytes: to fields of a case, to certificates, and to an input as a whole.

use super::random::Random;
use crate::case::{BID, ENERGY_OFFER, LINE, NODE, PERIOD, REGULATION_OFFER, REQUIREMENT};
use crate::fields::field_bytes;

const MILLION: i64 = 1_000_000;
const PRICE: i64 = 10_000_000;

type Fields = Vec<Vec<u8>>;

/// Offset in the field, lower and upper end of each four-byte number of a whole field of a case.
fn members(field: &[u8]) -> Vec<(usize, i64, i64)> {
    let power = (0, MILLION);
    let cost = (0, PRICE);
    let shift = (-MILLION, MILLION);
    let price = (-PRICE, PRICE);
    let (first, ranges, pair): (usize, Vec<(i64, i64)>, _) = match field[0] {
        PERIOD => (4, vec![power], (power, power)),
        NODE => (0, vec![power, cost, power, cost], (power, power)),
        LINE => (4, vec![power, (-MILLION, 0), (1, MILLION), shift, cost], (shift, power)),
        ENERGY_OFFER | REGULATION_OFFER => (2, vec![power, power, cost], (price, power)),
        BID => (2, vec![], (price, power)),
        _ => (0, vec![power, cost], (power, power)),
    };
    let before = 3 + first;
    let fixed = ranges.iter().enumerate().map(|(place, range)| (before + 4 * place, range.0, range.1));
    let mut members: Vec<_> = fixed.filter(|member| member.0 + 4 <= field.len()).collect();
    let mut place = before + 4 * ranges.len();
    while place + 8 <= field.len() && matches!(field[0], LINE | ENERGY_OFFER | REGULATION_OFFER | BID) {
        members.push((place, pair.0.0, pair.0.1));
        members.push((place + 4, pair.1.0, pair.1.1));
        place += 8;
    }
    members
}

fn put(field: &mut [u8], place: usize, number: i64) {
    field[place..place + 4].copy_from_slice(&(number as i32).to_be_bytes());
}

fn numbers(random: &mut Random, field: &mut [u8]) {
    let members = members(field);
    if members.is_empty() {
        return;
    }
    let (place, low, high) = random.pick(&members);
    let number = match random.below(8) {
        0 => low,
        1 | 2 => low - 1,
        3 => high,
        4 | 5 => high + 1,
        6 => random.pick(&[i64::from(i32::MIN), i64::from(i32::MAX), -1, 0]),
        _ => random.from(i64::from(i32::MIN)..=i64::from(i32::MAX)),
    };
    put(field, place, number);
}

/// Names another record: the last, one past it, the highest number, or any.
fn names(random: &mut Random, field: &mut [u8], nodes: usize, offers: usize) {
    let (places, count): (&[usize], _) = match field[0] {
        LINE => (&[3, 5], nodes),
        ENERGY_OFFER | BID => (&[3], nodes),
        REGULATION_OFFER => (&[3], offers),
        _ => return,
    };
    let place = random.pick(places);
    if field.len() < place + 4 {
        return;
    }
    let name = match random.below(6) {
        0 => count.saturating_sub(1) as u16,
        1 | 2 => count as u16,
        3 => u16::MAX,
        4 if field[0] == LINE => u16::from_be_bytes([field[8 - place], field[9 - place]]),
        _ => random.next() as u16,
    };
    field[place..place + 2].copy_from_slice(&name.to_be_bytes());
}

/// Makes two flows of a line equal or falling, or the maxima of blocks sum to 1,000,000 or one more.
fn order(random: &mut Random, field: &mut [u8]) {
    if !matches!(field[0], LINE..=REGULATION_OFFER) {
        return numbers(random, field);
    }
    let before = before_parts(field[0]);
    let count = field.len().saturating_sub(before) / 8;
    if count == 0 {
        return;
    }
    if field[0] == LINE {
        let from = before + 8 * random.below(count);
        let to = before + 8 * random.below(count);
        field.copy_within(from..from + 4, to);
        return;
    }
    let share = MILLION / count as i64;
    for block in 0..count {
        put(field, before + 8 * block + 4, share);
    }
    let last = MILLION - share * (count as i64 - 1) + random.from(0..=1);
    put(field, before + 4, last);
}

/// Gives the record the least or the most points or blocks, or one beyond these.
fn parts(random: &mut Random, field: &mut Vec<u8>) {
    let (least, most) = match field[0] {
        LINE => (2, 21),
        ENERGY_OFFER | BID => (1, 10),
        REGULATION_OFFER => (1, 5),
        _ => return numbers(random, field),
    };
    if field.len() < before_parts(field[0]) {
        return;
    }
    *field = with_parts(field, random.pick(&[least - 1, least, most, most + 1, most + 1]));
}

/// The record with so many points or blocks: 0, 1, 2 and so on with 0.
fn with_parts(field: &[u8], count: u32) -> Vec<u8> {
    let mut body = field[3..before_parts(field[0])].to_vec();
    for part in 0..count {
        body.extend(part.to_be_bytes());
        body.extend([0; 4]);
    }
    field_bytes(field[0], &body)
}

/// The bytes of a field before its points or blocks.
fn before_parts(tag: u8) -> usize {
    match tag {
        LINE => 27,
        ENERGY_OFFER | REGULATION_OFFER => 17,
        _ => 5,
    }
}

/// A body longer or shorter with the length to match, or a length that does not match.
fn length(random: &mut Random, field: &mut Vec<u8>) {
    if field.len() < 3 {
        return;
    }
    let written = u16::from_be_bytes([field[1], field[2]]);
    if random.once_in(2) {
        let mut body = field[3..].to_vec();
        match random.below(5) {
            0 => body.clear(),
            1 => body.truncate(body.len().saturating_sub(random.pick(&[1, 2, 4, 8, 16]))),
            2 => body.extend(random.bytes(1)),
            3 => body.extend([0; 8]),
            _ => {
                let more = random.pick(&[2, 4, 8, 16, 80, 200]);
                body.extend(random.bytes(more));
            }
        }
        *field = field_bytes(field[0], &body);
    } else {
        let length = match random.below(4) {
            0 => written.wrapping_add(1),
            1 => written.wrapping_sub(1),
            2 => written.wrapping_add(8),
            _ => random.next() as u16,
        };
        field[1..3].copy_from_slice(&length.to_be_bytes());
    }
}

const TAGS: [u8; 18] = [0, 1, 2, 3, 4, 5, 6, 7, 10, 11, 14, 15, 16, 19, 20, 21, 22, 255];

/// One damage to the fields of a case.
pub fn case_fields(random: &mut Random, fields: &mut Fields) {
    let count = |tag| fields.iter().filter(|field| field[0] == tag).count();
    let (nodes, offers) = (count(NODE), count(ENERGY_OFFER));
    let named: Vec<usize> =
        (0..fields.len()).filter(|place| matches!(fields[*place][0], LINE..=REGULATION_OFFER)).collect();
    let any = random.below(fields.len());
    let naming = if named.is_empty() { any } else { random.pick(&named) };
    match random.below(15) {
        0 => {
            fields.remove(any);
        }
        1 => fields.insert(any, fields[any].clone()),
        2 => {
            let moved = fields[any].clone();
            fields.insert(random.below(fields.len() + 1), moved);
        }
        3 => {
            let other = random.below(fields.len());
            fields.swap(any, other);
        }
        4 => fields[any][0] = random.pick(&TAGS),
        5 => length(random, &mut fields[any]),
        6 | 7 => numbers(random, &mut fields[any]),
        8 => names(random, &mut fields[naming], nodes, offers),
        9 => order(random, &mut fields[naming]),
        10 => {
            // A fault of range and one of reference in the same field.
            numbers(random, &mut fields[naming]);
            names(random, &mut fields[naming], nodes, offers);
        }
        11 => {
            let repeated = fields.iter().rposition(|field| field[0] == REGULATION_OFFER);
            let place = repeated.unwrap_or(any);
            fields.insert(place, fields[place].clone());
        }
        12 => {
            let tag = random.pick(&TAGS);
            let length = random.pick(&[0, 1, 8, 16]);
            let body = random.bytes(length);
            fields.insert(random.below(fields.len() + 1), field_bytes(tag, &body));
        }
        13 => parts(random, &mut fields[naming]),
        _ => {
            // No record of one kind is left.
            let tag = random.pick(&RECORDS);
            fields.retain(|field| field[0] != tag);
            if fields.is_empty() {
                fields.push(vec![PERIOD]);
            }
        }
    }
}

const RECORDS: [u8; 7] = [PERIOD, NODE, LINE, ENERGY_OFFER, BID, REGULATION_OFFER, REQUIREMENT];

/// One change of a list of all of a kind: each number at each end of its range and one past it,
/// each count of parts, each name, each kind of record left out, doubled or put last, each tag.
#[derive(Clone, Copy)]
enum Change {
    Number(u8, usize, usize),
    Parts(u8, u32),
    Name(u8, usize, usize),
    Remove(u8),
    Double(u8),
    Last(u8),
    Tag(u8),
    /// Nothing is left but the period and the requirement, or one of them.
    Bare(usize),
}

fn changes() -> Vec<Change> {
    let mut changes = Vec::new();
    for (tag, members) in RECORDS.into_iter().zip([1, 4, 7, 5, 2, 5, 2]) {
        changes.extend((0..4 * members).map(|number| Change::Number(tag, number / 4, number % 4)));
        changes.extend([Change::Remove(tag), Change::Double(tag), Change::Last(tag)]);
    }
    for (tag, counts) in [
        (LINE, [1, 2, 21, 22]),
        (ENERGY_OFFER, [0, 1, 10, 11]),
        (BID, [0, 1, 10, 11]),
        (REGULATION_OFFER, [0, 1, 5, 6]),
    ] {
        changes.extend(counts.map(|count| Change::Parts(tag, count)));
    }
    for (tag, place) in [(LINE, 3), (LINE, 5), (ENERGY_OFFER, 3), (BID, 3), (REGULATION_OFFER, 3)] {
        changes.extend((0..4).map(|which| Change::Name(tag, place, which)));
    }
    changes.extend(TAGS.map(Change::Tag));
    changes.extend((0..3).map(Change::Bare));
    changes
}

/// Makes one change of the list, in turn, in a case that has records of every kind.
pub fn in_turn(random: &mut Random, fields: &mut Fields, turn: u64) {
    let changes = changes();
    let change = changes[(turn % changes.len() as u64) as usize];
    let of_tag = |tag: u8| fields.iter().rposition(|field| field[0] == tag).expect("every kind of record is there");
    let count = |tag: u8| fields.iter().filter(|field| field[0] == tag).count();
    match change {
        Change::Number(tag, member, end) => {
            let field = of_tag(tag);
            let (place, low, high) = members(&fields[field])[member];
            put(&mut fields[field], place, [low, low - 1, high, high + 1][end]);
        }
        Change::Parts(tag, count) => {
            let field = of_tag(tag);
            fields[field] = with_parts(&fields[field], count);
        }
        Change::Name(tag, place, which) => {
            let field = of_tag(tag);
            let count = count(if tag == REGULATION_OFFER { ENERGY_OFFER } else { NODE }) as u16;
            let other = if tag == LINE { 8 - place } else { place };
            let same = u16::from_be_bytes([fields[field][other], fields[field][other + 1]]);
            let name = [count - 1, count, u16::MAX, same][which];
            fields[field][place..place + 2].copy_from_slice(&name.to_be_bytes());
        }
        Change::Remove(tag) => {
            if random.once_in(2) {
                fields.retain(|field| field[0] != tag);
            } else {
                fields.remove(of_tag(tag));
            }
        }
        Change::Double(tag) => {
            let field = of_tag(tag);
            fields.insert(field, fields[field].clone());
        }
        Change::Last(tag) => {
            let field = fields.remove(of_tag(tag));
            fields.push(field);
        }
        Change::Tag(tag) => {
            let field = random.below(fields.len());
            fields[field][0] = tag;
        }
        Change::Bare(which) => {
            let kept: &[u8] = [&[PERIOD, REQUIREMENT][..], &[PERIOD], &[REQUIREMENT]][which];
            fields.retain(|field| kept.contains(&field[0]));
        }
    }
}

/// One damage to the certificates.
pub fn certificates(random: &mut Random, fields: &mut Fields) {
    let any = random.below(fields.len());
    if fields[any].len() < 3 {
        return;
    }
    match random.below(8) {
        0 => {
            let tag = random.pick(&TAGS);
            fields[any][0] = tag;
        }
        1 => fields[any][0] ^= 1,
        2 => {
            let field = &fields[any];
            let mut body = field[3..].to_vec();
            match random.below(4) {
                0 => body.truncate(random.below(5)),
                1 => body.truncate(body.len().saturating_sub(random.pick(&[1, 2, 3, 4, 7, 8]))),
                _ => body.extend([0, 0, 0, 0, 0, 0, 0, 0].iter().take(random.pick(&[1, 3, 4, 8]))),
            }
            if body.len() <= usize::from(u16::MAX) {
                fields[any] = field_bytes(field[0], &body);
            }
        }
        3 => length(random, &mut fields[any]),
        4 => {
            let count = random.below(9);
            let bytes = random.bytes(count);
            let tag = random.pick(&TAGS);
            fields.insert(random.below(fields.len() + 1), field_bytes(tag, &bytes));
        }
        5 => {
            let count = 1 + random.below(9);
            let mut tail = random.bytes(count);
            tail[0] = random.pick(&TAGS);
            fields.push(tail);
        }
        6 => {
            // Heads without labels.
            let tag = random.pick(&[20, 21]);
            let count = random.below(4);
            let body = random.bytes(count);
            fields.insert(any, field_bytes(tag, &body));
        }
        _ => {
            let cut = random.below(fields[any].len() + 1);
            fields.truncate(any + 1);
            fields[any].truncate(cut);
        }
    }
    if fields.is_empty() {
        fields.push(vec![20]);
    }
}

/// One damage to an input as a whole.
pub fn input(random: &mut Random, bytes: &mut Vec<u8>) {
    let place = random.below(bytes.len());
    match random.below(5) {
        0 => bytes.truncate(place),
        1 if !bytes.is_empty() => bytes[place] ^= 1 << random.below(8),
        2 if !bytes.is_empty() => bytes[place] = random.next() as u8,
        3 => {
            let count = 1 + random.below(4);
            let stray = random.bytes(count);
            bytes.splice(place..place, stray);
        }
        _ => {
            let end = (place + random.below(4)).min(bytes.len());
            bytes.drain(place..end);
        }
    }
}
