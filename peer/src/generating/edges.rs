//! Cases and certificates made to stand at one edge: at a reach, and one to either side of it.

use super::random::Random;
use crate::book::{Book, Name, Names};
use crate::case::{Bid, Block, Case, EnergyOffer, Line, Node, Point, RegulationOffer};
use crate::fields::{multipliers_field, schedule_field};
use std::collections::BTreeMap;

/// 2^60 is 10^18 and the product of these two.
const FACTOR: i32 = 262_144;
const COFACTOR: i64 = 583_349_245_479;
const REACH: i64 = 1_000_000_000_000;
const HIGHEST: i32 = 10_000_000;
const FULL: i32 = 1_000_000;

/// A case and its certificates, as fields.
pub struct Edge {
    pub case: Case,
    pub certificates: Vec<Vec<u8>>,
}

fn empty_case(nodes: usize) -> Case {
    Case { nodes: vec![Node::default(); nodes], ..Case::default() }
}

/// The field of the set that has these multipliers, each for the so-manieth row of its code, the
/// rest 0.
fn set(label: u32, case: &Case, multipliers: &[(u8, usize, i64)]) -> Vec<u8> {
    let rows = Names::of(case).rows(case);
    let mut numbers = vec![0; rows.len()];
    let mut counts = BTreeMap::new();
    for (row, number) in rows.iter().zip(&mut numbers) {
        let count = counts.entry(row.code).or_insert(0_usize);
        for (code, which, multiplier) in multipliers {
            if (*code, *which) == (row.code, *count) {
                *number = *multiplier;
            }
        }
        *count += 1;
    }
    multipliers_field(label, &numbers)
}

fn schedule(label: u32, case: &Case, values: &[(Name, i64)]) -> Vec<u8> {
    let names = Names::of(case);
    let mut numbers = vec![0; names.columns.len()];
    for (name, value) in values {
        numbers[names.number(*name)] = *value as i32;
    }
    schedule_field(label, &numbers)
}

fn offer(end_minimum: i32, end_maximum: i32) -> EnergyOffer {
    let blocks = vec![Block { price: HIGHEST, maximum: FULL }];
    EnergyOffer { node: 0, end_minimum, end_maximum, violation_price: HIGHEST, blocks }
}

fn line(admittance: i32, shift: i32) -> Line {
    let points = vec![Point { flow: 0, loss: 0 }, Point { flow: 1, loss: 0 }];
    Line { start: 0, end: 1, admittance, shift, points, ..Line::default() }
}

/// The total of the rows at 2^60, one below and one above, by the end maxima of three offers.
fn total_of_rows(random: &mut Random) -> Edge {
    let mut case = empty_case(1);
    case.offers = vec![offer(0, FULL), offer(0, FACTOR), offer(0, 1)];
    let last = random.pick(&[0, 0, 1, 2]);
    let second = random.pick(&[0, 0, 0, -1]);
    let codes = [(12, 0, REACH), (12, 1, COFACTOR + second), (12, 2, last)];
    Edge { certificates: vec![set(1, &case, &codes)], case }
}

/// The total of the rows at −2^60, by the end minima; the generation is priced out of the columns.
fn total_of_rows_below(random: &mut Random) -> Edge {
    let mut case = empty_case(1);
    case.offers = vec![offer(FULL, 0), offer(FACTOR, 0), offer(1, 0)];
    let last = random.pick(&[0, 0, 1, 2]);
    let second = random.pick(&[0, 0, 0, 1]);
    let amounts = [REACH, COFACTOR - second, last];
    let codes: Vec<_> = (0..3).flat_map(|which| [(9, which, amounts[which]), (13, which, -amounts[which])]).collect();
    Edge { certificates: vec![set(1, &case, &codes)], case }
}

/// The total of the columns at 2^60, one below and one above, by the blocks of three bids.
fn total_of_columns(random: &mut Random) -> Edge {
    let mut case = empty_case(1);
    let bid = |price, maximum| Bid { node: 0, blocks: vec![Block { price, maximum }] };
    case.bids = vec![bid(HIGHEST, FULL), bid(5_833_492, FACTOR), bid(0, 1)];
    let last = random.pick(&[0, 0, 1, 2]);
    let codes = [(14, 1, 45_479 - i64::from(random.once_in(4))), (14, 2, last)];
    Edge { certificates: vec![set(1, &case, &codes)], case }
}

/// The product of a reduced cost and a limit next to 2^60.
fn product_of_column(random: &mut Random) -> Edge {
    let mut case = empty_case(1);
    let maximum = random.pick(&[FULL, FULL - 1]);
    case.bids = vec![Bid { node: 0, blocks: vec![Block { price: HIGHEST, maximum }] }];
    let most = (1_i64 << 60) / i64::from(maximum);
    let past = random.from(0..=1);
    Edge { certificates: vec![set(1, &case, &[(14, 0, most - REACH + past)])], case }
}

/// The product of a row at ±2^60 and at ±(2^60 + 1), and near it, by the side of D.16.2.3.
fn product_of_row(random: &mut Random) -> Edge {
    let mut case = empty_case(2);
    // 2^60 = 2^29 × 2^31, and 2^60 + 1 = (4,097 × 61,681) × 4,562,284,561.
    let (admittance, shift, multiplier) = random.pick(&[
        (1 << 19, 1 << 10, 1_i64 << 31),
        (1 << 15, 1 << 14, 1_i64 << 31),
        (4_097, 61_681, 4_562_284_561),
        (61_681, 4_097, 4_562_284_561),
    ]);
    let shift = random.pick(&[-shift, shift]);
    let multiplier = random.pick(&[-multiplier, multiplier]) + random.pick(&[0, 0, 0, 1, -1]);
    case.lines = vec![line(admittance, shift), line(1, 1)];
    let more = random.from(-1..=1);
    Edge { certificates: vec![set(1, &case, &[(5, 0, multiplier), (5, 1, more)])], case }
}

/// A product of a row next to 2^60 and beyond, where the total before it is −2^59.
fn product_of_row_after(random: &mut Random) -> Edge {
    let mut case = empty_case(2);
    case.lines = vec![line(1 << 19, -(1 << 10)), line(1 << 19, 1 << 10)];
    let codes = [(5, 0, 1 << 30), (5, 1, (1 << 31) + random.from(-1..=1))];
    Edge { certificates: vec![set(1, &case, &codes)], case }
}

/// A product of a reduced cost and a limit next to 2^60, where the total before it is −10^18.
fn product_of_column_after(random: &mut Random) -> Edge {
    let mut case = empty_case(1);
    case.offers = vec![offer(FULL, 0)];
    case.bids = vec![Bid { node: 0, blocks: vec![Block { price: HIGHEST, maximum: FULL }] }];
    let most = (1_i64 << 60) / i64::from(FULL);
    let codes = [(9, 0, REACH), (13, 0, -REACH), (14, 0, most - REACH + random.from(0..=1))];
    Edge { certificates: vec![set(1, &case, &codes)], case }
}

/// The reduced cost of the reference angle at ±2^60 and next to it, or out of reach and back.
fn reference_angle(random: &mut Random) -> Edge {
    let mut case = empty_case(2);
    case.lines = vec![line(FULL, 0), line(FACTOR, 0), line(1, 0), line(FULL, 0), line(FULL, 0)];
    let sign = random.pick(&[-1, 1]);
    let last = random.from(-1..=1);
    let back = if random.once_in(2) { -REACH } else { 0 };
    let codes = [
        (5, 0, sign * REACH),
        (5, 1, sign * COFACTOR),
        (5, 2, sign * last),
        (5, 3, sign * back),
        (5, 4, if random.once_in(3) { sign * back } else { 0 }),
    ];
    Edge { certificates: vec![set(1, &case, &codes)], case }
}

/// The reduced cost of a switch goes out of reach by the second of its rows and comes back by the
/// third, or stays just within.
fn switch(random: &mut Random) -> Edge {
    let mut case = empty_case(1);
    case.offers = vec![offer(0, 0)];
    case.regulations = vec![RegulationOffer {
        offer: 0,
        minimum: FULL,
        maximum: 0,
        violation_price: HIGHEST,
        blocks: vec![Block { price: HIGHEST, maximum: 1 }],
    }];
    // Half of 2^60 in millions, rounded down.
    let half = 576_460_752_303;
    let first = random.pick(&[half, half, REACH]);
    let second = random.pick(&[half, half + 1, REACH]);
    let back = random.pick(&[0, 1, half, REACH]);
    let codes = [(16, 0, first), (17, 0, -second), (18, 0, back)];
    Edge { certificates: vec![set(1, &case, &codes)], case }
}

/// The net benefit at ±10^13 and one past it.
fn net_benefit(random: &mut Random) -> Edge {
    let mut case = empty_case(2);
    let above = random.once_in(2);
    let (main, other) = if above { (0, 0) } else { (HIGHEST, 1) };
    let node = |deficit_price| Node { deficit_maximum: FULL, deficit_price, excess_maximum: FULL, excess_price: 0 };
    case.nodes = vec![node(main), node(other)];
    let bid = |node, price, maximum| Bid { node, blocks: vec![Block { price, maximum }] };
    case.bids = vec![bid(0, HIGHEST, FULL), bid(1, 1, 2)];
    let mut certificates = Vec::new();
    for label in 0..3 {
        let full = i64::from(FULL) - i64::from(random.once_in(5));
        let rest = random.from(0..=2);
        let mut values = vec![(Name::Deficit(0), full), (Name::Deficit(1), rest)];
        if above {
            values.extend([(Name::Purchase(0), full), (Name::BidBlock(0, 0), full)]);
            values.extend([(Name::Purchase(1), rest), (Name::BidBlock(1, 0), rest)]);
        } else {
            values.extend([(Name::Excess(0), full), (Name::Excess(1), rest)]);
        }
        certificates.push(schedule(label, &case, &values));
    }
    Edge { case, certificates }
}

/// A book of so many columns, about 4,000, and what is then laid on it.
fn many_columns(random: &mut Random) -> Edge {
    let columns = random.pick(&[3_998, 3_999, 4_000, 4_000, 4_001, 4_002]);
    let mut case = empty_case(998);
    // 4 columns a node and 1 for the requirement; the bid has one for itself and one a block.
    let blocks = columns - 4 * 998 - 2;
    case.bids = vec![Bid { node: 3, blocks: vec![Block::default(); blocks] }];
    sized(random, case)
}

/// A row of about 500 terms, by lines or by bids at one node.
fn many_terms(random: &mut Random) -> Edge {
    let mut case = empty_case(2);
    if random.once_in(2) {
        case.lines = vec![line(1, 0); random.pick(&[248, 249, 250, 251])];
    } else {
        let bid = Bid { node: 1, blocks: vec![Block { price: 1, maximum: 1 }] };
        case.bids = vec![bid; random.pick(&[496, 497, 498])];
        if random.once_in(2) {
            case.bids.pop();
            case.offers.push(EnergyOffer { node: 1, ..offer(0, 0) });
        }
    }
    sized(random, case)
}

/// All-zero certificates for the case, with the weights of its lines on the point of no flow.
fn sized(random: &mut Random, case: Case) -> Edge {
    let names = Names::of(&case);
    let weights: Vec<_> = (0..case.lines.len()).map(|line| (Name::Weight(line, 0), 100_000)).collect();
    let mut certificates = vec![schedule(1, &case, &weights), set(2, &case, &[])];
    if random.once_in(2) && case.lines.is_empty() {
        let last = names.columns.len() as i64 - 1;
        let column = names.names[random.from(0..=last) as usize];
        certificates.push(schedule(3, &case, &[(column, random.pick(&[-1, 1]))]));
    }
    certificates.rotate_left(random.below(2));
    Edge { case, certificates }
}

/// Certificates of equal figures under different labels, better and worse ones between them.
fn equal_figures(random: &mut Random) -> Edge {
    let mut case = empty_case(1);
    case.nodes[0] = Node { deficit_maximum: 5, deficit_price: 0, excess_maximum: 5, excess_price: 1 };
    case.bids = vec![Bid { node: 0, blocks: vec![Block { price: 1, maximum: 5 }] }];
    let book = Book { rows: Names::of(&case).rows(&case), columns: Names::of(&case).columns };
    let mut certificates = Vec::new();
    for label in 0..8 {
        let label = if random.once_in(4) { random.next() as u32 } else { label };
        if random.once_in(2) {
            let amount = random.from(0..=3);
            let spare = random.from(0..=1);
            let values = [
                (Name::Deficit(0), amount + spare),
                (Name::Excess(0), spare),
                (Name::Purchase(0), amount),
                (Name::BidBlock(0, 0), amount),
            ];
            certificates.push(schedule(label, &case, &values));
        } else {
            let last = book.rows.len() - 1;
            let which = random.pick(&[0, last]);
            let code = book.rows[which].code;
            certificates.push(set(label, &case, &[(code, 0, -random.from(0..=2))]));
        }
    }
    Edge { case, certificates }
}

pub fn edge(random: &mut Random) -> Edge {
    let kinds: [fn(&mut Random) -> Edge; 12] = [
        total_of_rows,
        total_of_rows_below,
        total_of_columns,
        product_of_column,
        product_of_row,
        product_of_row_after,
        product_of_column_after,
        reference_angle,
        switch,
        net_benefit,
        equal_figures,
        |random| if random.once_in(2) { many_columns(random) } else { many_terms(random) },
    ];
    random.pick(&kinds)(random)
}

#[cfg(test)]
mod tests {
    use super::*;
    use crate::text::verdict;

    /// All first lines that an edge prints in so many draws.
    fn lines_of(draws: u64, edge: fn(&mut Random) -> Edge) -> Vec<String> {
        let mut lines: Vec<String> = (0..draws)
            .map(|index| {
                let edge = edge(&mut Random::new(1, index));
                let text = verdict(&[edge.case.bytes(), edge.certificates.concat()].concat());
                text.lines().next().unwrap_or_default().into()
            })
            .collect();
        lines.sort();
        lines.dedup();
        lines
    }

    fn lines(edge: fn(&mut Random) -> Edge) -> Vec<String> {
        lines_of(200, edge)
    }

    #[test]
    fn totals_of_rows() {
        let lines = lines(total_of_rows);
        assert!(lines.contains(&"multipliers 1 accepted 1152921504606846976".into()), "{lines:?}");
        assert!(lines.contains(&"multipliers 1 refused 26 row 9 clause D.19.1.1".into()), "{lines:?}");
    }

    #[test]
    fn totals_of_rows_below() {
        let lines = lines(total_of_rows_below);
        assert!(lines.contains(&"multipliers 1 accepted -1152921504606846976".into()), "{lines:?}");
        assert!(lines.contains(&"multipliers 1 refused 26 row 10 clause D.19.1.2".into()), "{lines:?}");
    }

    #[test]
    fn totals_of_columns() {
        let lines = lines(total_of_columns);
        assert!(lines.contains(&"multipliers 1 accepted 1152921504606846976".into()), "{lines:?}");
        assert!(lines.contains(&"multipliers 1 refused 26 column 9".into()), "{lines:?}");
    }

    #[test]
    fn products_of_rows() {
        let lines = lines(product_of_row);
        assert!(lines.contains(&"multipliers 1 refused 26 row 6 clause D.16.2.3".into()), "{lines:?}");
        assert!(lines.contains(&"multipliers 1 refused 26 row 12 clause D.16.2.3".into()), "{lines:?}");
        assert!(lines.iter().any(|line| line.starts_with("multipliers 1 refused 26 column")), "{lines:?}");
    }

    #[test]
    fn products_of_columns() {
        let lines = lines(product_of_column);
        assert!(lines.contains(&"multipliers 1 refused 26 column 5".into()), "{lines:?}");
        assert!(lines.contains(&"multipliers 1 accepted 1152921504606000000".into()), "{lines:?}");
    }

    #[test]
    fn products_after_a_negative_total() {
        let rows = lines(product_of_row_after);
        assert!(rows.contains(&"multipliers 1 refused 26 row 12 clause D.16.2.3".into()), "{rows:?}");
        assert!(rows.iter().any(|line| line.starts_with("multipliers 1 refused 26 column")), "{rows:?}");
        let columns = lines(product_of_column_after);
        assert!(columns.contains(&"multipliers 1 refused 26 column 9".into()), "{columns:?}");
        assert!(columns.contains(&"multipliers 1 accepted 152921504606000000".into()), "{columns:?}");
    }

    #[test]
    fn switches() {
        let lines = lines(switch);
        assert!(lines.contains(&"multipliers 1 refused 26 column 9".into()), "{lines:?}");
        assert!(lines.iter().any(|line| line.starts_with("multipliers 1 accepted")), "{lines:?}");
    }

    #[test]
    fn reference_angles() {
        let lines = lines(reference_angle);
        assert!(lines.contains(&"multipliers 1 refused 26 column 1".into()), "{lines:?}");
        assert!(lines.contains(&"multipliers 1 refused 26 column 5".into()), "{lines:?}");
    }

    #[test]
    fn net_benefits() {
        let lines = lines(net_benefit);
        for figure in ["accepted 10000000000000", "accepted -10000000000000", "refused 23 offset 0"] {
            assert!(lines.contains(&format!("schedule 0 {figure}")), "{lines:?}");
        }
    }

    #[test]
    fn sizes() {
        let columns = lines_of(12, many_columns);
        assert!(columns.iter().any(|line| line.starts_with("case refused 7")), "{columns:?}");
        assert!(columns.contains(&"schedule 1 accepted 0".into()), "{columns:?}");
        let terms = lines_of(12, many_terms);
        assert!(terms.iter().any(|line| line.starts_with("case refused 7")), "{terms:?}");
        assert!(terms.contains(&"schedule 1 accepted 0".into()), "{terms:?}");
    }
}
