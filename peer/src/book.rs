//! Books: columns and rows, the conditions that every book keeps, and the book over a case.

use crate::case::{Block, Case};
use crate::fields::Fault;
use std::collections::BTreeMap;

pub const MOST_COLUMNS: usize = 4_000;
pub const MOST_ROWS: usize = 4_000;
pub const MOST_TERMS: usize = 500;
pub const LIMIT_REACH: i64 = 20_000_000;
pub const PRICE_REACH: i64 = 10_000_000;
pub const SIDE_REACH: i64 = 10_000_000_000_000_000;
pub const COEFFICIENT_REACH: i64 = 1_000_000;
pub const HIGHEST_CODE: u8 = 19;

/// The rule book's InfinitePositiveValue.
const M: i64 = 1_000_000;
/// The parts of one whole that weights are counted in.
const WHOLE: i64 = 100_000;

#[derive(Clone, Copy, Debug, PartialEq, Eq)]
pub struct Column {
    pub lower: i64,
    pub upper: i64,
    pub price: i64,
    pub switch: bool,
}

/// A row. Its terms map a column to its coefficient.
#[derive(Clone, Debug, Default, PartialEq, Eq)]
pub struct Row {
    pub code: u8,
    pub lower: Option<i64>,
    pub upper: Option<i64>,
    pub terms: BTreeMap<usize, i64>,
}

#[derive(Clone, Debug, Default, PartialEq, Eq)]
pub struct Book {
    pub columns: Vec<Column>,
    pub rows: Vec<Row>,
}

/// What a column of a case stands for. Records are counted from 0 among those of their kind.
#[derive(Clone, Copy, Debug, PartialEq, Eq, PartialOrd, Ord)]
pub enum Name {
    Injection(usize),
    Angle(usize),
    Deficit(usize),
    Excess(usize),
    Flow(usize),
    Loss(usize),
    OverForward(usize),
    OverReverse(usize),
    ShortW(usize),
    OverW(usize),
    Weight(usize, usize),
    Generation(usize),
    OverUp(usize),
    OverDown(usize),
    OfferBlock(usize, usize),
    Purchase(usize),
    BidBlock(usize, usize),
    Regulation(usize),
    Switch(usize),
    OverReg(usize),
    ShortReg(usize),
    RegulationBlock(usize, usize),
    ShortRequirement,
}

/// The clause of a code; none for an added row and for the codes 10 and 11.
pub fn clause(code: u8) -> Option<&'static str> {
    Some(match code {
        1 => "D.16.1.1",
        2 => "D.16.1.2",
        3 => "D.16.2.1",
        4 => "D.16.2.2",
        5 => "D.16.2.3",
        6 => "D.16.3.1",
        7 => "D.16.3.2",
        8 => "D.16.3.3",
        9 => "D.15.1.2",
        12 => "D.19.1.1",
        13 => "D.19.1.2",
        14 => "D.15.2.2",
        15 => "D.18.1.2",
        16 => "D.18.1.3",
        17 => "D.18.1.4",
        18 => "D.18.1.5",
        19 => "D.18.2.1",
        _ => return None,
    })
}

impl Column {
    pub fn fits(&self) -> bool {
        let limits = if self.switch { 0..=1 } else { -LIMIT_REACH..=LIMIT_REACH };
        limits.contains(&self.lower)
            && limits.contains(&self.upper)
            && self.lower <= self.upper
            && (-PRICE_REACH..=PRICE_REACH).contains(&self.price)
    }
}

/// Whether at least one side is present, and the sides are in range and order.
pub fn sides_fit(lower: Option<i64>, upper: Option<i64>) -> bool {
    let in_range = |side: Option<i64>| side.is_none_or(|side| (-SIDE_REACH..=SIDE_REACH).contains(&side));
    let in_order = match (lower, upper) {
        (None, None) => false,
        (Some(lower), Some(upper)) => lower <= upper,
        _ => true,
    };
    in_range(lower) && in_range(upper) && in_order
}

impl Row {
    /// Whether the row keeps the conditions in a book of so many columns.
    pub fn fits(&self, columns: usize) -> bool {
        self.code <= HIGHEST_CODE
            && sides_fit(self.lower, self.upper)
            && self.terms.len() <= MOST_TERMS
            && self.terms.iter().all(|(column, coefficient)| {
                *column < columns && *coefficient != 0 && (-COEFFICIENT_REACH..=COEFFICIENT_REACH).contains(coefficient)
            })
    }

    pub fn activity(&self, schedule: &[i64]) -> i128 {
        self.terms.iter().map(|(column, coefficient)| i128::from(*coefficient) * i128::from(schedule[*column])).sum()
    }

    pub fn is_met(&self, schedule: &[i64]) -> bool {
        let activity = self.activity(schedule);
        self.lower.is_none_or(|side| i128::from(side) <= activity)
            && self.upper.is_none_or(|side| activity <= i128::from(side))
    }
}

impl Book {
    /// Whether the book keeps the conditions.
    pub fn fits(&self) -> bool {
        !self.is_too_large()
            && self.columns.iter().all(Column::fits)
            && self.rows.iter().all(|row| row.fits(self.columns.len()))
    }

    pub fn is_too_large(&self) -> bool {
        self.columns.len() > MOST_COLUMNS
            || self.rows.len() > MOST_ROWS
            || self.rows.iter().any(|row| row.terms.len() > MOST_TERMS)
    }

    pub fn net_benefit(&self, schedule: &[i64]) -> i128 {
        self.columns.iter().zip(schedule).map(|(column, number)| i128::from(column.price) * i128::from(*number)).sum()
    }

    /// The book over a case whose part of the input has `length` bytes, or fault 7.
    pub fn over(case: &Case, length: usize) -> Result<Book, Fault> {
        let names = Names::of(case);
        let book = Book { rows: names.rows(case), columns: names.columns };
        if book.is_too_large() { Err(Fault::at_offset(7, length)) } else { Ok(book) }
    }
}

/// The columns of a case, each with its name, and the number of each name.
#[derive(Clone, Debug, Default)]
pub struct Names {
    pub columns: Vec<Column>,
    pub names: Vec<Name>,
    numbers: BTreeMap<Name, usize>,
}

impl Names {
    pub fn of(case: &Case) -> Names {
        let mut names = Names::default();
        for (number, node) in case.nodes.iter().enumerate() {
            let angle = if number == 0 { 0 } else { M };
            names.push(Name::Injection(number), -LIMIT_REACH, LIMIT_REACH, 0);
            names.push(Name::Angle(number), -angle, angle, 0);
            names.push(Name::Deficit(number), 0, node.deficit_maximum.into(), -i64::from(node.deficit_price));
            names.push(Name::Excess(number), 0, node.excess_maximum.into(), -i64::from(node.excess_price));
        }
        for (number, line) in case.lines.iter().enumerate() {
            names.push(Name::Flow(number), -M, M, 0);
            names.push(Name::Loss(number), 0, M, 0);
            for name in [Name::OverForward, Name::OverReverse, Name::ShortW, Name::OverW] {
                names.push(name(number), 0, M, -i64::from(line.violation_price));
            }
            for point in 0..line.points.len() {
                names.push(Name::Weight(number, point), 0, WHOLE, 0);
            }
        }
        for (number, offer) in case.offers.iter().enumerate() {
            names.push(Name::Generation(number), 0, M, 0);
            names.push(Name::OverUp(number), 0, M, -i64::from(offer.violation_price));
            names.push(Name::OverDown(number), 0, M, -i64::from(offer.violation_price));
            names.push_blocks(|block| Name::OfferBlock(number, block), &offer.blocks, -1);
        }
        for (number, bid) in case.bids.iter().enumerate() {
            names.push(Name::Purchase(number), 0, M, 0);
            names.push_blocks(|block| Name::BidBlock(number, block), &bid.blocks, 1);
        }
        for (number, regulation) in case.regulations.iter().enumerate() {
            names.push(Name::Regulation(number), 0, M, 0);
            names.push(Name::Switch(number), 0, 1, 0);
            names.push(Name::OverReg(number), 0, M, -i64::from(regulation.violation_price));
            names.push(Name::ShortReg(number), 0, M, -i64::from(regulation.violation_price));
            names.push_blocks(|block| Name::RegulationBlock(number, block), &regulation.blocks, -1);
        }
        let requirement = case.requirement;
        let price = -i64::from(requirement.deficit_price);
        names.push(Name::ShortRequirement, 0, requirement.requirement.into(), price);
        names
    }

    fn push(&mut self, name: Name, lower: i64, upper: i64, price: i64) {
        self.numbers.insert(name, self.columns.len());
        self.names.push(name);
        self.columns.push(Column { lower, upper, price, switch: matches!(name, Name::Switch(_)) });
    }

    fn push_blocks(&mut self, name: impl Fn(usize) -> Name, blocks: &[Block], sign: i64) {
        for (number, block) in blocks.iter().enumerate() {
            self.push(name(number), 0, block.maximum.into(), sign * i64::from(block.price));
        }
    }

    /// The number of a column that the case has.
    pub fn number(&self, name: Name) -> usize {
        self.numbers[&name]
    }

    /// The rows of the case that these columns belong to.
    pub fn rows(&self, case: &Case) -> Vec<Row> {
        let allowance = i64::from(case.period.allowance);
        let mut rows = Vec::new();
        let mut add = |code, lower: Option<i64>, upper: Option<i64>, terms: &[(Name, i64)]| {
            let mut row = Row { code, lower, upper, terms: BTreeMap::new() };
            for (name, coefficient) in terms.iter().filter(|term| term.1 != 0) {
                row.terms.insert(self.number(*name), *coefficient);
            }
            rows.push(row);
        };
        let equal = |side| (Some(side), Some(side));
        let widened = |side: i64| (Some(side - allowance), Some(side + allowance));

        for number in 0..case.nodes.len() {
            let here = |node: u16| usize::from(node) == number;
            let mut terms = vec![(Name::Injection(number), 2)];
            for (line, record) in case.lines.iter().enumerate() {
                if here(record.start) {
                    terms.extend([(Name::Flow(line), -2), (Name::Loss(line), -1)]);
                }
                if here(record.end) {
                    terms.extend([(Name::Flow(line), 2), (Name::Loss(line), -1)]);
                }
            }
            let (lower, upper) = widened(0);
            add(1, lower, upper, &terms);

            let mut terms = vec![(Name::Injection(number), 1), (Name::Deficit(number), -1), (Name::Excess(number), 1)];
            let offers = case.offers.iter().enumerate().filter(|(_, offer)| here(offer.node));
            terms.extend(offers.map(|(offer, _)| (Name::Generation(offer), -1)));
            let bids = case.bids.iter().enumerate().filter(|(_, bid)| here(bid.node));
            terms.extend(bids.map(|(bid, _)| (Name::Purchase(bid), 1)));
            add(2, Some(0), Some(0), &terms);
        }

        for (number, line) in case.lines.iter().enumerate() {
            let flow = Name::Flow(number);
            let weights = |of: &dyn Fn(usize) -> i64| -> Vec<(Name, i64)> {
                (0..line.points.len()).map(|point| (Name::Weight(number, point), of(point))).collect()
            };
            add(3, Some(line.reverse_limit.into()), None, &[(flow, 1), (Name::OverReverse(number), 1)]);
            add(4, None, Some(line.forward_limit.into()), &[(flow, 1), (Name::OverForward(number), -1)]);

            let admittance = i64::from(line.admittance);
            let (lower, upper) = widened(admittance * i64::from(line.shift));
            let start = (Name::Angle(line.start.into()), -admittance);
            let end = (Name::Angle(line.end.into()), admittance);
            add(5, lower, upper, &[(flow, 1_000), start, end]);

            let (lower, upper) = widened(0);
            let mut terms = vec![(flow, WHOLE), (Name::ShortW(number), -WHOLE), (Name::OverW(number), WHOLE)];
            terms.extend(weights(&|point| -i64::from(line.points[point].flow)));
            add(6, lower, upper, &terms);

            let mut terms = vec![(Name::Loss(number), WHOLE)];
            terms.extend(weights(&|point| -i64::from(line.points[point].loss)));
            add(7, lower, upper, &terms);

            let (lower, upper) = equal(WHOLE);
            add(8, lower, upper, &weights(&|_| 1));
        }

        for (number, offer) in case.offers.iter().enumerate() {
            let generation = (Name::Generation(number), 1);
            let mut terms = vec![generation];
            terms.extend((0..offer.blocks.len()).map(|block| (Name::OfferBlock(number, block), -1)));
            add(9, Some(0), Some(0), &terms);
            add(12, None, Some(offer.end_maximum.into()), &[generation, (Name::OverUp(number), -1)]);
            add(13, Some(offer.end_minimum.into()), None, &[generation, (Name::OverDown(number), 1)]);
        }

        for (number, bid) in case.bids.iter().enumerate() {
            let mut terms = vec![(Name::Purchase(number), 1)];
            terms.extend((0..bid.blocks.len()).map(|block| (Name::BidBlock(number, block), -1)));
            add(14, Some(0), Some(0), &terms);
        }

        for (number, record) in case.regulations.iter().enumerate() {
            let generation = (Name::Generation(record.offer.into()), 1);
            let regulation = Name::Regulation(number);
            let switch = Name::Switch(number);
            let mut terms = vec![(regulation, 1)];
            terms.extend((0..record.blocks.len()).map(|block| (Name::RegulationBlock(number, block), -1)));
            add(15, Some(0), Some(0), &terms);
            let terms = [generation, (regulation, 1), (Name::OverReg(number), -1), (switch, M)];
            add(16, None, Some(i64::from(record.maximum) + M), &terms);
            let terms = [generation, (regulation, -1), (Name::ShortReg(number), 1), (switch, -M)];
            add(17, Some(i64::from(record.minimum) - M), None, &terms);
            add(18, None, Some(0), &[(regulation, 1), (switch, -M)]);
        }

        let mut terms = vec![(Name::ShortRequirement, 1)];
        terms.extend((0..case.regulations.len()).map(|number| (Name::Regulation(number), 1)));
        add(19, Some(case.requirement.requirement.into()), None, &terms);
        rows
    }
}

#[cfg(test)]
mod tests {
    use super::*;
    use crate::case::{Line, Node, Period, Point, Requirement};

    fn row(code: u8, lower: Option<i64>, upper: Option<i64>, terms: &[(usize, i64)]) -> Row {
        Row { code, lower, upper, terms: terms.iter().copied().collect() }
    }

    #[test]
    fn worked_case() {
        let input = include_bytes!("../../crates/describe/stdin");
        let case = Case::read(input).unwrap();
        let book = Book::over(&case, input.len()).unwrap();
        assert!(book.fits());
        assert_eq!((book.columns.len(), book.rows.len()), (4 + 2 * 4 + 2 + 2 * 5 + 1, 2 + 2 * 3 + 1 + 2 * 4 + 1));
        assert_eq!(book.columns[0], Column { lower: -20_000_000, upper: 20_000_000, price: 0, switch: false });
        assert_eq!(book.columns[1], Column { lower: 0, upper: 0, price: 0, switch: false });
        assert_eq!(book.columns[7], Column { lower: 0, upper: 200_000, price: -20_000, switch: false });
        assert_eq!(book.columns[13], Column { lower: 0, upper: 500_000, price: 100_000, switch: false });
        assert_eq!(book.columns[15], Column { lower: 0, upper: 1, price: 0, switch: true });
        assert_eq!(book.rows[1], row(2, Some(0), Some(0), &[(0, 1), (2, -1), (3, 1), (4, -1), (8, -1), (12, 1)]));
        assert_eq!(
            book.rows[11],
            row(17, Some(180_000 - 1_000_000), None, &[(4, 1), (14, -1), (15, -1_000_000), (17, 1)])
        );
        assert_eq!(book.rows[17], row(19, Some(12_000), None, &[(14, 1), (19, 1), (24, 1)]));
    }

    /// Two nodes and one line: the columns are 0 to 3, 4 to 7, 8 to 13, the weights 14 to 16 and
    /// ShortRequirement 17.
    #[test]
    fn rows_of_a_line() {
        let point = |flow, loss| Point { flow, loss };
        let case = Case {
            period: Period { number: 0, allowance: 3 },
            nodes: vec![Node::default(); 2],
            lines: vec![Line {
                start: 1,
                end: 0,
                forward_limit: 50,
                reverse_limit: -40,
                admittance: 7,
                shift: -2,
                violation_price: 9,
                points: vec![point(-60, 5), point(0, 0), point(60, 6)],
            }],
            requirement: Requirement { requirement: 8, deficit_price: 1 },
            ..Case::default()
        };
        let book = Book::over(&case, 0).unwrap();
        let expected = [
            row(1, Some(-3), Some(3), &[(0, 2), (8, 2), (9, -1)]),
            row(2, Some(0), Some(0), &[(0, 1), (2, -1), (3, 1)]),
            row(1, Some(-3), Some(3), &[(4, 2), (8, -2), (9, -1)]),
            row(2, Some(0), Some(0), &[(4, 1), (6, -1), (7, 1)]),
            row(3, Some(-40), None, &[(8, 1), (11, 1)]),
            row(4, None, Some(50), &[(8, 1), (10, -1)]),
            row(5, Some(-17), Some(-11), &[(1, 7), (5, -7), (8, 1_000)]),
            row(6, Some(-3), Some(3), &[(8, 100_000), (12, -100_000), (13, 100_000), (14, 60), (16, -60)]),
            row(7, Some(-3), Some(3), &[(9, 100_000), (14, -5), (16, -6)]),
            row(8, Some(100_000), Some(100_000), &[(14, 1), (15, 1), (16, 1)]),
            row(19, Some(8), None, &[(17, 1)]),
        ];
        assert_eq!(book.rows, expected);
        assert_eq!(book.columns[13], Column { lower: 0, upper: 1_000_000, price: -9, switch: false });
        assert_eq!(book.columns[14].upper, 100_000);
        assert_eq!(book.columns[17], Column { lower: 0, upper: 8, price: -1, switch: false });
    }

    #[test]
    fn too_large() {
        let mut case = Case { nodes: vec![Node::default(); 999], ..Case::default() };
        assert_eq!(Book::over(&case, 9).unwrap().columns.len(), 3_997);
        case.nodes.push(Node::default());
        assert_eq!(Book::over(&case, 9), Err(Fault::at_offset(7, 9)));
        let line = Line { end: 1, points: vec![Point::default(); 2], ..Line::default() };
        let mut case = Case { nodes: vec![Node::default(); 2], lines: vec![line; 249], ..Case::default() };
        assert_eq!(Book::over(&case, 9).unwrap().rows[0].terms.len(), 499);
        case.lines.push(case.lines[0].clone());
        assert_eq!(Book::over(&case, 9), Err(Fault::at_offset(7, 9)));
    }
}
