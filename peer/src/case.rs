//! A case: the records of one half hour, read from and written as bytes.

use crate::fields::{Fault, Fields, Numbers, field_bytes};
use std::collections::BTreeSet;
use std::ops::RangeInclusive;

pub const MILLION: i32 = 1_000_000;
pub const HIGHEST_PRICE: i32 = 10_000_000;

pub const PERIOD: u8 = 1;
pub const NODE: u8 = 2;
pub const LINE: u8 = 3;
pub const ENERGY_OFFER: u8 = 4;
pub const BID: u8 = 5;
pub const REGULATION_OFFER: u8 = 6;
pub const REQUIREMENT: u8 = 15;

#[derive(Clone, Copy, Debug, Default, PartialEq, Eq)]
pub struct Period {
    pub number: u32,
    pub allowance: i32,
}

#[derive(Clone, Copy, Debug, Default, PartialEq, Eq)]
pub struct Node {
    pub deficit_maximum: i32,
    pub deficit_price: i32,
    pub excess_maximum: i32,
    pub excess_price: i32,
}

#[derive(Clone, Copy, Debug, Default, PartialEq, Eq)]
pub struct Point {
    pub flow: i32,
    pub loss: i32,
}

#[derive(Clone, Debug, Default, PartialEq, Eq)]
pub struct Line {
    pub start: u16,
    pub end: u16,
    pub forward_limit: i32,
    pub reverse_limit: i32,
    pub admittance: i32,
    pub shift: i32,
    pub violation_price: i32,
    pub points: Vec<Point>,
}

#[derive(Clone, Copy, Debug, Default, PartialEq, Eq)]
pub struct Block {
    pub price: i32,
    pub maximum: i32,
}

#[derive(Clone, Debug, Default, PartialEq, Eq)]
pub struct EnergyOffer {
    pub node: u16,
    pub end_minimum: i32,
    pub end_maximum: i32,
    pub violation_price: i32,
    pub blocks: Vec<Block>,
}

#[derive(Clone, Debug, Default, PartialEq, Eq)]
pub struct Bid {
    pub node: u16,
    pub blocks: Vec<Block>,
}

#[derive(Clone, Debug, Default, PartialEq, Eq)]
pub struct RegulationOffer {
    pub offer: u16,
    pub minimum: i32,
    pub maximum: i32,
    pub violation_price: i32,
    pub blocks: Vec<Block>,
}

#[derive(Clone, Copy, Debug, Default, PartialEq, Eq)]
pub struct Requirement {
    pub requirement: i32,
    pub deficit_price: i32,
}

/// The records of a case. Since tags never fall, the groups in this order are the file order.
#[derive(Clone, Debug, Default, PartialEq, Eq)]
pub struct Case {
    pub period: Period,
    pub nodes: Vec<Node>,
    pub lines: Vec<Line>,
    pub offers: Vec<EnergyOffer>,
    pub bids: Vec<Bid>,
    pub regulations: Vec<RegulationOffer>,
    pub requirement: Requirement,
}

/// The least and greatest number of points or blocks, and the bytes before them, by tag.
fn shape(tag: u8) -> Option<(usize, RangeInclusive<usize>)> {
    Some(match tag {
        PERIOD | REQUIREMENT => (8, 0..=0),
        NODE => (16, 0..=0),
        LINE => (24, 2..=21),
        ENERGY_OFFER => (14, 1..=10),
        BID => (2, 1..=10),
        REGULATION_OFFER => (14, 1..=5),
        _ => return None,
    })
}

fn length_fits(length: usize, before: usize, parts: &RangeInclusive<usize>) -> bool {
    length.checked_sub(before).is_some_and(|rest| rest.is_multiple_of(8) && parts.contains(&(rest / 8)))
}

fn within(numbers: &[i32], range: RangeInclusive<i32>) -> bool {
    numbers.iter().all(|number| range.contains(number))
}

fn power(numbers: &[i32]) -> bool {
    within(numbers, 0..=MILLION)
}

fn cost(price: i32) -> bool {
    within(&[price], 0..=HIGHEST_PRICE)
}

fn blocks_fit(blocks: &[Block]) -> bool {
    let sum: i128 = blocks.iter().map(|block| i128::from(block.maximum)).sum();
    sum <= i128::from(MILLION)
        && blocks.iter().all(|block| power(&[block.maximum]) && within(&[block.price], -HIGHEST_PRICE..=HIGHEST_PRICE))
}

impl Node {
    fn fits(&self) -> bool {
        power(&[self.deficit_maximum, self.excess_maximum]) && cost(self.deficit_price) && cost(self.excess_price)
    }
}

impl Line {
    fn fits(&self) -> bool {
        power(&[self.forward_limit])
            && within(&[self.reverse_limit], -MILLION..=0)
            && within(&[self.admittance], 1..=MILLION)
            && within(&[self.shift], -MILLION..=MILLION)
            && cost(self.violation_price)
            && self.points.iter().all(|point| within(&[point.flow], -MILLION..=MILLION) && power(&[point.loss]))
            && self.points.is_sorted_by(|left, right| left.flow < right.flow)
    }
}

impl EnergyOffer {
    fn fits(&self) -> bool {
        power(&[self.end_minimum, self.end_maximum]) && cost(self.violation_price) && blocks_fit(&self.blocks)
    }
}

impl RegulationOffer {
    fn fits(&self) -> bool {
        power(&[self.minimum, self.maximum]) && cost(self.violation_price) && blocks_fit(&self.blocks)
    }
}

fn read_blocks(numbers: &mut Numbers) -> Vec<Block> {
    let mut blocks = Vec::new();
    while !numbers.is_empty() {
        blocks.push(Block { price: numbers.i32(), maximum: numbers.i32() });
    }
    blocks
}

fn read_points(numbers: &mut Numbers) -> Vec<Point> {
    let mut points = Vec::new();
    while !numbers.is_empty() {
        points.push(Point { flow: numbers.i32(), loss: numbers.i32() });
    }
    points
}

impl Case {
    /// The case whose bytes these are, or the first fault.
    pub fn read(input: &[u8]) -> Result<Case, Fault> {
        let mut case = Case::default();
        let mut seen = BTreeSet::new();
        let mut regulated = BTreeSet::new();
        for field in Fields::of(input) {
            let field = field?;
            let fault = |number| Fault::at_offset(number, field.offset);
            let (before, parts) = shape(field.tag).ok_or(fault(2))?;
            let lower = seen.last().is_some_and(|last| field.tag < *last);
            let second = matches!(field.tag, PERIOD | REQUIREMENT) && seen.contains(&field.tag);
            if lower || second {
                return Err(fault(3));
            }
            if !length_fits(field.body.len(), before, &parts) {
                return Err(fault(4));
            }
            seen.insert(field.tag);
            let (in_range, named) = case.take_record(field.tag, field.body, &mut regulated);
            if !in_range {
                return Err(fault(5));
            }
            if !named {
                return Err(fault(6));
            }
        }
        if [PERIOD, NODE, REQUIREMENT].iter().all(|tag| seen.contains(tag)) {
            Ok(case)
        } else {
            Err(Fault::at_offset(3, input.len()))
        }
    }

    /// Appends the record of a body of fitting length. Says whether its numbers are in range and
    /// whether what it names may be named.
    fn take_record(&mut self, tag: u8, body: &[u8], regulated: &mut BTreeSet<u16>) -> (bool, bool) {
        let mut numbers = Numbers(body);
        let is_node = |node: u16| usize::from(node) < self.nodes.len();
        match tag {
            PERIOD => {
                self.period = Period { number: numbers.u32(), allowance: numbers.i32() };
                (power(&[self.period.allowance]), true)
            }
            NODE => {
                let node = Node {
                    deficit_maximum: numbers.i32(),
                    deficit_price: numbers.i32(),
                    excess_maximum: numbers.i32(),
                    excess_price: numbers.i32(),
                };
                self.nodes.push(node);
                (node.fits(), true)
            }
            LINE => {
                let line = Line {
                    start: numbers.u16(),
                    end: numbers.u16(),
                    forward_limit: numbers.i32(),
                    reverse_limit: numbers.i32(),
                    admittance: numbers.i32(),
                    shift: numbers.i32(),
                    violation_price: numbers.i32(),
                    points: read_points(&mut numbers),
                };
                let named = is_node(line.start) && is_node(line.end) && line.start != line.end;
                let in_range = line.fits();
                self.lines.push(line);
                (in_range, named)
            }
            ENERGY_OFFER => {
                let offer = EnergyOffer {
                    node: numbers.u16(),
                    end_minimum: numbers.i32(),
                    end_maximum: numbers.i32(),
                    violation_price: numbers.i32(),
                    blocks: read_blocks(&mut numbers),
                };
                let answer = (offer.fits(), is_node(offer.node));
                self.offers.push(offer);
                answer
            }
            BID => {
                let bid = Bid { node: numbers.u16(), blocks: read_blocks(&mut numbers) };
                let answer = (blocks_fit(&bid.blocks), is_node(bid.node));
                self.bids.push(bid);
                answer
            }
            REGULATION_OFFER => {
                let regulation = RegulationOffer {
                    offer: numbers.u16(),
                    minimum: numbers.i32(),
                    maximum: numbers.i32(),
                    violation_price: numbers.i32(),
                    blocks: read_blocks(&mut numbers),
                };
                let named = usize::from(regulation.offer) < self.offers.len() && regulated.insert(regulation.offer);
                let in_range = regulation.fits();
                self.regulations.push(regulation);
                (in_range, named)
            }
            _ => {
                self.requirement = Requirement { requirement: numbers.i32(), deficit_price: numbers.i32() };
                (power(&[self.requirement.requirement]) && cost(self.requirement.deficit_price), true)
            }
        }
    }

    /// The fields of the case, in file order. Numbers are written as they are, in range or not.
    pub fn fields(&self) -> Vec<Vec<u8>> {
        let mut fields = vec![field_bytes(
            PERIOD,
            &[self.period.number.to_be_bytes(), self.period.allowance.to_be_bytes()].concat(),
        )];
        for node in &self.nodes {
            let numbers = [node.deficit_maximum, node.deficit_price, node.excess_maximum, node.excess_price];
            fields.push(record(NODE, &[], &numbers, &[]));
        }
        for line in &self.lines {
            let numbers = [line.forward_limit, line.reverse_limit, line.admittance, line.shift, line.violation_price];
            let points: Vec<_> = line.points.iter().map(|point| (point.flow, point.loss)).collect();
            fields.push(record(LINE, &[line.start, line.end], &numbers, &points));
        }
        for offer in &self.offers {
            let numbers = [offer.end_minimum, offer.end_maximum, offer.violation_price];
            fields.push(record(ENERGY_OFFER, &[offer.node], &numbers, &pairs(&offer.blocks)));
        }
        for bid in &self.bids {
            fields.push(record(BID, &[bid.node], &[], &pairs(&bid.blocks)));
        }
        for regulation in &self.regulations {
            let numbers = [regulation.minimum, regulation.maximum, regulation.violation_price];
            fields.push(record(REGULATION_OFFER, &[regulation.offer], &numbers, &pairs(&regulation.blocks)));
        }
        let numbers = [self.requirement.requirement, self.requirement.deficit_price];
        fields.push(record(REQUIREMENT, &[], &numbers, &[]));
        fields
    }

    /// The bytes of the case.
    pub fn bytes(&self) -> Vec<u8> {
        self.fields().concat()
    }
}

fn pairs(blocks: &[Block]) -> Vec<(i32, i32)> {
    blocks.iter().map(|block| (block.price, block.maximum)).collect()
}

fn record(tag: u8, names: &[u16], numbers: &[i32], pairs: &[(i32, i32)]) -> Vec<u8> {
    let mut body = Vec::new();
    names.iter().for_each(|name| body.extend(name.to_be_bytes()));
    numbers.iter().for_each(|number| body.extend(number.to_be_bytes()));
    for (first, second) in pairs {
        body.extend(first.to_be_bytes());
        body.extend(second.to_be_bytes());
    }
    field_bytes(tag, &body)
}

#[cfg(test)]
mod tests {
    use super::*;

    const WORKED: &[u8] = include_bytes!("../../crates/describe/stdin");

    fn fault(input: &[u8]) -> (u8, usize) {
        match Case::read(input).unwrap_err() {
            Fault { number, place: crate::fields::Place::Offset(offset) } => (number, offset),
            fault => panic!("{fault:?}"),
        }
    }

    fn small() -> Case {
        let block = Block { price: 5, maximum: 10 };
        Case {
            period: Period { number: 1, allowance: 0 },
            nodes: vec![Node::default(); 2],
            lines: vec![Line {
                start: 0,
                end: 1,
                admittance: 1,
                points: vec![Point { flow: 0, loss: 0 }, Point { flow: 1, loss: 0 }],
                ..Line::default()
            }],
            offers: vec![EnergyOffer { blocks: vec![block], ..EnergyOffer::default() }],
            bids: vec![Bid { node: 1, blocks: vec![block] }],
            regulations: vec![RegulationOffer { blocks: vec![block], ..RegulationOffer::default() }],
            requirement: Requirement::default(),
        }
    }

    #[test]
    fn worked_case_is_read_and_written() {
        let case = Case::read(WORKED).unwrap();
        assert_eq!((case.nodes.len(), case.offers.len(), case.bids.len(), case.regulations.len()), (1, 2, 1, 2));
        assert_eq!(case.offers[0].blocks, [Block { price: 20_000, maximum: 200_000 }]);
        assert_eq!(case.regulations[0].minimum, 180_000);
        assert_eq!(case.requirement, Requirement { requirement: 12_000, deficit_price: 1_000_000 });
        assert_eq!(case.bytes(), WORKED);
    }

    #[test]
    fn bid_of_the_documents() {
        let bid = [5, 0, 10, 0, 0, 0, 1, 0x86, 0xA0, 0, 7, 0xA1, 0x20];
        let case = Case::read(WORKED).unwrap();
        assert!(case.fields().iter().any(|field| field[..] == bid));
    }

    #[test]
    fn small_case_is_read_again() {
        assert_eq!(Case::read(&small().bytes()), Ok(small()));
    }

    #[test]
    fn missing_records_are_3_at_the_end() {
        assert_eq!(fault(&[]), (3, 0));
        for missing in 0..8 {
            let mut fields = small().fields();
            fields.remove(missing);
            let input = fields.concat();
            match missing {
                0 | 7 => assert_eq!(fault(&input), (3, input.len())),
                // The line names node 1, which is not there.
                1 | 2 => assert_eq!(fault(&input), (6, 11 + 19)),
                // The regulation offer names offer 0, which is not there.
                4 => assert_eq!(fault(&input).0, 6),
                _ => assert!(Case::read(&input).is_ok()),
            }
        }
    }

    #[test]
    fn order_of_tags() {
        let mut fields = small().fields();
        fields.swap(0, 1);
        assert_eq!(fault(&fields.concat()), (3, 19));
        let twice = [WORKED, &[15, 0, 0]].concat();
        assert_eq!(fault(&twice), (3, WORKED.len()));
        // A lower tag is 3 whatever its length, an unknown tag is 2 also where it is lower.
        assert_eq!(fault(&[WORKED, &[2, 0, 0]].concat()), (3, WORKED.len()));
        assert_eq!(fault(&[WORKED, &[0, 0, 0]].concat()), (2, WORKED.len()));
        assert_eq!(fault(&[WORKED, &[0, 0, 1]].concat()), (1, WORKED.len()));
    }

    #[test]
    fn ranges_come_before_references() {
        let mut case = small();
        case.lines[0].start = 9;
        assert_eq!(fault(&case.bytes()), (6, 49));
        case.lines[0].points[1].flow = 0;
        assert_eq!(fault(&case.bytes()), (5, 49));
        case = small();
        case.bids[0].blocks = vec![Block { price: 0, maximum: 500_000 }; 3];
        assert_eq!(fault(&case.bytes()).0, 5);
        case.bids[0].blocks.pop();
        assert!(Case::read(&case.bytes()).is_ok());
    }

    #[test]
    fn one_regulation_offer_for_each_energy_offer() {
        let mut case = small();
        case.regulations.push(case.regulations[0].clone());
        assert_eq!(fault(&case.bytes()).0, 6);
        case.offers.push(case.offers[0].clone());
        case.regulations[1].offer = 1;
        assert!(Case::read(&case.bytes()).is_ok());
    }

    #[test]
    fn a_line_from_a_node_to_itself() {
        let mut case = small();
        case.lines[0].end = 0;
        assert_eq!(fault(&case.bytes()), (6, 49));
    }

    #[test]
    fn lengths() {
        let mut case = small();
        case.bids[0].blocks = vec![Block::default(); 11];
        assert_eq!(fault(&case.bytes()).0, 4);
        case.bids[0].blocks = vec![];
        assert_eq!(fault(&case.bytes()).0, 4);
        case.bids[0].blocks = vec![Block::default(); 10];
        assert!(Case::read(&case.bytes()).is_ok());
        case.regulations[0].blocks = vec![Block::default(); 6];
        assert_eq!(fault(&case.bytes()).0, 4);
    }
}
