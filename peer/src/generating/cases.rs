//! Cases of all shapes, and schedules that meet them.

use super::random::Random;
use crate::book::{Book, Name, Names, Row};
use crate::case::{Bid, Block, Case, EnergyOffer, Line, Node, Period, Point, RegulationOffer, Requirement};
use std::collections::BTreeSet;

const MILLION: i64 = 1_000_000;
const PRICE: i64 = 10_000_000;
const WHOLE: i64 = 100_000;

fn power(random: &mut Random) -> i32 {
    random.number(0..=MILLION) as i32
}

fn cost(random: &mut Random) -> i32 {
    random.number(0..=PRICE) as i32
}

/// How many points or blocks: the least, the most, or any number between.
fn parts(random: &mut Random, least: usize, most: usize) -> usize {
    match random.below(6) {
        0 => least,
        1 => most,
        _ => least + random.below(most - least + 1),
    }
}

fn blocks(random: &mut Random, most: usize) -> Vec<Block> {
    let count = parts(random, 1, most);
    let mut left = MILLION;
    (0..count)
        .map(|_| {
            let maximum = random.number(0..=left);
            let maximum = if random.once_in(3) { maximum } else { maximum / 8 };
            left -= maximum;
            Block { price: random.number(-PRICE..=PRICE) as i32, maximum: maximum as i32 }
        })
        .collect()
}

fn points(random: &mut Random) -> Vec<Point> {
    let count = parts(random, 2, 21);
    let step = random.pick(&[1, 10, 1_000, 90_000]);
    let first = if random.once_in(2) { -step * (count as i64 / 2) } else { random.from(-MILLION..=0) };
    let mut flow = first.max(-MILLION);
    let flat = random.once_in(3);
    let mut points: Vec<Point> = Vec::new();
    while points.len() < count && flow <= MILLION {
        let loss = if flat { 0 } else { random.number(0..=20_000) };
        points.push(Point { flow: flow as i32, loss: if random.once_in(40) { 1_000_000 } else { loss as i32 } });
        flow += if random.once_in(4) { random.from(1..=2 * step) } else { step };
    }
    if points.len() < 2 {
        points = vec![Point { flow: -1, loss: 1 }, Point { flow: 0, loss: 0 }];
    }
    points
}

pub fn line(random: &mut Random, nodes: usize) -> Line {
    let start = random.below(nodes);
    let end = (start + 1 + random.below(nodes - 1)) % nodes;
    Line {
        start: start as u16,
        end: end as u16,
        forward_limit: power(random),
        reverse_limit: -power(random),
        admittance: random.number(1..=MILLION) as i32,
        shift: random.number(-MILLION..=MILLION) as i32,
        violation_price: cost(random),
        points: points(random),
    }
}

/// A case with about so many records besides period and requirement, at least one node.
pub fn case(random: &mut Random, size: usize) -> Case {
    let count = |random: &mut Random, share: usize| random.below(size * share / 8 + 2);
    let nodes = 1 + count(random, 2);
    let mut case =
        Case { period: Period { number: random.next() as u32, allowance: power(random) }, ..Case::default() };
    for _ in 0..nodes {
        case.nodes.push(Node {
            deficit_maximum: power(random),
            deficit_price: cost(random),
            excess_maximum: power(random),
            excess_price: cost(random),
        });
    }
    if nodes > 1 {
        for _ in 0..count(random, 3) {
            case.lines.push(line(random, nodes));
        }
    }
    for _ in 0..count(random, 2) {
        case.offers.push(EnergyOffer {
            node: random.below(nodes) as u16,
            end_minimum: power(random),
            end_maximum: power(random),
            violation_price: cost(random),
            blocks: blocks(random, 10),
        });
    }
    for _ in 0..count(random, 2) {
        case.bids.push(Bid { node: random.below(nodes) as u16, blocks: blocks(random, 10) });
    }
    let mut free: Vec<u16> = (0..case.offers.len() as u16).collect();
    for _ in 0..count(random, 2).min(free.len()) {
        let offer = free.swap_remove(random.below(free.len()));
        case.regulations.push(RegulationOffer {
            offer,
            minimum: power(random),
            maximum: power(random),
            violation_price: cost(random),
            blocks: blocks(random, 5),
        });
    }
    case.requirement = Requirement { requirement: power(random), deficit_price: cost(random) };
    if random.once_in(3) || (size >= 50 && !random.once_in(4)) {
        soften(&mut case);
    }
    case
}

/// Makes prices, losses and blocks small, so that the net benefit of many records is within reach
/// and what a node lacks is within the greatest deficit.
fn soften(case: &mut Case) {
    for node in &mut case.nodes {
        node.deficit_price %= 1_000;
        node.excess_price %= 1_000;
    }
    for line in &mut case.lines {
        line.violation_price %= 1_000;
        line.points.iter_mut().for_each(|point| point.loss %= 1_000);
        line.admittance = 1 + line.admittance % 1_000;
        line.shift %= 1_000;
    }
    let offers = case.offers.iter_mut().map(|offer| (&mut offer.violation_price, &mut offer.blocks));
    let regulations = case.regulations.iter_mut().map(|offer| (&mut offer.violation_price, &mut offer.blocks));
    for (price, blocks) in offers.chain(regulations) {
        *price %= 1_000;
        blocks.iter_mut().for_each(soften_block);
    }
    case.bids.iter_mut().flat_map(|bid| &mut bid.blocks).for_each(soften_block);
    case.requirement.deficit_price %= 1_000;
}

fn soften_block(block: &mut Block) {
    block.price %= 10_000;
    block.maximum /= 64;
}

/// A number of each column, set by name.
struct Draft<'a> {
    names: &'a Names,
    numbers: Vec<i64>,
}

impl Draft<'_> {
    fn set(&mut self, name: Name, number: i64) {
        self.numbers[self.names.number(name)] = number;
    }
}

/// A schedule that meets the case in most draws. The case is changed where it stands in the way:
/// shifts of lines, maxima of deficits and excesses, and the allowance.
pub fn dispatch(random: &mut Random, case: &mut Case) -> Vec<i32> {
    let names = Names::of(case);
    let mut draft = Draft { names: &names, numbers: vec![0; names.columns.len()] };
    let exact = random.once_in(2);
    let still = random.once_in(4);

    let angles: Vec<i64> = (0..case.nodes.len())
        .map(|node| match node {
            0 => 0,
            _ if still => 0,
            _ => random.number(-400_000..=400_000),
        })
        .collect();
    for (node, angle) in angles.iter().enumerate() {
        draft.set(Name::Angle(node), *angle);
    }

    // What leaves each node, in half kilowatts.
    let mut leaving = vec![0; case.nodes.len()];
    for (number, line) in case.lines.iter_mut().enumerate() {
        let across = angles[usize::from(line.start)] - angles[usize::from(line.end)];
        let drop = |line: &Line| i64::from(line.admittance) * (across + i64::from(line.shift));
        let off = |drop: i64| drop.abs() > 1_000 * MILLION || (exact && drop % 1_000 != 0);
        if off(drop(line)) {
            let flow = if still { 0 } else { random.number(-200_000..=200_000) };
            line.admittance = 1_000;
            line.shift = (flow - across) as i32;
        }
        let flow = (drop(line) + 500).div_euclid(1_000);
        draft.set(Name::Flow(number), flow);
        draft.set(Name::OverForward(number), (flow - i64::from(line.forward_limit)).max(0));
        draft.set(Name::OverReverse(number), (i64::from(line.reverse_limit) - flow).max(0));

        let mut weights = vec![0; line.points.len()];
        let first = match line.points.iter().position(|point| i64::from(point.flow) >= flow) {
            Some(point) => point,
            None => line.points.len() - 1,
        };
        if exact || first == 0 || random.once_in(4) {
            weights[first] = WHOLE;
        } else {
            weights[first] = random.from(0..=WHOLE);
            weights[first - 1] = WHOLE - weights[first];
        }
        for (point, weight) in weights.iter().enumerate() {
            draft.set(Name::Weight(number, point), *weight);
        }
        let sum = |of: fn(&Point) -> i32| -> i64 {
            line.points.iter().zip(&weights).map(|(point, weight)| i64::from(of(point)) * weight).sum()
        };
        let nearest = |sum: i64| (sum + WHOLE / 2).div_euclid(WHOLE);
        let short = flow - nearest(sum(|point| point.flow));
        draft.set(Name::ShortW(number), short.max(0));
        draft.set(Name::OverW(number), (-short).max(0));
        let loss = nearest(sum(|point| point.loss));
        draft.set(Name::Loss(number), loss);
        leaving[usize::from(line.start)] += 2 * flow + loss;
        leaving[usize::from(line.end)] += loss - 2 * flow;
    }

    let fill = |random: &mut Random, blocks: &[Block]| -> Vec<i64> {
        let scale = random.pick(&[0, 1, 4, 4]);
        blocks.iter().map(|block| random.number(0..=i64::from(block.maximum)).min(scale * MILLION)).collect()
    };
    let mut lacking: Vec<i64> = leaving.iter().map(|half| half.div_euclid(2)).collect();
    for (node, injection) in lacking.iter().enumerate() {
        draft.set(Name::Injection(node), *injection);
    }
    let mut generations = Vec::new();
    for (number, offer) in case.offers.iter().enumerate() {
        let filled = fill(random, &offer.blocks);
        for (block, amount) in filled.iter().enumerate() {
            draft.set(Name::OfferBlock(number, block), *amount);
        }
        let generation: i64 = filled.iter().sum();
        draft.set(Name::Generation(number), generation);
        draft.set(Name::OverUp(number), (generation - i64::from(offer.end_maximum)).max(0));
        draft.set(Name::OverDown(number), (i64::from(offer.end_minimum) - generation).max(0));
        lacking[usize::from(offer.node)] -= generation;
        generations.push(generation);
    }
    for (number, bid) in case.bids.iter().enumerate() {
        let filled = fill(random, &bid.blocks);
        for (block, amount) in filled.iter().enumerate() {
            draft.set(Name::BidBlock(number, block), *amount);
        }
        let purchase: i64 = filled.iter().sum();
        draft.set(Name::Purchase(number), purchase);
        lacking[usize::from(bid.node)] += purchase;
    }
    for (number, node) in case.nodes.iter_mut().enumerate() {
        let spare = if random.once_in(6) { random.number(0..=1_000) } else { 0 };
        let deficit = lacking[number].max(0) + spare;
        let excess = (-lacking[number]).max(0) + spare;
        draft.set(Name::Deficit(number), deficit);
        draft.set(Name::Excess(number), excess);
        let widen = |maximum: &mut i32, amount: i64| {
            if i64::from(*maximum) < amount && amount <= MILLION {
                *maximum = amount as i32;
            }
        };
        widen(&mut node.deficit_maximum, deficit);
        widen(&mut node.excess_maximum, excess);
    }

    let mut regulated = 0;
    for (number, record) in case.regulations.iter().enumerate() {
        let on = !random.once_in(3);
        let filled = if on { fill(random, &record.blocks) } else { vec![0; record.blocks.len()] };
        for (block, amount) in filled.iter().enumerate() {
            draft.set(Name::RegulationBlock(number, block), *amount);
        }
        let regulation: i64 = filled.iter().sum();
        let generation = generations[usize::from(record.offer)];
        draft.set(Name::Regulation(number), regulation);
        if on {
            draft.set(Name::Switch(number), 1);
            draft.set(Name::OverReg(number), (generation + regulation - i64::from(record.maximum)).max(0));
            draft.set(Name::ShortReg(number), (i64::from(record.minimum) - generation + regulation).max(0));
        }
        regulated += regulation;
    }
    let short = (i64::from(case.requirement.requirement) - regulated).max(0);
    draft.set(Name::ShortRequirement, short);

    // The least allowance that the schedule needs, if the allowance is not above it anyway.
    let without = Case { period: Period { allowance: 0, ..case.period }, ..case.clone() };
    let needed = Names::of(&without)
        .rows(&without)
        .iter()
        .filter(|row| matches!(row.code, 1 | 5 | 6 | 7))
        .map(|row| (row.activity(&draft.numbers) - i128::from(row.lower.unwrap_or(0))).unsigned_abs())
        .max()
        .unwrap_or(0);
    let tight = random.once_in(2);
    if needed <= MILLION as u128 && (tight || (case.period.allowance as u128) < needed) {
        case.period.allowance = needed as i32;
    }
    draft.numbers.iter().map(|number| *number as i32).collect()
}

/// The schedule changed a little: one number in one column, or several.
pub fn disturb(random: &mut Random, book: &Book, schedule: &[i32]) -> Vec<i32> {
    let mut numbers = schedule.to_vec();
    let last = numbers.len() - 1;
    let column = random.below(numbers.len());
    let nudge = random.pick(&[-1, 1]);
    match random.below(8) {
        0 => numbers[column] = (book.columns[column].upper + 1) as i32,
        1 => numbers[column] = (book.columns[column].lower - 1) as i32,
        2 => numbers[column] = random.pick(&[i32::MIN, i32::MAX, 0]),
        3 => numbers.swap(column, last),
        4..=6 => {
            // A column of a row of any clause, moved within its limits if one can be.
            let codes: BTreeSet<u8> = book.rows.iter().map(|row| row.code).collect();
            let code = random.pick(&Vec::from_iter(codes));
            let rows: Vec<&Row> = book.rows.iter().filter(|row| row.code == code).collect();
            let row = random.pick(&rows);
            let free: Vec<usize> = row
                .terms
                .keys()
                .copied()
                .filter(|column| {
                    let moved = i64::from(numbers[*column]) + i64::from(nudge);
                    (book.columns[*column].lower..=book.columns[*column].upper).contains(&moved)
                })
                .collect();
            let chosen = if free.is_empty() { column } else { random.pick(&free) };
            numbers[chosen] = numbers[chosen].wrapping_add(nudge);
        }
        _ => numbers[column] = numbers[column].wrapping_add(nudge),
    }
    numbers
}

/// Any numbers, within the limits of the columns more often than not.
pub fn anything(random: &mut Random, book: &Book) -> Vec<i32> {
    let wild = random.once_in(4);
    book.columns
        .iter()
        .map(|column| if wild { random.next() as i32 } else { random.number(column.lower..=column.upper) as i32 })
        .collect()
}
