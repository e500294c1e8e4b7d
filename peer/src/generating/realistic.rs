//! Cases of the size and the numbers of a small power system.

use super::random::Random;
use crate::case::{Bid, Block, Case, EnergyOffer, Line, Node, Period, Point, RegulationOffer, Requirement};

/// A case of 5 to 15 nodes, 6 to 20 lossy lines, 10 to 25 energy offers and 3 to 8 regulation
/// offers. The points of a line are equally far apart, a distance that divides 100,000, and their
/// losses grow with the square of the flow.
pub fn case(seed: u64) -> Case {
    let random = &mut Random::new(seed, 0);
    let nodes = random.from(5..=15) as usize;
    let mut case = Case { period: Period { number: seed as u32, allowance: 1_000 }, ..Case::default() };
    case.nodes = vec![
        Node {
            deficit_maximum: 1_000_000,
            deficit_price: 1_000_000,
            excess_maximum: 1_000_000,
            excess_price: 1_000_000,
        };
        nodes
    ];
    let lines = random.from(nodes as i64 + 1..=20) as usize;
    for number in 0..lines {
        // A tree first, so that every node is reached.
        let (start, end) = if number + 1 < nodes {
            (random.below(number + 1), number + 1)
        } else {
            let start = random.below(nodes);
            (start, (start + 1 + random.below(nodes - 1)) % nodes)
        };
        case.lines.push(line(random, start, end));
    }
    let offers = random.from(10..=25) as usize;
    let mut capacity = 0;
    for _ in 0..offers {
        let offer = offer(random, nodes);
        capacity += i64::from(offer.end_maximum);
        case.offers.push(offer);
    }
    let mut demand = capacity * random.from(55..=85) / 100;
    let share = demand / nodes as i64;
    while demand > 0 {
        let size = random.from(share / 3..=2 * share).clamp(1_000, demand.max(1_000)).min(1_000_000);
        demand -= size;
        let flexible = size * random.from(0..=20) / 100;
        let price = 100 * random.from(300..=2_000);
        let blocks = [(500_000, size - flexible), (price, flexible)];
        let blocks = blocks.map(|(price, maximum)| Block { price: price as i32, maximum: maximum as i32 });
        case.bids.push(Bid { node: random.below(nodes) as u16, blocks: blocks.to_vec() });
    }
    let mut free: Vec<u16> = (0..offers as u16).collect();
    let mut regulation = 0;
    for _ in 0..random.from(3..=8) {
        let offer = free.swap_remove(random.below(free.len()));
        let capacity = case.offers[usize::from(offer)].end_maximum;
        let size = capacity / random.from(10..=20) as i32;
        regulation += size;
        let blocks = [(1, 2), (2, 1)]
            .map(|(step, part)| Block { price: (step * 100 * random.from(3..=40)) as i32, maximum: size * part / 3 });
        case.regulations.push(RegulationOffer {
            offer,
            minimum: capacity / 100 * random.from(20..=45) as i32,
            maximum: capacity / 100 * random.from(80..=98) as i32,
            violation_price: 2_000_000,
            blocks: blocks.to_vec(),
        });
    }
    let requirement = regulation / 100 * random.from(40..=80) as i32;
    case.requirement = Requirement { requirement, deficit_price: 1_000_000 };
    case
}

fn line(random: &mut Random, start: usize, end: usize) -> Line {
    let width = random.pick(&[10_000, 20_000, 25_000]);
    let steps = random.from(4..=10) as i32;
    let curve = random.from(15..=60) as i32 * (width / 10_000);
    let points = (-steps..=steps).map(|step| Point { flow: step * width, loss: step * step * curve }).collect();
    Line {
        start: start as u16,
        end: end as u16,
        forward_limit: steps * width * 9 / 10,
        reverse_limit: -steps * width * 9 / 10,
        admittance: random.from(500..=4_000) as i32,
        shift: if random.once_in(8) { random.from(-9_000..=9_000) as i32 } else { 0 },
        violation_price: 600_000,
        points,
    }
}

fn offer(random: &mut Random, nodes: usize) -> EnergyOffer {
    let count = random.from(1..=5) as i32;
    let size = 1_000 * random.from(10..=60) as i32;
    let mut price = 100 * random.from(10..=150) as i32;
    let mut blocks = Vec::new();
    for _ in 0..count {
        blocks.push(Block { price, maximum: size });
        price += 100 * random.from(5..=80) as i32;
    }
    EnergyOffer {
        node: random.below(nodes) as u16,
        end_minimum: 0,
        end_maximum: size * count,
        violation_price: 3_000_000,
        blocks,
    }
}

#[cfg(test)]
mod tests {
    use super::*;
    use crate::book::Book;

    #[test]
    fn realistic_cases_are_cases() {
        for seed in 0..50 {
            let case = case(seed);
            let bytes = case.bytes();
            assert_eq!(Case::read(&bytes).as_ref(), Ok(&case));
            assert!(Book::over(&case, bytes.len()).unwrap().fits());
        }
    }
}
