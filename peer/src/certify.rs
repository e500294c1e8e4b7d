//! Solutions of solvers, in fractions, to schedules and multipliers in whole units.

use crate::book::{Name, Names};
use crate::case::{Block, Case, Line};
use std::collections::BTreeMap;
use std::ops::RangeInclusive;

const WHOLE: i64 = 100_000;
const FINE: f64 = 100_000.0;

/// Numbers of a solver's file by name: values and dual values of columns and rows.
#[derive(Default)]
pub struct Solution {
    values: BTreeMap<String, f64>,
    duals: BTreeMap<String, f64>,
}

impl Solution {
    /// Reads what `glpsol --write` or `cbc -printingOptions all -solution` wrote. glpsol counts
    /// from 1 and leaves the objective out.
    pub fn read(text: &str) -> Solution {
        let mut solution = Solution::default();
        for line in text.lines() {
            let words: Vec<&str> = line.split_whitespace().filter(|word| *word != "**").collect();
            let (name, value, dual) = match words.as_slice() {
                ["i", number, rest @ ..] => (glpk_name('R', number), value_of(rest), dual_of(rest)),
                ["j", number, rest @ ..] => (glpk_name('C', number), value_of(rest), dual_of(rest)),
                [_, name, value, dual] if name.starts_with(['R', 'C']) => {
                    (Some(name.to_string()), value.parse().ok(), dual.parse().ok())
                }
                _ => continue,
            };
            let Some(name) = name else { continue };
            value.map(|value| solution.values.insert(name.clone(), value));
            dual.map(|dual| solution.duals.insert(name, dual));
        }
        solution
    }

    fn value(&self, column: usize) -> f64 {
        self.values.get(&format!("C{column}")).copied().unwrap_or(0.0)
    }

    fn dual(&self, row: usize) -> f64 {
        self.duals.get(&format!("R{row}")).copied().unwrap_or(0.0)
    }
}

fn glpk_name(kind: char, number: &str) -> Option<String> {
    Some(format!("{kind}{}", number.parse::<usize>().ok()?.checked_sub(1)?))
}

/// Of a line with a status the second word, of a line without one the only word.
fn value_of(words: &[&str]) -> Option<f64> {
    match words {
        [value] | [_, value, _] => value.parse().ok(),
        _ => None,
    }
}

fn dual_of(words: &[&str]) -> Option<f64> {
    match words {
        [_, _, dual] => dual.parse().ok(),
        _ => None,
    }
}

/// A schedule near the solution. Angles, blocks, deficits, excesses and switches are rounded;
/// everything else follows from them, so that the rows are met where the allowance suffices.
pub fn schedule_of(case: &Case, solution: &Solution) -> Vec<i32> {
    let names = Names::of(case);
    let rounded = |name: Name| {
        let column = names.number(name);
        let number = solution.value(column).round() as i64;
        number.clamp(names.columns[column].lower, names.columns[column].upper)
    };
    let mut numbers = BTreeMap::new();
    let allowance = i64::from(case.period.allowance);
    for node in 0..case.nodes.len() {
        numbers.insert(Name::Angle(node), rounded(Name::Angle(node)));
    }
    let mut leaving = vec![0; case.nodes.len()];
    for (number, line) in case.lines.iter().enumerate() {
        let (start, end) = (usize::from(line.start), usize::from(line.end));
        let across = numbers[&Name::Angle(start)] - numbers[&Name::Angle(end)] + i64::from(line.shift);
        let flow = (i64::from(line.admittance) * across + 500).div_euclid(1_000).clamp(-1_000_000, 1_000_000);
        let near = (0..line.points.len()).map(|point| rounded(Name::Weight(number, point))).collect();
        let (weights, loss) = weights_of(line, flow, near, allowance);
        let carried: i64 = line.points.iter().zip(&weights).map(|(point, weight)| i64::from(point.flow) * weight).sum();
        let short = flow - (carried + WHOLE / 2).div_euclid(WHOLE);
        numbers.extend([
            (Name::Flow(number), flow),
            (Name::Loss(number), loss),
            (Name::OverForward(number), (flow - i64::from(line.forward_limit)).max(0)),
            (Name::OverReverse(number), (i64::from(line.reverse_limit) - flow).max(0)),
            (Name::ShortW(number), short.max(0)),
            (Name::OverW(number), (-short).max(0)),
        ]);
        numbers.extend(weights.into_iter().enumerate().map(|(point, weight)| (Name::Weight(number, point), weight)));
        leaving[start] += 2 * flow + loss;
        leaving[end] += loss - 2 * flow;
    }

    let mut injections = vec![0; case.nodes.len()];
    let filled = |numbers: &mut BTreeMap<Name, i64>, name: &dyn Fn(usize) -> Name, blocks: &[Block]| -> i64 {
        (0..blocks.len())
            .map(|block| {
                let amount = rounded(name(block));
                numbers.insert(name(block), amount);
                amount
            })
            .sum()
    };
    let mut generations = Vec::new();
    for (number, offer) in case.offers.iter().enumerate() {
        let generation = filled(&mut numbers, &|block| Name::OfferBlock(number, block), &offer.blocks);
        numbers.extend([
            (Name::Generation(number), generation),
            (Name::OverUp(number), (generation - i64::from(offer.end_maximum)).max(0)),
            (Name::OverDown(number), (i64::from(offer.end_minimum) - generation).max(0)),
        ]);
        injections[usize::from(offer.node)] += generation;
        generations.push(generation);
    }
    for (number, bid) in case.bids.iter().enumerate() {
        let purchase = filled(&mut numbers, &|block| Name::BidBlock(number, block), &bid.blocks);
        numbers.insert(Name::Purchase(number), purchase);
        injections[usize::from(bid.node)] -= purchase;
    }
    for (node, injection) in injections.iter_mut().enumerate() {
        let mut deficit = rounded(Name::Deficit(node));
        let mut excess = rounded(Name::Excess(node));
        let above = 2 * (*injection + deficit - excess) - leaving[node];
        // Half of what passes the allowance, rounded up.
        deficit += ((-above - allowance).max(0) + 1) / 2;
        excess += ((above - allowance).max(0) + 1) / 2;
        *injection += deficit - excess;
        numbers.extend([
            (Name::Deficit(node), deficit),
            (Name::Excess(node), excess),
            (Name::Injection(node), *injection),
        ]);
    }
    let mut regulated = 0;
    for (number, record) in case.regulations.iter().enumerate() {
        let on = rounded(Name::Switch(number)) == 1;
        let regulation = filled(&mut numbers, &|block| Name::RegulationBlock(number, block), &record.blocks);
        let generation = generations[usize::from(record.offer)];
        numbers.insert(Name::Regulation(number), regulation);
        if on || regulation > 0 {
            numbers.extend([
                (Name::Switch(number), 1),
                (Name::OverReg(number), (generation + regulation - i64::from(record.maximum)).max(0)),
                (Name::ShortReg(number), (i64::from(record.minimum) - generation + regulation).max(0)),
            ]);
        }
        regulated += regulation;
    }
    numbers.insert(Name::ShortRequirement, (i64::from(case.requirement.requirement) - regulated).max(0));
    names.names.iter().map(|name| numbers.get(name).copied().unwrap_or(0) as i32).collect()
}

/// Weights near those given, for the flow, and the loss in whole kilowatts that they come to within
/// the allowance. The points have to be equally far apart.
///
/// The given weights are made to sum to the whole. Weight is moved between neighbours until the
/// weights give the flow. The loss is rounded up or down, and the same weight is moved from two
/// points to their neighbours on opposite sides until the weights give the loss; this leaves the
/// flow as it is.
fn weights_of(line: &Line, flow: i64, mut weights: Vec<i64>, allowance: i64) -> (Vec<i64>, i64) {
    let points = &line.points;
    let flow_at = |point: usize| i64::from(points[point].flow);
    let loss_at = |point: usize| i64::from(points[point].loss);
    let sum = |weights: &[i64], of: &dyn Fn(usize) -> i64| -> i64 {
        weights.iter().enumerate().map(|(point, weight)| of(point) * weight).sum()
    };
    let last = points.len() - 1;
    let heaviest = |weights: &[i64], among: RangeInclusive<usize>| among.max_by_key(|point| weights[*point]);

    let first = heaviest(&weights, 0..=last).unwrap_or(0);
    weights[first] += WHOLE - weights.iter().sum::<i64>();
    let width = flow_at(1) - flow_at(0);
    let mut steps = (WHOLE * flow.clamp(flow_at(0), flow_at(last)) - sum(&weights, &flow_at)) / width;
    while steps != 0 {
        let among = if steps > 0 { 0..=last - 1 } else { 1..=last };
        let Some(from) = heaviest(&weights, among).filter(|point| weights[*point] > 0) else { break };
        let to = if steps > 0 { from + 1 } else { from - 1 };
        let moved = weights[from].min(steps.abs());
        weights[from] -= moved;
        weights[to] += moved;
        steps -= moved * steps.signum();
    }

    let total = sum(&weights, &loss_at);
    let loss = (total - allowance + WHOLE - 1).div_euclid(WHOLE);
    if WHOLE * loss - total <= allowance {
        return (weights, loss);
    }
    for loss in [loss, loss - 1] {
        let lacking = WHOLE * loss - total;
        for (left, right) in (0..=last).flat_map(|left| (left..=last).map(move |right| (left, right))) {
            let outward = (left.checked_sub(1), Some(right + 1).filter(|point| *point <= last));
            let inward = (Some(left + 1), right.checked_sub(1).filter(|point| *point > left));
            for (new_left, new_right) in [outward, inward] {
                let (Some(new_left), Some(new_right)) = (new_left, new_right) else { continue };
                let step = loss_at(new_left) + loss_at(new_right) - loss_at(left) - loss_at(right);
                let moved = if step == 0 { 0 } else { (lacking as f64 / step as f64).round() as i64 };
                let room = if left == right { weights[left] / 2 } else { weights[left].min(weights[right]) };
                if (1..=room).contains(&moved) && (lacking - moved * step).abs() <= allowance {
                    weights[left] -= moved;
                    weights[right] -= moved;
                    weights[new_left] += moved;
                    weights[new_right] += moved;
                    return (weights, loss);
                }
            }
        }
    }
    (weights, loss)
}

/// Multipliers near the dual values of the solution of a minimization of minus the net benefit.
///
/// The multipliers of D.16.1.1, of the limits and of the switches' rows are rounded; those of the
/// rows that say what a column is are set so that the reduced costs of these columns are 0, and
/// those of D.16.3.2 and D.16.3.3 so that no loss and no weight has a positive one.
pub fn multipliers_of(case: &Case, solution: &Solution) -> Vec<i64> {
    let rows = Names::of(case).rows(case);
    let mut places: BTreeMap<u8, Vec<usize>> = BTreeMap::new();
    for (number, row) in rows.iter().enumerate() {
        places.entry(row.code).or_default().push(number);
    }
    let mut set = vec![0; rows.len()];
    let place = |code: u8, which: usize| places[&code][which];
    let rounded = |code, which| (-FINE * solution.dual(place(code, which))).round() as i64;
    let fine = |price: i32| WHOLE * i64::from(price);

    for node in 0..case.nodes.len() {
        let half = rounded(1, node);
        set[place(1, node)] = half;
        set[place(2, node)] = -2 * half;
    }
    for (number, line) in case.lines.iter().enumerate() {
        let (start, end) = (set[place(1, line.start.into())], set[place(1, line.end.into())]);
        let most = fine(line.violation_price);
        let mut lower = rounded(3, number).clamp(-most, 0);
        let mut upper = rounded(4, number).clamp(0, most);
        let angle = rounded(5, number);
        let left = 2 * (start - end) - 1_000 * angle;
        let curve = (left - lower - upper + WHOLE / 2).div_euclid(WHOLE);
        let rest = left - lower - upper - WHOLE * curve;
        if rest > 0 {
            upper += rest;
        } else {
            lower += rest;
        }
        let loss = (start + end + WHOLE - 1).div_euclid(WHOLE);
        let weight = line.points.iter().map(|point| i64::from(point.flow) * curve + i64::from(point.loss) * loss).max();
        let multipliers = [(3, lower), (4, upper), (5, angle), (6, curve), (7, loss), (8, weight.unwrap_or(0))];
        for (code, multiplier) in multipliers {
            set[place(code, number)] = multiplier;
        }
    }
    let shortest = -fine(case.requirement.deficit_price);
    let requirement = rounded(19, 0).clamp(shortest, 0);
    set[place(19, 0)] = requirement;
    for (number, record) in case.regulations.iter().enumerate() {
        let most = fine(record.violation_price);
        let upper = rounded(16, number).clamp(0, most);
        let lower = rounded(17, number).clamp(-most, 0);
        let on = rounded(18, number).max(0);
        let blocks = lower - upper - on - requirement;
        for (code, multiplier) in [(15, blocks), (16, upper), (17, lower), (18, on)] {
            set[place(code, number)] = multiplier;
        }
    }
    for (number, offer) in case.offers.iter().enumerate() {
        let most = fine(offer.violation_price);
        let upper = rounded(12, number).clamp(0, most);
        let lower = rounded(13, number).clamp(-most, 0);
        let regulation = case.regulations.iter().position(|record| usize::from(record.offer) == number);
        let regulated = regulation.map_or(0, |which| set[place(16, which)] + set[place(17, which)]);
        set[place(9, number)] = set[place(2, offer.node.into())] - upper - lower - regulated;
        set[place(12, number)] = upper;
        set[place(13, number)] = lower;
    }
    for (number, bid) in case.bids.iter().enumerate() {
        set[place(14, number)] = -set[place(2, bid.node.into())];
    }
    set
}

#[cfg(test)]
mod tests {
    use super::*;
    use crate::book::Book;
    use crate::fields::Place;
    use crate::judging::Docket;

    #[test]
    fn files_of_both_solvers() {
        let glpk = Solution::read("c note\ns bas 1 1 f f -2\ni 1 l 7 -1.5\nj 1 b 4 0.25\ne o f\n");
        assert_eq!((glpk.value(0), glpk.dual(0)), (4.0, -1.5));
        let integer = Solution::read("s mip 1 1 o -2\ni 1 7\nj 1 4\n");
        assert_eq!((integer.value(0), integer.dual(0)), (4.0, 0.0));
        let cbc = Solution::read("Optimal - objective value 1\n      0 R0   7   -1.5\n**    0 C0  4  0\n");
        assert_eq!((cbc.value(0), cbc.dual(0)), (4.0, -1.5));
    }

    /// From no solution at all: the schedule is in whole units and breaks no row; the set fits.
    #[test]
    fn without_a_solution() {
        for seed in 0..20 {
            let case = crate::generating::realistic::case(seed);
            let book = Book::over(&case, 0).unwrap();
            let docket = Docket::over(&book);
            let schedule: Vec<i64> = schedule_of(&case, &Solution::default()).into_iter().map(i64::from).collect();
            match docket.judge_schedule(&schedule) {
                Ok(_) => (),
                Err(fault) => assert!(!matches!(fault.place, Place::Row(_)), "{fault:?}"),
            }
            assert!(docket.judge_multipliers(&multipliers_of(&case, &Solution::default())).is_ok());
        }
    }
}
