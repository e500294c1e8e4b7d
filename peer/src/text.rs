//! The text of the verdict program.

use crate::book::{Book, clause};
use crate::case::Case;
use crate::fields::{Fault, MULTIPLIERS, Place, SCHEDULE, split_field};
use crate::judging::{Docket, Figure};
use std::fmt::Display;

pub const MOST_BYTES: usize = 65_536;

/// What the verdict program prints for this input.
pub fn verdict(input: &[u8]) -> String {
    if input.len() > MOST_BYTES {
        return "input refused\n".into();
    }
    let (case, certificates) = input.split_at(case_end(input));
    let book = match Case::read(case).and_then(|records| Book::over(&records, case.len())) {
        Ok(book) => book,
        Err(fault) => return format!("case refused {}\n", fault_text(fault)),
    };
    let mut docket = Docket::over(&book);
    let mut text = String::new();
    let mut rest = certificates;
    while !rest.is_empty() {
        let end = split_field(rest).map_or(rest.len(), |(_, body, _)| 3 + body.len());
        let (field, behind) = rest.split_at(end);
        text += &certificate_line(&mut docket, &book, field);
        rest = behind;
    }
    text + &standing_line(&docket)
}

/// Where the case ends: before the first field of tag 20 or 21, or at the end of the input.
pub fn case_end(input: &[u8]) -> usize {
    let mut rest = input;
    while let Some(tag) = rest.first() {
        if matches!(*tag, SCHEDULE | MULTIPLIERS) {
            return input.len() - rest.len();
        }
        match split_field(rest) {
            Some((_, _, behind)) => rest = behind,
            None => break,
        }
    }
    input.len()
}

fn certificate_line(docket: &mut Docket, book: &Book, field: &[u8]) -> String {
    let (kind, verdict) = match field.first() {
        Some(&SCHEDULE) => ("schedule", docket.lay_schedule(field)),
        _ => ("multipliers", docket.lay_multipliers(field)),
    };
    let label = field.get(3..7).and_then(|bytes| bytes.try_into().ok()).map(u32::from_be_bytes);
    let label = or_dash(label);
    match verdict {
        Ok(figure) => format!("{kind} {label} accepted {figure}\n"),
        Err(fault) => {
            let clause = match fault.place {
                Place::Row(row) => clause(book.rows[row].code).map(|text| format!(" clause {text}")),
                _ => None,
            };
            format!("{kind} {label} refused {}{}\n", fault_text(fault), clause.unwrap_or_default())
        }
    }
}

fn standing_line(docket: &Docket) -> String {
    let standing = docket.standing();
    let figure = |figure: Option<Figure>| {
        format!("{} {}", or_dash(figure.map(|figure| figure.label)), or_dash(figure.map(|figure| figure.value)))
    };
    format!("standing {} {} {}\n", figure(standing.best), figure(standing.bound), or_dash(standing.gap()))
}

fn fault_text(fault: Fault) -> String {
    let (kind, number) = match fault.place {
        Place::Offset(number) => ("offset", number),
        Place::Column(number) => ("column", number),
        Place::Row(number) => ("row", number),
    };
    format!("{} {kind} {number}", fault.number)
}

fn or_dash(value: Option<impl Display>) -> String {
    value.map_or("-".into(), |value| value.to_string())
}

#[cfg(test)]
mod tests {
    use super::*;
    use crate::fields::{multipliers_field, schedule_field};

    const WORKED: &[u8] = include_bytes!("../../crates/describe/stdin");

    /// The columns of the worked case: node 0 to 3, offers 4 to 7 and 8 to 11, bid 12 and 13,
    /// regulation offers 14 to 18 and 19 to 23, requirement 24.
    fn schedule(label: u32, regulations: [i32; 2], switches: [i32; 2]) -> Vec<u8> {
        let mut numbers = [0; 25];
        numbers[4] = 100_000;
        numbers[7] = 100_000;
        numbers[8] = 400_000;
        numbers[11] = 400_000;
        numbers[12] = 500_000;
        numbers[13] = 500_000;
        for (offer, first) in [14, 19].into_iter().enumerate() {
            numbers[first] = regulations[offer];
            numbers[first + 1] = switches[offer];
            numbers[first + 4] = regulations[offer];
        }
        schedule_field(label, &numbers)
    }

    fn multipliers() -> Vec<u8> {
        let mut numbers = [0; 18];
        let billion = 1_000_000_000;
        for (row, multiplier) in [
            (0, -billion),
            (1, 2 * billion),
            (2, 2 * billion),
            (5, 2 * billion),
            (8, -2 * billion),
            (9, 600_000_000),
            (13, 600_000_000),
            (17, -600_000_000),
        ] {
            numbers[row] = multiplier;
        }
        multipliers_field(3, &numbers)
    }

    #[test]
    fn example_of_the_documents() {
        let first = schedule(1, [0, 12_000], [0, 1]);
        let second = schedule(2, [10_000, 2_000], [1, 1]);
        let input = [WORKED, &first, &second, &multipliers()].concat();
        assert_eq!(
            verdict(&input),
            "schedule 1 accepted 41128000000\n\
             schedule 2 refused 22 row 11 clause D.18.1.4\n\
             multipliers 3 accepted 4116800000000000\n\
             standing 1 41128000000 3 4116800000000000 4000000000000\n"
        );
        assert_eq!(input, include_bytes!("../data/worked"));
    }

    #[test]
    fn case_alone() {
        assert_eq!(verdict(WORKED), "standing - - - - -\n");
        assert_eq!(verdict(&[]), "case refused 3 offset 0\n");
        assert_eq!(verdict(&[20]), "case refused 3 offset 0\n");
        assert_eq!(verdict(&WORKED[..WORKED.len() - 1]), "case refused 1 offset 143\n");
        assert_eq!(verdict(&WORKED[..143]), "case refused 3 offset 143\n");
    }

    #[test]
    fn leftover_bytes() {
        let of = |tail: &[u8]| verdict(&[WORKED, tail].concat());
        assert_eq!(of(&[20]), "schedule - refused 1 offset 0\nstanding - - - - -\n");
        assert_eq!(of(&[21, 1, 0, 0, 0, 1, 0]), "multipliers 256 refused 1 offset 0\nstanding - - - - -\n");
        assert_eq!(
            of(&[20, 0, 0, 9, 0, 4, 0, 0, 0, 5, 7]),
            "schedule - refused 4 offset 0\n\
             multipliers 5 refused 2 offset 0\n\
             multipliers - refused 1 offset 0\n\
             standing - - - - -\n"
        );
    }

    #[test]
    fn length_of_the_input() {
        let tail = vec![20; MOST_BYTES - WORKED.len()];
        let mut input = [WORKED, &tail].concat();
        assert!(verdict(&input).ends_with("standing - - - - -\n"));
        input.push(0);
        assert_eq!(verdict(&input), "input refused\n");
    }
}
