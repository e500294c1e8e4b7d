//! `bench [VERDICT_BINARY]` prints the time of one verdict on inputs of several kinds: of this
//! implementation in its own process, and of the program, with its start, if one is given.

use peer::case::{Bid, Block, Case, Node};
use peer::certify::{Solution, multipliers_of, schedule_of};
use peer::fields::{field_bytes, multipliers_field, schedule_field};
use peer::generating::{input, realistic};
use peer::text::{MOST_BYTES, verdict};
use std::fs::{File, remove_file, write};
use std::io;
use std::process::{Command, Stdio};
use std::time::{Duration, Instant};

const REPEATS: u32 = 20;

fn main() -> io::Result<()> {
    let binary = std::env::args().nth(1);
    println!("{:>9} {:>9} {:>9}  input", "bytes", "peer µs", "program");
    for (name, input) in inputs() {
        let peer = shortest(|| {
            verdict(&input);
            Ok(())
        })?;
        let program = match &binary {
            Some(binary) => format!("{}", of_program(binary, &input)?.as_micros()),
            None => "-".into(),
        };
        println!("{:9} {:9} {program:>9}  {name}", input.len(), peer.as_micros());
    }
    Ok(())
}

fn shortest(mut run: impl FnMut() -> io::Result<()>) -> io::Result<Duration> {
    let mut least = Duration::MAX;
    for _ in 0..REPEATS {
        let began = Instant::now();
        run()?;
        least = least.min(began.elapsed());
    }
    Ok(least)
}

fn of_program(binary: &str, input: &[u8]) -> io::Result<Duration> {
    let path = std::env::temp_dir().join(format!("bench_{}", std::process::id()));
    write(&path, input)?;
    let time = shortest(|| {
        Command::new(binary).stdin(File::open(&path)?).stdout(Stdio::null()).status()?;
        Ok(())
    });
    remove_file(&path)?;
    time
}

fn inputs() -> Vec<(&'static str, Vec<u8>)> {
    let realistic = realistic::case(3);
    let nothing = Solution::default();
    let schedule = schedule_field(1, &schedule_of(&realistic, &nothing));
    let set = multipliers_field(2, &multipliers_of(&realistic, &nothing));
    let mut repeated = realistic.bytes();
    while repeated.len() + schedule.len() + set.len() <= MOST_BYTES {
        repeated.extend(schedule.iter().chain(&set));
    }
    let mut heads = realistic.bytes();
    while heads.len() + 3 <= MOST_BYTES {
        heads.extend(field_bytes(21, &[]));
    }
    vec![
        ("a small case", input(1, 0)),
        ("a realistic case, a schedule and a set", [realistic.bytes(), schedule, set].concat()),
        ("a realistic case, as many of both as there is room for", repeated),
        ("a realistic case and heads alone", heads),
        ("a book of 4,000 columns, a schedule and a set", columns()),
    ]
}

/// 998 nodes and a bid of 6 blocks: 4,000 columns and 1,998 rows.
fn columns() -> Vec<u8> {
    let case = Case {
        nodes: vec![Node::default(); 998],
        bids: vec![Bid { node: 1, blocks: vec![Block::default(); 6] }],
        ..Case::default()
    };
    let schedule = schedule_field(1, &[0; 4_000]);
    let set = multipliers_field(2, &[0; 1_998]);
    [case.bytes(), schedule, set].concat()
}
