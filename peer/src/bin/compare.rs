//! `compare SEED COUNT [VERDICT_BINARY]` runs a verdict program and this implementation on COUNT
//! generated inputs. It stops at the first difference, and it fails if a form of output that the
//! program can print never came.

use peer::book::clause;
use peer::generating::input;
use peer::text::verdict;
use std::collections::BTreeMap;
use std::io::{self, ErrorKind, Read, Write};
use std::process::{Command, ExitCode, Stdio};
use std::thread;
use std::time::Instant;

const USAGE: &str = "usage: compare SEED COUNT [VERDICT_BINARY]";
const NO_FORM: &str = "line of no form: ";
const ONE_SIDED: [u8; 8] = [3, 4, 12, 13, 16, 17, 18, 19];

fn main() -> ExitCode {
    let arguments: Vec<String> = std::env::args().skip(1).collect();
    let (seed, count, binary) = match arguments.as_slice() {
        [seed, count] => (seed, count, "crates/verdict/out/verdict"),
        [seed, count, binary] => (seed, count, binary.as_str()),
        _ => return usage(),
    };
    let (Ok(seed), Ok(count)) = (seed.parse(), count.parse()) else {
        return usage();
    };
    match compare(seed, count, binary) {
        Ok(true) => ExitCode::SUCCESS,
        Ok(false) => ExitCode::FAILURE,
        Err(error) => {
            eprintln!("{binary}: {error}");
            ExitCode::from(2)
        }
    }
}

fn usage() -> ExitCode {
    eprintln!("{USAGE}");
    ExitCode::from(2)
}

fn compare(seed: u64, count: u64, binary: &str) -> io::Result<bool> {
    let began = Instant::now();
    let mut forms: BTreeMap<String, u64> = expected_forms().into_iter().map(|form| (form, 0)).collect();
    for index in 0..count {
        let input = input(seed, index);
        let expected = verdict(&input);
        let (succeeded, output) = run(binary, &input)?;
        if !succeeded || output != expected.as_bytes() {
            println!("difference at seed {seed} index {index}, input of {} bytes", input.len());
            println!("exit status of {binary} is 0: {succeeded}");
            show_difference(&expected, &String::from_utf8_lossy(&output));
            return Ok(false);
        }
        expected.lines().flat_map(forms_of).for_each(|form| *forms.entry(form).or_default() += 1);
    }
    for (form, times) in &forms {
        println!("{times:9} {form}");
    }
    println!("{count} inputs of seed {seed} agree, {:.1} s", began.elapsed().as_secs_f64());
    let missing: Vec<&String> = forms.iter().filter(|form| *form.1 == 0).map(|form| form.0).collect();
    for form in &missing {
        println!("missing: {form}");
    }
    let strange = forms.keys().filter(|form| form.starts_with(NO_FORM)).count();
    Ok(missing.is_empty() && strange == 0)
}

/// Whether the program's exit status is 0, and its standard output.
fn run(binary: &str, input: &[u8]) -> io::Result<(bool, Vec<u8>)> {
    let mut child = Command::new(binary).stdin(Stdio::piped()).stdout(Stdio::piped()).spawn()?;
    let mut stdin = child.stdin.take().expect("standard input is a pipe");
    let mut stdout = child.stdout.take().expect("standard output is a pipe");
    let mut output = Vec::new();
    thread::scope(|scope| {
        let writer = scope.spawn(move || match stdin.write_all(input) {
            // The program may stop reading an input that is too long.
            Err(error) if error.kind() == ErrorKind::BrokenPipe => Ok(()),
            result => result,
        });
        stdout.read_to_end(&mut output)?;
        writer.join().expect("the writer does not panic")
    })?;
    Ok((child.wait()?.success(), output))
}

fn show_difference(expected: &str, output: &str) {
    let mut left = expected.split_inclusive('\n');
    let mut right = output.split_inclusive('\n');
    for line in 1.. {
        let pair = (left.next(), right.next());
        if pair.0 != pair.1 {
            println!("line {line}, peer:    {:?}", pair.0.unwrap_or_default());
            println!("line {line}, program: {:?}", pair.1.unwrap_or_default());
            return;
        }
        if pair.0.is_none() {
            return;
        }
    }
}

/// The forms of one line of output.
fn forms_of(line: &str) -> Vec<String> {
    let words: Vec<&str> = line.split(' ').collect();
    match words.as_slice() {
        ["input", "refused"] => vec![line.into()],
        ["case", "refused", number, "offset", _] => vec![format!("case refused {number}")],
        // No schedule passes an accepted bound, so a gap below zero is a fault of both programs.
        ["standing", _, _, _, _, gap] if gap.len() > 1 && gap.starts_with('-') => vec![format!("{NO_FORM}{line}")],
        ["standing", _, best, _, bound, _] => {
            let stands = match (*best, *bound) {
                ("-", "-") => "none",
                (_, "-") => "best alone",
                ("-", _) => "bound alone",
                _ => "all",
            };
            vec![format!("standing {stands}")]
        }
        [kind, label, rest @ ..] => {
            let label = if *label == "-" { "absent" } else { "present" };
            let mut forms = vec![format!("{kind} label {label}")];
            match rest {
                ["accepted", _] => forms.push(format!("{kind} accepted")),
                ["refused", number, place, _] => forms.push(format!("{kind} refused {number} {place}")),
                ["refused", number, place, _, "clause", clause] => {
                    forms.push(format!("{kind} refused {number} {place}"));
                    forms.push(format!("{kind} refused {number} {place} clause {clause}"));
                }
                _ => forms.push(format!("{NO_FORM}{line}")),
            }
            forms
        }
        _ => vec![format!("{NO_FORM}{line}")],
    }
}

/// The forms that have to come. Fault 8 is of listings alone, and a field laid as a schedule has
/// its tag, so it is never refused with 2.
fn expected_forms() -> Vec<String> {
    let mut forms = vec!["input refused".to_string()];
    forms.extend((1..=7).map(|number| format!("case refused {number}")));
    forms.extend(["none", "best alone", "bound alone", "all"].map(|stands| format!("standing {stands}")));
    for kind in ["schedule", "multipliers"] {
        forms.extend(["label absent", "label present", "accepted"].map(|form| format!("{kind} {form}")));
        forms.extend([1, 4, 20].map(|number| format!("{kind} refused {number} offset")));
    }
    forms.extend(["21 column", "22 row", "23 offset"].map(|form| format!("schedule refused {form}")));
    forms.extend(
        ["2 offset", "24 row", "25 row", "26 row", "26 column"].map(|form| format!("multipliers refused {form}")),
    );
    for code in 1..=19 {
        let Some(clause) = clause(code) else { continue };
        forms.push(format!("schedule refused 22 row clause {clause}"));
        forms.push(format!("multipliers refused 24 row clause {clause}"));
        if ONE_SIDED.contains(&code) {
            forms.push(format!("multipliers refused 25 row clause {clause}"));
        }
    }
    forms
}
