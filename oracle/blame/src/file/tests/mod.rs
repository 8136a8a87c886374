//! The driver: makes cases, asks the crate's functions, and writes the answers.

mod bench;
mod case;
mod coalesce;
#[cfg(feature = "ours")]
mod compare;
mod differences;
mod lists;
mod model;
mod random;
mod ranges;
mod walk;

use case::Case;
use coalesce::JoinCase;
use ranges::RangesCase;
use std::{
    io::{BufWriter, Write, stdout},
    process::ExitCode,
};

/// Every so-many-th exhaustive case goes into the sample. A prime, so that the sample doesn't
/// keep to one kind of range.
const EXHAUSTIVE_STEP: usize = 79;
/// Random cases in the file of all cases, and in the sample (the first ones).
const RANDOM_ALL: usize = 10_000;
const RANDOM_SAMPLE: usize = 1_000;
/// Random cases, beyond those written, that only `check` compares with the model.
const RANDOM_CHECKED: usize = 1_000_000;
/// The same for the whole walk.
const WALK_ALL: usize = 10_000;
const WALK_SAMPLE: usize = 1_000;
const WALK_CHECKED: usize = 200_000;

/// Asked ranges: as for `process_changes`.
const RANGES_STEP: usize = 61;
const RANGES_ALL: usize = 20_000;
const RANGES_SAMPLE: usize = 300;
const RANGES_CHECKED: usize = 1_000_000;
/// Entries to join.
const JOIN_STEP: usize = 149;
const JOIN_ALL: usize = 20_000;
const JOIN_SAMPLE: usize = 300;
const JOIN_CHECKED: usize = 1_000_000;

impl crate::Driver {
    pub fn run(arguments: &[&str]) -> ExitCode {
        let result = match arguments {
            ["process-changes", "--all"] => write_cases(lists::exhaustive().chain(random::cases().take(RANDOM_ALL))),
            ["process-changes", "--sample"] => write_cases(
                lists::exhaustive()
                    .step_by(EXHAUSTIVE_STEP)
                    .chain(random::cases().take(RANDOM_SAMPLE)),
            ),
            ["process-changes", "--differences"] => write_cases(differences::cases()),
            ["ranges", "--all"] => write_ranges(ranges::exhaustive().chain(ranges::random().take(RANGES_ALL))),
            ["ranges", "--sample"] => write_ranges(
                ranges::exhaustive()
                    .step_by(RANGES_STEP)
                    .chain(ranges::random().take(RANGES_SAMPLE)),
            ),
            ["ranges", "--differences"] => write_ranges(ranges::differences()),
            ["coalesce", "--all"] => write_joins(coalesce::exhaustive().chain(coalesce::random().take(JOIN_ALL))),
            ["coalesce", "--sample"] => write_joins(
                coalesce::exhaustive()
                    .step_by(JOIN_STEP)
                    .chain(coalesce::random().take(JOIN_SAMPLE)),
            ),
            ["coalesce", "--differences"] => write_joins(coalesce::differences()),
            ["walk", "--all"] => walk::write(WALK_ALL),
            ["walk", "--sample"] => walk::write(WALK_SAMPLE),
            ["check"] => return check(),
            ["bench"] => {
                bench::run();
                Ok(())
            }
            #[cfg(feature = "ours")]
            ["compare"] => return compare::run(),
            _ => {
                eprintln!("usage: oracle process-changes (--all | --sample | --differences)");
                eprintln!("       oracle ranges (--all | --sample | --differences)");
                eprintln!("       oracle coalesce (--all | --sample | --differences)");
                eprintln!("       oracle walk (--all | --sample)");
                eprintln!("       oracle check");
                eprintln!("       oracle bench");
                #[cfg(feature = "ours")]
                eprintln!("       oracle compare");
                return ExitCode::from(2);
            }
        };
        match result {
            Ok(()) => ExitCode::SUCCESS,
            Err(error) => {
                eprintln!("oracle: {error}");
                ExitCode::FAILURE
            }
        }
    }
}

fn write_cases(cases: impl Iterator<Item = Case>) -> std::io::Result<()> {
    let mut out = BufWriter::new(stdout().lock());
    for case in cases {
        writeln!(out, "{}", case.line(&case.crate_answer()))?;
    }
    out.flush()
}

fn write_ranges(cases: impl Iterator<Item = RangesCase>) -> std::io::Result<()> {
    let mut out = BufWriter::new(stdout().lock());
    for case in cases {
        writeln!(out, "{}", case.line(&case.crate_answer()))?;
    }
    out.flush()
}

fn write_joins(cases: impl Iterator<Item = JoinCase>) -> std::io::Result<()> {
    let mut out = BufWriter::new(stdout().lock());
    for case in cases {
        writeln!(out, "{}", case.line(&case.crate_answer()))?;
    }
    out.flush()
}

/// Compares the crate's answers with those of the model, and prints how many differ.
fn check() -> ExitCode {
    let exhaustive = differences("exhaustive", lists::exhaustive());
    let random = differences("random", random::cases().take(RANDOM_ALL + RANDOM_CHECKED));
    let walk = walk::check(WALK_CHECKED);
    let ranges = ranges::check("exhaustive", ranges::exhaustive())
        + ranges::check("random", ranges::random().take(RANGES_ALL + RANGES_CHECKED));
    let joins = coalesce::check("exhaustive", coalesce::exhaustive())
        + coalesce::check("random", coalesce::random().take(JOIN_ALL + JOIN_CHECKED));
    if exhaustive + random + walk + ranges + joins == 0 {
        ExitCode::SUCCESS
    } else {
        ExitCode::FAILURE
    }
}

fn differences(name: &str, cases: impl Iterator<Item = Case>) -> usize {
    let (mut count, mut pieces, mut different) = (0, 0, 0);
    for case in cases {
        let answer = case.crate_answer();
        count += 1;
        pieces += answer.len();
        if answer != model::answer(&case) {
            different += 1;
            if different <= 3 {
                eprintln!("differs: {}", case.line(&answer));
            }
        }
    }
    println!("process_changes, {name}: {count} cases, {pieces} pieces, {different} differences");
    different
}
