//! Times our `process_changes`, of the static library `timing`, beside the crate's, in turns.

use super::{
    bench::{tables, time},
    case::{Case, Row},
};
use std::{hint::black_box, process::ExitCode, time::Instant};

#[link(name = "timing", kind = "static")]
unsafe extern "C" {
    /// Makes the table of that number, the same as in `tables()`, and cuts its hunks so many
    /// times. The sum of the numbers of pieces, plus the digest of the last pieces, wrapping.
    safe fn process_changes_rounds(table: u32, rounds: u32) -> u64;
}

/// How often both are timed, and how long one timing should last at least. Short ones, since what
/// else runs on the machine then leaves some of them alone.
const ROUNDS: usize = 41;
const ROUND_NANOSECONDS: u128 = 3_000_000;

pub fn run() -> ExitCode {
    let mut all_same = true;
    for (number, (name, case)) in (0..).zip(tables()) {
        let same = same_answer(number, &case);
        all_same &= same;
        let crate_calls = calls_for(|calls| time(&case, calls as usize));
        let our_calls = calls_for(|calls| time_ours(number, calls));
        // Our time for making the table: that of no call at all.
        let making = least(|| time_ours(number, 0));
        let mut times: [Vec<f64>; 2] = Default::default();
        for _ in 0..ROUNDS {
            let crate_time = time(&case, crate_calls as usize);
            let our_time = time_ours(number, our_calls).saturating_sub(making);
            times[0].push(crate_time as f64 / f64::from(crate_calls));
            times[1].push(our_time as f64 / f64::from(our_calls));
        }
        println!("{name}: {}", if same { "same answer" } else { "ANOTHER ANSWER" });
        let [crate_median, ours_median] = times.each_mut().map(|times| {
            times.sort_unstable_by(f64::total_cmp);
            times[ROUNDS / 2]
        });
        let [crate_least, ours_least] = times.map(|times| times[0]);
        println!(
            "  crate  median {crate_median:>9.0}  least {crate_least:>9.0}  ({ROUNDS} rounds of {crate_calls} calls)"
        );
        println!("  ours   median {ours_median:>9.0}  least {ours_least:>9.0}  ({ROUNDS} rounds of {our_calls} calls)");
        println!(
            "  ours / crate  {:>9.2}        {:>9.2}",
            ours_median / crate_median,
            ours_least / crate_least
        );
    }
    if all_same { ExitCode::SUCCESS } else { ExitCode::FAILURE }
}

/// Whether both have the same number of pieces, and the same digest of all pieces, the first and
/// the last among them.
fn same_answer(number: u32, case: &Case) -> bool {
    let pieces = case.crate_answer();
    let [once, twice] = [1, 2].map(|rounds| process_changes_rounds(number, rounds));
    let our_count = twice.wrapping_sub(once);
    our_count == pieces.len() as u64 && once.wrapping_sub(our_count) == digest(&pieces)
}

/// Of each piece its lines, how many suspects it has, and the first of them.
fn digest(pieces: &[Row]) -> u64 {
    let mut digest = 0u64;
    for piece in pieces {
        let (commit, range) = &piece.suspects[0];
        let numbers = [
            u64::from(piece.asked.start),
            u64::from(piece.asked.end),
            piece.suspects.len() as u64,
            u64::from(*commit),
            u64::from(range.start),
            u64::from(range.end),
        ];
        for number in numbers {
            digest = digest.wrapping_mul(31).wrapping_add(number);
        }
    }
    digest
}

/// So many calls that they last long enough.
fn calls_for(time: impl Fn(u32) -> u128) -> u32 {
    let mut calls = 1;
    while least(|| time(calls)) < ROUND_NANOSECONDS {
        calls *= 2;
    }
    calls
}

/// The least of a few timings, which has the least of what else the machine did.
fn least(time: impl Fn() -> u128) -> u128 {
    (0..9).map(|_| time()).min().expect("there are some")
}

/// The time for making the table and so many calls.
fn time_ours(number: u32, rounds: u32) -> u128 {
    let start = Instant::now();
    black_box(process_changes_rounds(black_box(number), black_box(rounds)));
    start.elapsed().as_nanos()
}
