//! Times the crate's `process_changes`.

use super::{
    super::{Change, process_changes},
    case::{Case, Row},
};
use gix_hash::ObjectId;
use std::{hint::black_box, time::Instant};

const SUSPECT: u32 = 1;
const PARENT: u32 = 2;

/// The three tables, each with a name. Each hunk names commit 1 alone, and each answer has 256 pieces.
pub fn tables() -> [(&'static str, Case); 3] {
    let case = |hunks: Vec<Row>, changes| Case {
        suspect: SUSPECT,
        parent: PARENT,
        hunks,
        changes,
    };
    let hunk = |start: u32, end: u32| Row {
        asked: start..end,
        suspects: vec![(SUSPECT, start..end)],
    };
    [
        // Lines in groups of 12, 8 unchanged and 4 that replace 2. Hunk i is the unchanged part
        // of group i if i is even, else the replaced one, so that nothing is cut.
        (
            "256 hunks x 512 changes",
            case(
                (0..256)
                    .map(|i| match i % 2 {
                        0 => hunk(12 * i, 12 * i + 8),
                        _ => hunk(12 * i + 8, 12 * i + 12),
                    })
                    .collect(),
                (0..256)
                    .flat_map(|i| {
                        [
                            Change::Unchanged(12 * i..12 * i + 8),
                            Change::AddedOrReplaced(12 * i + 8..12 * i + 12, 2),
                        ]
                    })
                    .collect(),
            ),
        ),
        // Lines in groups of 12, of four changes: 4 that replace 2, then 3 deleted, then 4 and 4
        // unchanged. The one hunk has all lines; each group is cut into two pieces.
        (
            "1 hunk x 512 changes",
            case(
                vec![hunk(0, 12 * 128)],
                (0..128)
                    .flat_map(|i| {
                        [
                            Change::AddedOrReplaced(12 * i..12 * i + 4, 2),
                            Change::Deleted(12 * i + 4, 3),
                            Change::Unchanged(12 * i + 4..12 * i + 8),
                            Change::Unchanged(12 * i + 8..12 * i + 12),
                        ]
                    })
                    .collect(),
            ),
        ),
        // All lines are unchanged, four for each hunk.
        (
            "256 hunks x 1 change",
            case(
                (0..256).map(|i| hunk(4 * i, 4 * i + 4)).collect(),
                vec![Change::Unchanged(0..4 * 256)],
            ),
        ),
    ]
}

/// How often a table is timed, and how long one timing should last at least.
const ROUNDS: usize = 41;
const ROUND_NANOSECONDS: u128 = 20_000_000;

pub fn run() {
    for (name, case) in tables() {
        let pieces = case.crate_answer().len();
        let mut calls = 1;
        while time(&case, calls) < ROUND_NANOSECONDS {
            calls *= 2;
        }
        let mut rounds: Vec<u128> = (0..ROUNDS).map(|_| time(&case, calls) / calls as u128).collect();
        rounds.sort_unstable();
        println!(
            "{name}: {pieces} pieces, {} ns a call (least {}, most {}; {ROUNDS} rounds of {calls} calls)",
            rounds[ROUNDS / 2],
            rounds[0],
            rounds[ROUNDS - 1]
        );
    }
}

/// The time for so many calls. `process_changes` takes its tables by value: they are made right
/// before each call, and its answer is dropped after, off the clock.
pub fn time(case: &Case, calls: usize) -> u128 {
    let mut spent = 0;
    for _ in 0..calls {
        let hunks = black_box(case.crate_hunks());
        let changes = black_box(case.changes.clone());
        let start = Instant::now();
        let answer = process_changes(hunks, changes, ObjectId(case.suspect), ObjectId(case.parent));
        spent += start.elapsed().as_nanos();
        black_box(answer);
    }
    spent
}
