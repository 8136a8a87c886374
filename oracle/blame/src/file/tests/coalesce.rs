//! Cases of `coalesce_blame_entries`, which makes one of neighbours that go on where others end.

use super::{
    super::{Change, UnblamedHunk, process_changes},
    case::put,
    random::Random,
};
use crate::BlameEntry;
use gix_hash::ObjectId;
use std::num::NonZeroU32;

/// The crate's file once more, since only its own module can call what is private in it. What the
/// file names as `super::..` are the imports above.
mod function {
    include!("../function.rs");

    pub fn coalesced(entries: Vec<BlameEntry>) -> Vec<BlameEntry> {
        coalesce_blame_entries(entries)
    }
}

/// The most lines that a file may have by our rules.
const FILE_LIMIT: u32 = 16_777_215;

/// `length` lines at `asked` in the asked file are those at `source` in `commit`.
#[derive(Clone, Copy, Debug, PartialEq)]
pub struct Entry {
    commit: u32,
    asked: u32,
    source: u32,
    length: u32,
}

pub struct JoinCase(Vec<Entry>);

impl JoinCase {
    /// What the crate's `coalesce_blame_entries` answers.
    pub fn crate_answer(&self) -> Vec<Entry> {
        let to_crate = |entry: &Entry| BlameEntry {
            start_in_blamed_file: entry.asked,
            start_in_source_file: entry.source,
            len: NonZeroU32::new(entry.length).expect("each has a line"),
            commit_id: ObjectId(entry.commit),
            source_file_name: None,
        };
        let from_crate = |entry: &BlameEntry| Entry {
            commit: entry.commit_id.0,
            asked: entry.start_in_blamed_file,
            source: entry.start_in_source_file,
            length: entry.len.get(),
        };
        function::coalesced(self.0.iter().map(to_crate).collect())
            .iter()
            .map(from_crate)
            .collect()
    }

    /// The line of a case file; see README.md for the grammar.
    pub fn line(&self, answer: &[Entry]) -> String {
        let mut line = "E".to_owned();
        put_entries(&mut line, &self.0);
        line += " ; R";
        put_entries(&mut line, answer);
        line
    }

    /// What the rules give: an entry begins where one does not go on from the one before it, and
    /// has the lines of all up to the next such place.
    fn model_answer(&self) -> Vec<Entry> {
        let goes_on = |a: &Entry, b: &Entry| {
            a.commit == b.commit && b.asked == a.asked + a.length && b.source == a.source + a.length
        };
        self.0
            .chunk_by(goes_on)
            .map(|run| Entry {
                length: run.iter().map(|entry| entry.length).sum(),
                ..run[0]
            })
            .collect()
    }
}

fn put_entries(line: &mut String, entries: &[Entry]) {
    put(line, entries.len());
    for entry in entries {
        put(line, entry.commit);
        put(line, entry.asked);
        put(line, entry.source);
        put(line, entry.length);
    }
}

const MOST_ENTRIES: usize = 3;
const COMMITS: u32 = 2;
const MOST_START: u32 = 2;
const MOST_LENGTH: u32 = 2;

/// Every list of at most so many entries of small numbers, in any order.
pub fn exhaustive() -> impl Iterator<Item = JoinCase> {
    let mut entries = Vec::new();
    for commit in 1..=COMMITS {
        for asked in 0..=MOST_START {
            for source in 0..=MOST_START {
                for length in 1..=MOST_LENGTH {
                    entries.push(Entry {
                        commit,
                        asked,
                        source,
                        length,
                    });
                }
            }
        }
    }
    let kinds = entries.len();
    (0..=MOST_ENTRIES as u32).flat_map(move |size| {
        let entries = entries.clone();
        (0..kinds.pow(size)).map(move |number| {
            let digit = |place: u32| entries[number / kinds.pow(size - 1 - place) % kinds];
            JoinCase((0..size).map(digit).collect())
        })
    })
}

const RANDOM_COMMITS: u32 = 3;
const RANDOM_ENTRIES: u32 = 10;
const RANDOM_LENGTH: u32 = 5;

/// Random entries, each going on from the one before it, or not quite. One list in four is then
/// put out of order, and one in five stands at the file limit.
pub fn random() -> impl Iterator<Item = JoinCase> {
    let mut random = Random(20_241_106);
    std::iter::repeat_with(move || {
        let before = if random.one_in(5) { FILE_LIMIT - 99 } else { 0 };
        let mut next = Entry {
            commit: random.between(1, RANDOM_COMMITS),
            asked: before + random.between(0, 9),
            source: before + random.between(0, 9),
            length: 1,
        };
        let mut entries = Vec::new();
        for _ in 0..random.between(1, RANDOM_ENTRIES) {
            next.length = random.between(1, RANDOM_LENGTH);
            entries.push(next);
            next.asked += next.length;
            next.source += next.length;
            match random.between(1, 8) {
                1 => next.asked += random.between(1, 3),
                2 => next.source += random.between(1, 3),
                3 => next.source = before + random.between(0, 60),
                4 => next.commit = random.between(1, RANDOM_COMMITS),
                _ => {}
            }
        }
        if random.one_in(4) {
            let last = entries.len() as u32 - 1;
            for place in 0..entries.len() {
                entries.swap(place, random.between(0, last) as usize);
            }
        }
        // At the limit: the list ends there in the asked file, in the source or in both.
        if before > 0 {
            let asked_end = entries.iter().map(|entry| entry.asked + entry.length).max();
            let source_end = entries.iter().map(|entry| entry.source + entry.length).max();
            let asked_by = FILE_LIMIT - asked_end.expect("there is one");
            let source_by = FILE_LIMIT - source_end.expect("there is one");
            for entry in &mut entries {
                entry.asked += asked_by;
                entry.source += source_by;
            }
        }
        JoinCase(entries)
    })
}

/// Where our rules part from the crate: each is one case that docs/DIFFERENCES.md may name.
pub fn differences() -> impl Iterator<Item = JoinCase> {
    let pair = |asked: u32, source: u32, length: u32| {
        let first = Entry {
            commit: 1,
            asked,
            source,
            length,
        };
        let second = Entry {
            commit: 1,
            asked: asked + length,
            source: source + length,
            length: 1,
        };
        JoinCase(vec![first, second])
    };
    [
        // Entries that abut; the second ends one line past the file limit, in both files, in the
        // asked file alone, and in the source alone.
        pair(FILE_LIMIT - 1, FILE_LIMIT - 1, 1),
        pair(FILE_LIMIT - 1, 0, 1),
        pair(0, FILE_LIMIT - 1, 1),
        // .. and far past it.
        pair(FILE_LIMIT, 0, FILE_LIMIT),
    ]
    .into_iter()
}

/// Compares the crate's answers with those of the model; prints and returns how many differ.
pub fn check(name: &str, cases: impl Iterator<Item = JoinCase>) -> usize {
    let (mut count, mut entries, mut joined, mut different) = (0, 0, 0, 0);
    for case in cases {
        let answer = case.crate_answer();
        count += 1;
        entries += answer.len();
        joined += usize::from(answer.len() < case.0.len());
        if answer != case.model_answer() {
            different += 1;
            if different <= 3 {
                eprintln!("differs: {}", case.line(&answer));
            }
        }
    }
    println!("coalesce, {name}: {count} cases, {joined} with a join, {entries} entries, {different} differences");
    different
}
