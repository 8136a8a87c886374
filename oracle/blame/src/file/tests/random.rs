//! Random cases, always the same ones.

use super::{
    super::Change,
    case::{Case, Row},
};

/// A linear congruential generator (Knuth's MMIX constants), of which the upper half is used.
pub struct Random(pub u64);

impl Random {
    /// A number from `low` to `high`, both included.
    pub fn between(&mut self, low: u32, high: u32) -> u32 {
        self.0 = self
            .0
            .wrapping_mul(6364136223846793005)
            .wrapping_add(1442695040888963407);
        low + ((self.0 >> 33) % u64::from(high - low + 1)) as u32
    }

    pub fn one_in(&mut self, n: u32) -> bool {
        self.between(1, n) == 1
    }

    /// A valid list of 1 to `most_changes` changes with a new total from 1 to `most_lines`.
    pub fn list(&mut self, most_changes: u32, most_lines: u32) -> (Vec<Change>, u32) {
        loop {
            let mut changes = Vec::new();
            let mut total = 0;
            // Mostly short ranges, sometimes longer ones.
            let longest = if self.one_in(3) { 12 } else { 5 };
            for _ in 0..self.between(1, most_changes) {
                let end = total + self.between(1, longest);
                match self.between(0, 2) {
                    0 => changes.push(Change::Deleted(total, self.between(1, 9))),
                    _ if end > most_lines => break,
                    1 => {
                        changes.push(Change::Unchanged(total..end));
                        total = end;
                    }
                    _ => {
                        changes.push(Change::AddedOrReplaced(total..end, self.between(0, 9)));
                        total = end;
                    }
                }
            }
            if total > 0 {
                return (changes, total);
            }
        }
    }
}

const MOST_COMMIT: u32 = 9;
const MOST_CHANGES: u32 = 12;
const MOST_LINES: u32 = 60;
const MOST_HUNKS: u32 = 6;
const MOST_SUSPECTS: u32 = 4;

pub fn cases() -> impl Iterator<Item = Case> {
    let mut random = Random(20_240_919);
    std::iter::repeat_with(move || case(&mut random))
}

fn case(random: &mut Random) -> Case {
    let suspect = random.between(1, MOST_COMMIT);
    let parent = loop {
        let parent = random.between(1, MOST_COMMIT);
        if parent != suspect {
            break parent;
        }
    };
    let (changes, total) = random.list(MOST_CHANGES, MOST_LINES);
    let hunks = (0..random.between(1, MOST_HUNKS))
        .map(|_| hunk(random, suspect, parent, total))
        .collect();
    Case {
        suspect,
        parent,
        hunks,
        changes,
    }
}

/// A hunk that names the suspect, at any position, in two of three cases, and never the parent.
fn hunk(random: &mut Random, suspect: u32, parent: u32, total: u32) -> Row {
    let length = random.between(1, total);
    let count = random.between(1, MOST_SUSPECTS) as usize;
    let named = !random.one_in(3);
    let place = random.between(0, count as u32 - 1) as usize;
    let mut commits = Vec::new();
    while commits.len() < count {
        let commit = match random.between(1, MOST_COMMIT) {
            _ if named && commits.len() == place => suspect,
            commit => commit,
        };
        let wanted = commit != suspect || named && commits.len() == place;
        if wanted && commit != parent && !commits.contains(&commit) {
            commits.push(commit);
        }
    }
    let mut range = |last_start| {
        let start = random.between(0, last_start);
        start..start + length
    };
    Row {
        asked: range(99),
        suspects: commits
            .into_iter()
            .map(|commit| (commit, range(total - length)))
            .collect(),
    }
}
