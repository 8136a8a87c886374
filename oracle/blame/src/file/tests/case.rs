//! A case of `process_changes`, as plain numbers, and its line in a case file.

use super::super::{Change, UnblamedHunk, process_changes};
use gix_hash::ObjectId;
use std::{fmt::Write, ops::Range};

/// A hunk: its range in the asked file, and the suspects, each a commit with its range there.
#[derive(Clone, Debug, PartialEq)]
pub struct Row {
    pub asked: Range<u32>,
    pub suspects: Vec<(u32, Range<u32>)>,
}

#[derive(Clone, Debug)]
pub struct Case {
    pub suspect: u32,
    pub parent: u32,
    pub hunks: Vec<Row>,
    pub changes: Vec<Change>,
}

impl Case {
    /// The hunks in the crate's own type.
    pub fn crate_hunks(&self) -> Vec<UnblamedHunk> {
        let to_crate = |row: &Row| UnblamedHunk {
            range_in_blamed_file: row.asked.clone(),
            suspects: row
                .suspects
                .iter()
                .map(|(commit, range)| (ObjectId(*commit), range.clone()))
                .collect(),
            source_file_name: None,
        };
        self.hunks.iter().map(to_crate).collect()
    }

    /// What the crate's `process_changes` answers.
    pub fn crate_answer(&self) -> Vec<Row> {
        let pieces = process_changes(
            self.crate_hunks(),
            self.changes.clone(),
            ObjectId(self.suspect),
            ObjectId(self.parent),
        );
        let from_crate = |hunk: &UnblamedHunk| Row {
            asked: hunk.range_in_blamed_file.clone(),
            suspects: hunk
                .suspects
                .iter()
                .map(|(commit, range)| (commit.0, range.clone()))
                .collect(),
        };
        pieces.iter().map(from_crate).collect()
    }

    /// The line of a case file; see README.md for the grammar.
    pub fn line(&self, answer: &[Row]) -> String {
        let mut line = format!("{} {} ; H", self.suspect, self.parent);
        put_rows(&mut line, &self.hunks);
        line += " ; C";
        put_changes(&mut line, &self.changes);
        line += " ; R";
        put_rows(&mut line, answer);
        line
    }
}

/// Appends a number with the space before it.
pub fn put(line: &mut String, number: impl std::fmt::Display) {
    write!(line, " {number}").expect("a string takes everything");
}

pub fn put_range(line: &mut String, range: &Range<u32>) {
    put(line, range.start);
    put(line, range.end);
}

pub fn put_changes(line: &mut String, changes: &[Change]) {
    put(line, changes.len());
    for change in changes {
        match change {
            Change::Unchanged(range) => {
                *line += " U";
                put_range(line, range);
            }
            Change::AddedOrReplaced(range, deleted) => {
                *line += " A";
                put_range(line, range);
                put(line, deleted);
            }
            Change::Deleted(at, deleted) => {
                *line += " D";
                put(line, at);
                put(line, deleted);
            }
        }
    }
}

fn put_rows(line: &mut String, rows: &[Row]) {
    put(line, rows.len());
    for row in rows {
        put_range(line, &row.asked);
        put(line, row.suspects.len());
        for (commit, range) in &row.suspects {
            put(line, commit);
            put_range(line, range);
        }
    }
}
