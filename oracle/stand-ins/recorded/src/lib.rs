//! The recorded history that stands in for the object store and the diff: a table set up before
//! the call. Every other stand-in only hands over what is written here.

use std::ops::Range;

/// The name of the one file that a recorded history has.
pub const PATH: &[u8] = b"file";

/// A commit's number is its place in `commits`.
#[derive(Clone, Debug, Default)]
pub struct History {
    /// `None` is a commit that can't be read.
    pub commits: Vec<Option<Commit>>,
    /// One for each commit and parent that are compared.
    pub comparisons: Vec<Comparison>,
}

#[derive(Clone, Debug)]
pub struct Commit {
    pub time: i64,
    pub parents: Vec<u32>,
    /// The file in this commit, if it has it.
    pub file: Option<File>,
}

#[derive(Clone, Copy, Debug)]
pub struct File {
    pub blob: u32,
    pub lines: u32,
}

#[derive(Clone, Debug)]
pub struct Comparison {
    pub commit: u32,
    pub parent: u32,
    pub kind: Kind,
}

#[derive(Clone, Debug)]
pub enum Kind {
    Added,
    Unchanged,
    Modified(Vec<Hunk>),
}

/// Lines `before` of the parent were replaced by lines `after` of the commit.
/// One of both may be empty. Lines between hunks are unchanged.
#[derive(Clone, Debug, PartialEq)]
pub struct Hunk {
    pub before: Range<u32>,
    pub after: Range<u32>,
}

/// What was asked for is not in the table.
#[derive(Clone, Copy, Debug)]
pub struct NotRecorded;

impl History {
    pub fn commit(&self, number: u32) -> Result<&Commit, NotRecorded> {
        self.commits
            .get(number as usize)
            .and_then(Option::as_ref)
            .ok_or(NotRecorded)
    }

    /// A comparison, with its place in `comparisons`.
    pub fn comparison(&self, commit: u32, parent: u32) -> Result<(u32, &Comparison), NotRecorded> {
        self.comparisons
            .iter()
            .enumerate()
            .find(|(_, c)| c.commit == commit && c.parent == parent)
            .map(|(place, c)| (place as u32, c))
            .ok_or(NotRecorded)
    }

    /// The text of a blob: as many empty lines as it has lines.
    pub fn blob_text(&self, blob: u32) -> Result<Vec<u8>, NotRecorded> {
        self.commits
            .iter()
            .flatten()
            .filter_map(|commit| commit.file)
            .find(|file| file.blob == blob)
            .map(|file| vec![b'\n'; file.lines as usize])
            .ok_or(NotRecorded)
    }

    /// The text of the newer side of the comparison at `place`; see [`text_with_hunks()`].
    pub fn compared_text(&self, place: u32) -> Result<Vec<u8>, NotRecorded> {
        let comparison = self.comparisons.get(place as usize).ok_or(NotRecorded)?;
        let file = self.commit(comparison.commit)?.file.ok_or(NotRecorded)?;
        match &comparison.kind {
            Kind::Modified(hunks) => Ok(text_with_hunks(hunks, file.lines)),
            Kind::Added | Kind::Unchanged => Err(NotRecorded),
        }
    }
}

/// A text of `lines` lines (at least one) whose first line carries `hunks`, four numbers each.
/// The stand-in for the diff reads them from there.
pub fn text_with_hunks(hunks: &[Hunk], lines: u32) -> Vec<u8> {
    let numbers: Vec<String> = hunks
        .iter()
        .flat_map(|h| [h.before.start, h.before.end, h.after.start, h.after.end])
        .map(|number| number.to_string())
        .collect();
    let mut text = numbers.join(" ").into_bytes();
    text.extend(std::iter::repeat_n(b'\n', lines as usize));
    text
}

/// Reads back what [`text_with_hunks()`] has put into the first line.
pub fn hunks_in_line(line: &[u8]) -> Vec<Hunk> {
    let line = std::str::from_utf8(line).expect("written by text_with_hunks");
    let numbers: Vec<u32> = line
        .split_ascii_whitespace()
        .map(|number| number.parse().expect("written by text_with_hunks"))
        .collect();
    numbers
        .chunks(4)
        .map(|n| Hunk {
            before: n[0]..n[1],
            after: n[2]..n[3],
        })
        .collect()
}
