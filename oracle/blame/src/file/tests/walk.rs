//! Cases of the whole walk, `file()`, over recorded histories.

use super::{
    super::Change,
    case::{Case, Row, put, put_changes},
    model,
    random::Random,
};
use crate::{BlameRanges, Options, Start};
use gix_hash::ObjectId;
use gix_object::bstr::BString;
use std::{
    cmp::Reverse,
    io::{BufWriter, Write, stdout},
};

pub struct WalkCase {
    commits: Vec<recorded::Commit>,
    /// For each commit with the file, one for each parent, in order.
    comparisons: Vec<Comparison>,
    start: u32,
    /// From line to line, counted from 1, both included. None at all means the whole file.
    ranges: Vec<(u32, u32)>,
    cut_off: Option<i64>,
}

struct Comparison {
    commit: u32,
    parent: u32,
    kind: Kind,
}

enum Kind {
    Added,
    Unchanged,
    Modified(Vec<Change>),
}

/// A credited range: `length` lines at `asked` in the asked file are those at `source` in `commit`.
#[derive(Clone, Copy, Debug, PartialEq)]
struct Entry {
    commit: u32,
    asked: u32,
    source: u32,
    length: u32,
}

#[derive(Debug, PartialEq)]
struct Answer {
    traversed: usize,
    entries: Vec<Entry>,
}

/// Writes the first `count` cases on which crate and rules have to agree.
pub fn write(count: usize) -> std::io::Result<()> {
    let mut out = BufWriter::new(stdout().lock());
    for case in cases().filter(|case| model_answer(case).is_some()).take(count) {
        writeln!(out, "{}", case.line(&case.crate_answer()))?;
    }
    out.flush()
}

/// Compares the crate's answers with those of the model, prints and returns how many differ.
pub fn check(count: usize) -> usize {
    let (mut compared, mut entries, mut merges, mut left_out, mut different) = (0, 0, 0, 0, 0);
    for case in cases() {
        if compared == count {
            break;
        }
        let Some(expected) = model_answer(&case) else {
            left_out += 1;
            continue;
        };
        let answer = case.crate_answer();
        compared += 1;
        entries += answer.entries.len();
        merges += usize::from(case.commits.iter().any(|commit| commit.parents.len() > 1));
        if answer != expected {
            different += 1;
            if different <= 3 {
                eprintln!("differs: {}, expected {expected:?}", case.line(&answer));
            }
        }
    }
    println!(
        "walk: {compared} cases, {merges} with merges, {entries} entries, {different} differences; {left_out} cases left out"
    );
    different
}

impl WalkCase {
    /// What the crate's `file()` answers.
    fn crate_answer(&self) -> Answer {
        let history = recorded::History {
            commits: self.commits.iter().cloned().map(Some).collect(),
            comparisons: self
                .comparisons
                .iter()
                .map(|comparison| recorded::Comparison {
                    commit: comparison.commit,
                    parent: comparison.parent,
                    kind: match &comparison.kind {
                        Kind::Added => recorded::Kind::Added,
                        Kind::Unchanged => recorded::Kind::Unchanged,
                        Kind::Modified(changes) => recorded::Kind::Modified(hunks(changes)),
                    },
                })
                .collect(),
        };
        let ranges = self.ranges.iter().map(|(first, last)| *first..=*last).collect();
        let outcome = crate::file(
            history,
            Start::Commit(ObjectId(self.start)),
            None,
            &mut gix_diff::blob::Platform::default(),
            &BString::new(recorded::PATH.to_vec()),
            Options {
                ranges: BlameRanges::from_one_based_inclusive_ranges(ranges).expect("lines count from 1"),
                since: self.cut_off.map(|seconds| gix_date::Time { seconds }),
                ..Options::default()
            },
        )
        .expect("all is recorded");
        Answer {
            traversed: outcome.statistics.commits_traversed,
            entries: outcome
                .entries
                .iter()
                .map(|entry| Entry {
                    commit: entry.commit_id.0,
                    asked: entry.start_in_blamed_file,
                    source: entry.start_in_source_file,
                    length: entry.len.get(),
                })
                .collect(),
        }
    }

    /// The line of a case file; see README.md for the grammar.
    fn line(&self, answer: &Answer) -> String {
        let mut line = format!("K {}", self.commits.len());
        for commit in &self.commits {
            put(&mut line, commit.time);
            put(&mut line, commit.parents.len());
            for parent in &commit.parents {
                put(&mut line, parent);
            }
            match commit.file {
                None => line += " 0",
                Some(file) => {
                    line += " 1";
                    put(&mut line, file.blob);
                    put(&mut line, file.lines);
                }
            }
        }
        line += " ; Q";
        put(&mut line, self.comparisons.len());
        for comparison in &self.comparisons {
            put(&mut line, comparison.commit);
            put(&mut line, comparison.parent);
            match &comparison.kind {
                Kind::Added => line += " N",
                Kind::Unchanged => line += " E",
                Kind::Modified(changes) => {
                    line += " M";
                    put_changes(&mut line, changes);
                }
            }
        }
        line += " ; S";
        put(&mut line, self.start);
        put(&mut line, self.ranges.len());
        for (first, last) in &self.ranges {
            put(&mut line, first);
            put(&mut line, last);
        }
        match self.cut_off {
            None => line += " 0",
            Some(seconds) => {
                line += " 1";
                put(&mut line, seconds);
            }
        }
        line += " ; R";
        put(&mut line, answer.traversed);
        put(&mut line, answer.entries.len());
        for entry in &answer.entries {
            put(&mut line, entry.commit);
            put(&mut line, entry.asked);
            put(&mut line, entry.source);
            put(&mut line, entry.length);
        }
        line
    }
}

/// A list of changes in the form in which the stand-in for the diff hands it over.
fn hunks(changes: &[Change]) -> Vec<recorded::Hunk> {
    let mut hunks = Vec::new();
    let mut before = 0;
    for change in changes {
        let (after, deleted) = match change {
            Change::Unchanged(range) => {
                before += range.end - range.start;
                continue;
            }
            Change::AddedOrReplaced(range, deleted) => (range.clone(), *deleted),
            Change::Deleted(line, deleted) => (*line..*line, *deleted),
        };
        hunks.push(recorded::Hunk {
            before: before..before + deleted,
            after,
        });
        before += deleted;
    }
    hunks
}

/// What the walk should answer, written from the rules and not from the crate's code, or `None`
/// where the crate is known to part from them: a commit without parents that a hunk names is
/// taken from the queue and others are still queued.
fn model_answer(case: &WalkCase) -> Option<Answer> {
    let mut pending: Vec<Row> = asked_ranges(case)
        .into_iter()
        .map(|asked| Row {
            asked: asked.clone(),
            suspects: vec![(case.start, asked)],
        })
        .collect();
    let mut queue = vec![case.start];
    let mut credits = Vec::new();
    let mut traversed = 0;
    loop {
        queue.sort_by_key(|commit| (Reverse(case.commits[*commit as usize].time), *commit));
        if queue.is_empty() {
            break;
        }
        let c = queue.remove(0);
        traversed += 1;
        if pending.is_empty() {
            break;
        }
        if !pending.iter().any(|hunk| names(hunk, c)) {
            continue;
        }
        let commit = &case.commits[c as usize];
        if case.cut_off.is_some_and(|cut_off| commit.time < cut_off) {
            credit(&mut pending, &mut credits, c, |hunk| names(hunk, c));
            if pending.is_empty() {
                break;
            }
            continue;
        }
        if commit.parents.is_empty() {
            if !queue.is_empty() {
                return None;
            }
            credit(&mut pending, &mut credits, c, |hunk| names(hunk, c));
            if pending.is_empty() {
                break;
            }
            continue;
        }
        let Some(file) = commit.file else { continue };
        let same_blob = |p: &&u32| {
            case.commits[**p as usize]
                .file
                .is_some_and(|other| other.blob == file.blob)
        };
        if let Some(p) = commit.parents.iter().find(same_blob) {
            queue.push(*p);
            pending.iter_mut().for_each(|hunk| replace(hunk, c, *p));
            continue;
        }
        let several = commit.parents.len() > 1;
        let mut answered = false;
        for p in &commit.parents {
            queue.push(*p);
            let comparison = case
                .comparisons
                .iter()
                .find(|each| each.commit == c && each.parent == *p);
            match &comparison.expect("each is recorded").kind {
                Kind::Unchanged if several => pending.iter_mut().for_each(|hunk| copy(hunk, c, *p)),
                Kind::Unchanged => pending.iter_mut().for_each(|hunk| replace(hunk, c, *p)),
                Kind::Added if several => {}
                Kind::Added => {
                    credit(&mut pending, &mut credits, c, |hunk| names(hunk, c));
                    answered = pending.is_empty();
                }
                Kind::Modified(changes) => {
                    pending = model::answer(&Case {
                        suspect: c,
                        parent: *p,
                        hunks: pending,
                        changes: changes.clone(),
                    });
                }
            }
        }
        if answered {
            break;
        }
        credit(&mut pending, &mut credits, c, |hunk| {
            names(hunk, c) && hunk.suspects.len() == 1
        });
        pending
            .iter_mut()
            .for_each(|hunk| hunk.suspects.retain(|(commit, _)| *commit != c));
    }
    assert!(pending.is_empty(), "each line finds its commit");
    credits.sort_by_key(|entry| entry.asked);
    Some(Answer {
        traversed,
        entries: joined(credits),
    })
}

/// The asked lines, from 0, as the longest ranges without a gap.
fn asked_ranges(case: &WalkCase) -> Vec<std::ops::Range<u32>> {
    let lines = case.commits[case.start as usize]
        .file
        .expect("the start has the file")
        .lines;
    let asked = |line: u32| {
        case.ranges.is_empty()
            || case
                .ranges
                .iter()
                .any(|(first, last)| (*first..=*last).contains(&(line + 1)))
    };
    let mut ranges: Vec<std::ops::Range<u32>> = Vec::new();
    for line in (0..lines).filter(|line| asked(*line)) {
        match ranges.last_mut() {
            Some(range) if range.end == line => range.end += 1,
            _ => ranges.push(line..line + 1),
        }
    }
    ranges
}

fn names(hunk: &Row, commit: u32) -> bool {
    hunk.suspects.iter().any(|(each, _)| *each == commit)
}

fn replace(hunk: &mut Row, from: u32, to: u32) {
    for (commit, _) in &mut hunk.suspects {
        if *commit == from {
            *commit = to;
        }
    }
}

fn copy(hunk: &mut Row, from: u32, to: u32) {
    if let Some((_, range)) = hunk.suspects.iter().find(|(commit, _)| *commit == from) {
        let range = range.clone();
        hunk.suspects.push((to, range));
    }
}

/// Takes the hunks that `wanted` tells from `pending` and credits their lines to `commit`.
fn credit(pending: &mut Vec<Row>, credits: &mut Vec<Entry>, commit: u32, wanted: impl Fn(&Row) -> bool) {
    for hunk in pending.extract_if(.., |hunk| wanted(hunk)) {
        let (_, range) = hunk
            .suspects
            .iter()
            .find(|(each, _)| *each == commit)
            .expect("the hunk names it");
        credits.push(Entry {
            commit,
            asked: hunk.asked.start,
            source: range.start,
            length: range.end - range.start,
        });
    }
}

/// Neighbours of one commit that follow each other in both files become one.
fn joined(credits: Vec<Entry>) -> Vec<Entry> {
    let mut entries: Vec<Entry> = Vec::new();
    for next in credits {
        match entries.last_mut() {
            Some(last)
                if last.commit == next.commit
                    && last.asked + last.length == next.asked
                    && last.source + last.length == next.source =>
            {
                last.length += next.length;
            }
            _ => entries.push(next),
        }
    }
    entries
}

const MOST_COMMITS: u32 = 12;
const MOST_PARENTS: usize = 3;
const MOST_RANGES: u32 = 3;

fn cases() -> impl Iterator<Item = WalkCase> {
    let mut random = Random(20_260_321);
    std::iter::repeat_with(move || case(&mut random))
}

/// A history in which each commit but the start is a parent of exactly one other, so that no two
/// ways meet.
fn case(random: &mut Random) -> WalkCase {
    let count = random.between(1, MOST_COMMITS);
    // Made in the order start first, parents later; `number` gives each its commit number.
    let mut number: Vec<u32> = (0..count).collect();
    for i in (1..count).rev() {
        number.swap(i as usize, random.between(0, i) as usize);
    }
    let lines = random.between(1, 16);
    let mut made = vec![recorded::Commit {
        time: i64::from(random.between(40, 44)),
        parents: vec![],
        file: Some(recorded::File { blob: 100, lines }),
    }];
    let mut comparisons = Vec::new();
    for i in 1..count {
        // Mostly a parent of the commit made last, sometimes of an earlier one.
        let child = loop {
            let child = if random.one_in(3) {
                random.between(0, i - 1)
            } else {
                i - 1
            };
            if made[child as usize].parents.len() < MOST_PARENTS {
                break child as usize;
            }
        };
        let file = |lines| Some(recorded::File { blob: 100 + i, lines });
        let (file, kind) = match made[child].file {
            None => (file(7).filter(|_| random.one_in(2)), None),
            Some(newer) => match random.between(1, 12) {
                1 => (None, Some(Kind::Added)),
                2 | 3 => (Some(newer), Some(Kind::Unchanged)),
                4 => (file(newer.lines), Some(Kind::Unchanged)),
                _ => {
                    let (changes, old_total) = list_of(random, newer.lines);
                    (file(old_total), Some(Kind::Modified(changes)))
                }
            },
        };
        // Mostly older than the child, sometimes as old or newer.
        let earlier = i64::from(random.between(0, 4));
        let time = made[child].time + if random.one_in(12) { earlier } else { -earlier };
        made[child].parents.push(number[i as usize]);
        made.push(recorded::Commit {
            time: time.max(0),
            parents: vec![],
            file,
        });
        if let Some(kind) = kind {
            comparisons.push(Comparison {
                commit: number[child],
                parent: number[i as usize],
                kind,
            });
        }
    }
    // By commit; for each in the order of its parents, in which they were made.
    comparisons.sort_by_key(|comparison| comparison.commit);
    let mut commits: Vec<_> = number.iter().zip(made).collect();
    commits.sort_by_key(|(number, _)| **number);

    let ranges = match random.one_in(2) {
        true => vec![],
        false => (0..random.between(1, MOST_RANGES))
            .map(|_| {
                let first = random.between(1, lines);
                (first, first + random.between(0, 6))
            })
            .collect(),
    };
    WalkCase {
        commits: commits.into_iter().map(|(_, commit)| commit).collect(),
        comparisons,
        start: number[0],
        ranges,
        cut_off: random.one_in(4).then(|| i64::from(random.between(20, 45))),
    }
}

/// A valid list with the new total `total`, and its old total.
fn list_of(random: &mut Random, total: u32) -> (Vec<Change>, u32) {
    let mut changes = Vec::new();
    let (mut at, mut old_total) = (0, 0);
    loop {
        if random.one_in(6) {
            let deleted = random.between(1, 3);
            changes.push(Change::Deleted(at, deleted));
            old_total += deleted;
        }
        if at == total {
            return (changes, old_total);
        }
        let end = total.min(at + random.between(1, 6));
        if random.one_in(3) {
            let deleted = random.between(0, 3);
            changes.push(Change::AddedOrReplaced(at..end, deleted));
            old_total += deleted;
        } else {
            changes.push(Change::Unchanged(at..end));
            old_total += end - at;
        }
        at = end;
    }
}
