//! Cases of `BlameRanges`: asked ranges, added one by one, and clipped to a file's lines.

use super::{
    case::{put, put_range},
    random::Random,
};
use crate::{BlameRanges, Error};
use std::ops::Range;

/// The most lines that a file may have by our rules.
const FILE_LIMIT: u32 = 16_777_215;

const MOST_RANGES: usize = 3;
const MOST_LINE: u32 = 5;
const MOST_CLIP: u32 = 6;

#[derive(Clone)]
pub struct RangesCase {
    /// From line to line, counted from 1, both included. None at all means the whole file.
    asked: Vec<(u32, u32)>,
    lines: u32,
}

impl RangesCase {
    /// What the crate answers, the ranges being added one by one to the whole file.
    pub fn crate_answer(&self) -> Vec<Range<u32>> {
        let mut ranges = BlameRanges::default();
        for (first, last) in &self.asked {
            ranges
                .add_one_based_inclusive_range(*first..=*last)
                .expect("lines count from 1");
        }
        ranges.to_zero_based_exclusive_ranges(self.lines)
    }

    /// The same, the ranges being handed over as a list.
    fn crate_answer_to_list(&self) -> Result<Vec<Range<u32>>, Error> {
        let list = self.asked.iter().map(|(first, last)| *first..=*last).collect();
        Ok(BlameRanges::from_one_based_inclusive_ranges(list)?.to_zero_based_exclusive_ranges(self.lines))
    }

    /// The line of a case file; see README.md for the grammar.
    pub fn line(&self, answer: &[Range<u32>]) -> String {
        let mut line = format!("A {}", self.asked.len());
        for (first, last) in &self.asked {
            put(&mut line, first);
            put(&mut line, last);
        }
        line += " ; L";
        put(&mut line, self.lines);
        line += " ; R";
        put(&mut line, answer.len());
        answer.iter().for_each(|range| put_range(&mut line, range));
        line
    }

    /// What the rules give: the longest runs of asked lines inside the file. From one start or end
    /// of a range to the next, all lines are asked or none is, so only the first is looked at.
    fn model_answer(&self) -> Vec<Range<u32>> {
        let asked = |line: u32| {
            line < self.lines
                && (self.asked.is_empty()
                    || self
                        .asked
                        .iter()
                        .any(|(first, last)| *first <= line + 1 && line + 1 <= *last))
        };
        let mut cuts = vec![0, self.lines];
        for (first, last) in &self.asked {
            cuts.extend([*first - 1, *last]);
        }
        cuts.sort_unstable();
        cuts.dedup();
        let mut runs: Vec<Range<u32>> = Vec::new();
        for pair in cuts.windows(2) {
            let (start, end) = (pair[0], pair[1]);
            if asked(start) {
                match runs.last_mut() {
                    Some(run) if run.end == start => run.end = end,
                    _ => runs.push(start..end),
                }
            }
        }
        runs
    }
}

/// Every sequence of at most so many ranges of small lines, clipped to every small count of lines.
pub fn exhaustive() -> impl Iterator<Item = RangesCase> {
    let ranges: Vec<(u32, u32)> = (1..=MOST_LINE)
        .flat_map(|first| (first..=MOST_LINE).map(move |last| (first, last)))
        .collect();
    let mut sequences = vec![Vec::new()];
    let mut next = 0;
    while next < sequences.len() {
        let sequence: Vec<(u32, u32)> = sequences[next].clone();
        next += 1;
        if sequence.len() < MOST_RANGES {
            for range in &ranges {
                let mut longer = sequence.clone();
                longer.push(*range);
                sequences.push(longer);
            }
        }
    }
    sequences.into_iter().flat_map(|asked| {
        (1..=MOST_CLIP).map(move |lines| RangesCase {
            asked: asked.clone(),
            lines,
        })
    })
}

const RANDOM_RANGES: u32 = 12;
const RANDOM_LINE: u32 = 60;

/// Random sequences; one in five has all its lines near the file limit.
pub fn random() -> impl Iterator<Item = RangesCase> {
    let mut random = Random(20_241_105);
    std::iter::repeat_with(move || {
        let before = if random.one_in(5) { FILE_LIMIT - RANDOM_LINE } else { 0 };
        let longest = if random.one_in(3) { 20 } else { 4 };
        let asked = (0..random.between(1, RANDOM_RANGES))
            .map(|_| {
                let first = random.between(1, RANDOM_LINE);
                let last = RANDOM_LINE.min(first + random.between(0, longest));
                (before + first, before + last)
            })
            .collect();
        let lines = match random.between(1, 4) {
            1 => FILE_LIMIT,
            2 => before + RANDOM_LINE,
            _ => before + random.between(1, RANDOM_LINE),
        };
        RangesCase { asked, lines }
    })
}

/// Where our rules part from the crate: each is one case that docs/DIFFERENCES.md may name.
pub fn differences() -> impl Iterator<Item = RangesCase> {
    let case = |asked: &[(u32, u32)], lines: u32| RangesCase {
        asked: asked.to_vec(),
        lines,
    };
    [
        // An empty range: inside the file, at its start, with a later range that touches it or
        // not, and one that ends two lines before it begins.
        case(&[(2, 1)], 2),
        case(&[(1, 0)], 1),
        case(&[(1, 0), (1, 1)], 2),
        case(&[(2, 1), (1, 1)], 2),
        case(&[(1, 0), (3, 3)], 3),
        case(&[(3, 1)], 5),
        // The whole of an empty file, and a range of it.
        case(&[], 0),
        case(&[(1, 1)], 0),
        // An end past the file limit, clipped to the limit, below and above it.
        case(&[(16_777_215, 16_777_216)], FILE_LIMIT),
        case(&[(16_777_216, 16_777_217)], FILE_LIMIT),
        case(&[(16_777_216, 16_777_217)], 16_777_217),
        case(&[(1, u32::MAX)], u32::MAX),
        // 65 ranges that do not touch.
        case(&(0..65).map(|k| (2 * k + 1, 2 * k + 1)).collect::<Vec<_>>(), 200),
    ]
    .into_iter()
}

/// Compares the crate's answers, in both ways of asking, with those of the model; prints and
/// returns how many differ.
pub fn check(name: &str, cases: impl Iterator<Item = RangesCase>) -> usize {
    let (mut count, mut ranges, mut different) = (0, 0, 0);
    for case in cases {
        let answer = case.crate_answer();
        count += 1;
        ranges += answer.len();
        let listed = case.crate_answer_to_list().expect("lines count from 1");
        if answer != case.model_answer() || listed != answer {
            different += 1;
            if different <= 3 {
                eprintln!("differs: {}", case.line(&answer));
            }
        }
    }
    println!("ranges, {name}: {count} cases, {ranges} ranges, {different} differences");
    different
}
