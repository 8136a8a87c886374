//! What `process_changes` should answer, written from the rules and not from the crate's code.

use super::{
    super::Change,
    case::{Case, Row},
};
use std::collections::BTreeSet;

pub fn answer(case: &Case) -> Vec<Row> {
    let mut pieces = Vec::new();
    for hunk in &case.hunks {
        let Some((_, range)) = hunk.suspects.iter().find(|(commit, _)| *commit == case.suspect) else {
            pieces.push(hunk.clone());
            continue;
        };
        let cuts: BTreeSet<u32> = case
            .changes
            .iter()
            .flat_map(|change| match change {
                Change::Unchanged(_) => vec![],
                Change::AddedOrReplaced(added, _) => vec![added.start, added.end],
                Change::Deleted(line, _) => vec![*line],
            })
            .filter(|line| range.start < *line && *line < range.end)
            .chain([range.start, range.end])
            .collect();
        let cuts: Vec<u32> = cuts.into_iter().collect();
        for cut in cuts.windows(2) {
            let (skip, length) = (cut[0] - range.start, cut[1] - cut[0]);
            let part = |whole: u32| whole + skip..whole + skip + length;
            pieces.push(Row {
                asked: part(hunk.asked.start),
                suspects: hunk
                    .suspects
                    .iter()
                    .map(|(commit, whole)| {
                        if *commit == case.suspect && !is_added(&case.changes, cut[0]) {
                            let place = place_in_parent(&case.changes, cut[0]);
                            (case.parent, place..place + length)
                        } else {
                            (*commit, part(whole.start))
                        }
                    })
                    .collect(),
            });
        }
    }
    pieces
}

pub fn is_added(changes: &[Change], line: u32) -> bool {
    changes
        .iter()
        .any(|change| matches!(change, Change::AddedOrReplaced(added, _) if added.contains(&line)))
}

/// Where the kept line `line` is in the parent.
pub fn place_in_parent(changes: &[Change], line: u32) -> u32 {
    let (mut added_lines, mut deleted_lines) = (0, 0);
    for change in changes {
        match change {
            Change::AddedOrReplaced(added, deleted) if added.end <= line => {
                added_lines += added.end - added.start;
                deleted_lines += deleted;
            }
            Change::Deleted(at, deleted) if *at <= line => deleted_lines += deleted,
            _ => {}
        }
    }
    line + deleted_lines - added_lines
}
