//! Cases outside the comparison, where our rules part from the crate: what the crate answers.

use super::{
    super::Change,
    case::{Case, Row},
};

/// Each is one case whose answer by our rules stands in docs/DIFFERENCES.md.
pub fn cases() -> impl Iterator<Item = Case> {
    let row = |asked: std::ops::Range<u32>, suspects: &[(u32, std::ops::Range<u32>)]| Row {
        asked,
        suspects: suspects.to_vec(),
    };
    let case = |hunk: Row, changes: Vec<Change>| Case {
        suspect: 1,
        parent: 2,
        hunks: vec![hunk],
        changes,
    };
    [
        // The hunk names the parent already, behind the suspect and before it.
        case(
            row(0..2, &[(1, 4..6), (2, 9..11)]),
            vec![Change::Deleted(0, 3), Change::Unchanged(0..8)],
        ),
        case(
            row(0..2, &[(2, 9..11), (1, 4..6)]),
            vec![Change::Deleted(0, 3), Change::Unchanged(0..8)],
        ),
        // The list has a gap.
        case(
            row(0..6, &[(1, 0..6)]),
            vec![Change::Unchanged(0..3), Change::Unchanged(4..6)],
        ),
        // The hunk ends past the list's file.
        case(row(0..3, &[(1, 0..3)]), vec![Change::Unchanged(0..2)]),
    ]
    .into_iter()
}
