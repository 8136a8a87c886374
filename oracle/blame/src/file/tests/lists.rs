//! Every short list of changes, with every hunk of one suspect inside.

use super::{
    super::Change,
    case::{Case, Row},
};

const MOST_CHANGES: usize = 5;
const MOST_LINES: u32 = 4;
const MOST_DELETED: u32 = 2;
/// The asked range begins so much later than the range in the suspect.
const SHIFT: u32 = 3;

/// Every valid list, each after all that it extends by one change or more at the end.
/// With each list comes its new total.
fn all_lists() -> Vec<(Vec<Change>, u32)> {
    let mut lists = vec![(Vec::new(), 0)];
    let mut next = 0;
    while next < lists.len() {
        let (list, total) = lists[next].clone();
        next += 1;
        if list.len() == MOST_CHANGES {
            continue;
        }
        let mut extend = |change, total| {
            let mut longer = list.clone();
            longer.push(change);
            lists.push((longer, total));
        };
        for end in total + 1..=MOST_LINES {
            extend(Change::Unchanged(total..end), end);
            for deleted in 0..=MOST_DELETED {
                extend(Change::AddedOrReplaced(total..end, deleted), end);
            }
        }
        for deleted in 1..=MOST_DELETED {
            extend(Change::Deleted(total, deleted), total);
        }
    }
    lists
}

pub fn exhaustive() -> impl Iterator<Item = Case> {
    all_lists().into_iter().flat_map(|(changes, total)| {
        let ranges = (0..total).flat_map(move |start| (start + 1..=total).map(move |end| start..end));
        ranges.map(move |range| Case {
            suspect: 1,
            parent: 2,
            hunks: vec![Row {
                asked: range.start + SHIFT..range.end + SHIFT,
                suspects: vec![(1, range)],
            }],
            changes: changes.clone(),
        })
    })
}
