//! The tree diff and the blob diff hand over the recorded comparisons.

use gix_object::{Find, FindHeader, TreeRefIter};
use std::ops::ControlFlow;

pub mod blob;
pub mod tree;
pub mod tree_with_rewrites;

#[derive(Clone, Copy, Debug)]
pub struct Rewrites;

/// Tells `visitor` of the one file if it was recorded as added or modified.
///
/// A modification names both sides by the place of the comparison in the table, not by their
/// blobs, so that the blob diff finds the list that was recorded for just these two commits.
pub fn tree(
    parent: TreeRefIter<'_>,
    commit: TreeRefIter<'_>,
    _state: &mut tree::State,
    odb: &impl Find,
    visitor: &mut impl tree::Visit,
) -> Result<(), tree::Error> {
    use gix_object::{bstr::BString, tree::EntryKind};
    use tree::visit::Change;

    let (place, comparison) = odb
        .history()
        .comparison(commit.commit.0, parent.commit.0)
        .map_err(tree::Error::NotRecorded)?;
    let oid = gix_hash::ObjectId(place);
    let change = match comparison.kind {
        recorded::Kind::Unchanged => return Ok(()),
        recorded::Kind::Added => Change::Addition {
            entry_mode: EntryKind::Blob,
            oid,
            relation: (),
        },
        recorded::Kind::Modified(_) => Change::Modification {
            previous_entry_mode: EntryKind::Blob,
            previous_oid: oid,
            entry_mode: EntryKind::Blob,
            oid,
        },
    };
    visitor.push_path_component(&BString::new(recorded::PATH.to_vec()));
    let action = visitor.visit(change);
    visitor.pop_path_component();
    match action {
        ControlFlow::Continue(()) => Ok(()),
        ControlFlow::Break(()) => Err(tree::Error::Cancelled),
    }
}

/// Renames are not recorded: `Options::rewrites` must be `None`.
pub fn tree_with_rewrites<E>(
    _parent: TreeRefIter<'_>,
    _commit: TreeRefIter<'_>,
    _resource_cache: &mut blob::Platform,
    _state: &mut tree::State,
    _odb: &(impl Find + FindHeader),
    _visit: impl FnMut(tree_with_rewrites::ChangeRef) -> Result<ControlFlow<()>, E>,
    _options: tree_with_rewrites::Options,
) -> Result<(), tree_with_rewrites::Error> {
    unimplemented!("renames are not recorded")
}
