//! The error type, with the variants that the three files name.

use gix_object::bstr::BString;

#[derive(Debug)]
pub enum Error {
    FileMissing {
        file_path: BString,
        commit_id: gix_hash::ObjectId,
    },
    InvalidOneBasedLineRange,
    NotRecorded,
    DiffTree(gix_diff::tree::Error),
    DiffTreeWithRewrites(gix_diff::tree_with_rewrites::Error),
}

impl From<recorded::NotRecorded> for Error {
    fn from(_: recorded::NotRecorded) -> Self {
        Error::NotRecorded
    }
}

impl From<gix_commitgraph::Error> for Error {
    fn from(none: gix_commitgraph::Error) -> Self {
        match none {}
    }
}
