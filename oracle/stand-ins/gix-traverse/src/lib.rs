//! Finding a commit.

pub mod commit {
    use gix_commitgraph::{Graph, file::Commit};
    use gix_hash::{ObjectId, oid};
    use gix_object::{CommitRefIter, Find, FindExt};
    use recorded::NotRecorded;

    pub enum Either<'buf, 'cache> {
        CommitRefIter(CommitRefIter<'buf>),
        /// Never made, as there is no commit graph.
        CachedCommit(Commit<'cache>),
    }

    pub fn find<'buf, 'cache>(
        _cache: Option<&'cache Graph>,
        odb: &impl Find,
        id: &oid,
        buf: &'buf mut Vec<u8>,
    ) -> Result<Either<'buf, 'cache>, NotRecorded> {
        odb.find_commit_iter(id, buf).map(Either::CommitRefIter)
    }

    impl Either<'_, '_> {
        pub fn commit_time(&self) -> Result<i64, NotRecorded> {
            match self {
                Either::CommitRefIter(commit) => commit.committer().map(|committer| committer.seconds()),
                Either::CachedCommit(commit) => Ok(commit.committer_timestamp() as i64),
            }
        }

        pub fn tree_id(&self) -> Result<ObjectId, NotRecorded> {
            match self {
                Either::CommitRefIter(commit) => Ok(commit.tree_id()),
                Either::CachedCommit(commit) => Ok(*commit.id()),
            }
        }
    }
}
