//! The object store is a recorded history.

use gix_hash::{ObjectId, oid};
use recorded::{Commit, History, NotRecorded};
use std::marker::PhantomData;

pub mod bstr;

pub mod tree {
    #[derive(Clone, Copy, Debug)]
    pub enum EntryKind {
        Blob,
    }

    pub struct Entry {
        pub oid: gix_hash::ObjectId,
    }
}

/// Access to the recorded history.
pub trait Find {
    fn history(&self) -> &History;
}

pub trait FindHeader {}

impl Find for History {
    fn history(&self) -> &History {
        self
    }
}

impl FindHeader for History {}

impl<T: Find> Find for &T {
    fn history(&self) -> &History {
        (**self).history()
    }
}

impl<T: FindHeader> FindHeader for &T {}

/// The buffers are only there for the shape: nothing is decoded.
pub trait FindExt: Find {
    fn find_commit_iter<'a>(&self, id: &oid, _buf: &'a mut Vec<u8>) -> Result<CommitRefIter<'a>, NotRecorded> {
        Ok(CommitRefIter {
            commit: self.history().commit(id.0)?.clone(),
            number: *id,
            buf: PhantomData,
        })
    }

    fn find_tree_iter<'a>(&self, id: &oid, _buf: &'a mut Vec<u8>) -> Result<TreeRefIter<'a>, NotRecorded> {
        Ok(TreeRefIter {
            commit: *id,
            buf: PhantomData,
        })
    }

    fn find_blob<'a>(&self, id: &oid, buf: &'a mut Vec<u8>) -> Result<BlobRef<'a>, NotRecorded> {
        *buf = self.history().blob_text(id.0)?;
        Ok(BlobRef { data: buf })
    }
}

impl<T: Find> FindExt for T {}

pub struct BlobRef<'a> {
    pub data: &'a [u8],
}

pub struct CommitRefIter<'a> {
    commit: Commit,
    number: ObjectId,
    buf: PhantomData<&'a [u8]>,
}

impl CommitRefIter<'_> {
    /// A commit's tree has the commit's number.
    pub fn tree_id(&self) -> ObjectId {
        self.number
    }

    pub fn parent_ids(&self) -> impl Iterator<Item = ObjectId> {
        self.commit.parents.iter().copied().map(ObjectId)
    }

    pub fn committer(&self) -> Result<Signature, NotRecorded> {
        Ok(Signature(self.commit.time))
    }
}

pub struct Signature(i64);

impl Signature {
    pub fn seconds(&self) -> i64 {
        self.0
    }
}

#[derive(Clone, Copy)]
pub struct TreeRefIter<'a> {
    pub commit: ObjectId,
    buf: PhantomData<&'a [u8]>,
}

impl TreeRefIter<'_> {
    /// Every path is that of the one file.
    pub fn lookup_entry(
        &self,
        odb: &impl Find,
        _buf: &mut Vec<u8>,
        path: impl Iterator,
    ) -> Result<Option<tree::Entry>, NotRecorded> {
        path.for_each(drop);
        let file = odb.history().commit(self.commit.0)?.file;
        Ok(file.map(|file| tree::Entry {
            oid: ObjectId(file.blob),
        }))
    }
}
