//! Comparing two trees with renames: only the shapes, as renames are not recorded.

use gix_hash::ObjectId;
use gix_object::bstr::{BStr, BString};

pub struct Options {
    pub location: Option<crate::tree::recorder::Location>,
    pub rewrites: Option<crate::Rewrites>,
}

#[derive(Debug)]
pub enum Error {
    Diff(crate::tree::Error),
}

pub enum Change {
    Addition {
        location: BString,
        id: ObjectId,
    },
    Deletion {
        location: BString,
    },
    Modification {
        location: BString,
        previous_id: ObjectId,
        id: ObjectId,
    },
    Rewrite {
        location: BString,
        source_location: BString,
        source_id: ObjectId,
        id: ObjectId,
    },
}

pub struct ChangeRef(pub Change);

impl ChangeRef {
    pub fn location(&self) -> &BStr {
        match &self.0 {
            Change::Addition { location, .. }
            | Change::Deletion { location }
            | Change::Modification { location, .. }
            | Change::Rewrite { location, .. } => location,
        }
    }

    pub fn into_owned(self) -> Change {
        self.0
    }
}
