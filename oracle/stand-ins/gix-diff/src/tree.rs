//! Comparing two trees.

use gix_object::bstr::{BStr, BString};

#[derive(Default)]
pub struct State;

#[derive(Debug)]
pub enum Error {
    Cancelled,
    NotRecorded(recorded::NotRecorded),
}

pub trait Visit {
    fn pop_front_tracked_path_and_set_current(&mut self);
    fn push_back_tracked_path_component(&mut self, component: &BStr);
    fn push_path_component(&mut self, component: &BStr);
    fn pop_path_component(&mut self);
    fn visit(&mut self, change: visit::Change) -> visit::Action;
}

pub mod visit {
    use gix_hash::ObjectId;
    use gix_object::tree::EntryKind;

    pub type Action = std::ops::ControlFlow<()>;

    pub enum Change {
        Addition {
            entry_mode: EntryKind,
            oid: ObjectId,
            relation: (),
        },
        Deletion {
            entry_mode: EntryKind,
            oid: ObjectId,
            relation: (),
        },
        Modification {
            previous_entry_mode: EntryKind,
            previous_oid: ObjectId,
            entry_mode: EntryKind,
            oid: ObjectId,
        },
    }
}

pub mod recorder {
    use gix_hash::ObjectId;
    use gix_object::{bstr::BString, tree::EntryKind};

    pub enum Location {
        Path,
    }

    pub enum Change {
        Addition {
            entry_mode: EntryKind,
            oid: ObjectId,
            path: BString,
            relation: (),
        },
        Deletion {
            entry_mode: EntryKind,
            oid: ObjectId,
            path: BString,
            relation: (),
        },
        Modification {
            previous_entry_mode: EntryKind,
            previous_oid: ObjectId,
            entry_mode: EntryKind,
            oid: ObjectId,
            path: BString,
        },
    }
}

/// Keeps the path of the file at hand, which has one component.
#[derive(Default)]
pub struct Recorder {
    path: BString,
}

impl Recorder {
    pub fn track_location(self, _location: Option<recorder::Location>) -> Self {
        self
    }

    pub fn pop_front_tracked_path_and_set_current(&mut self) {
        unimplemented!("there are no subtrees")
    }

    pub fn push_back_tracked_path_component(&mut self, _component: &BStr) {
        unimplemented!("there are no subtrees")
    }

    pub fn push_path_component(&mut self, component: &BStr) {
        self.path = component.clone();
    }

    pub fn pop_path_component(&mut self) {
        self.path = BString::default();
    }

    pub fn path(&self) -> &BStr {
        &self.path
    }

    pub fn path_clone(&self) -> BString {
        self.path.clone()
    }
}
