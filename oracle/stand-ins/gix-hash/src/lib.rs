//! An object id is a number: of a commit, of a tree (that of its commit), of a blob or of a comparison.

#[derive(Clone, Copy, Debug, PartialEq, Eq, PartialOrd, Ord, Hash)]
pub struct ObjectId(pub u32);

/// The borrowed form is the same type here.
#[allow(non_camel_case_types)]
pub type oid = ObjectId;

/// The number of no object.
pub const NULL: ObjectId = ObjectId(u32::MAX);

pub struct Kind;

impl Kind {
    pub fn shortest() -> Self {
        Kind
    }

    pub fn null(&self) -> ObjectId {
        NULL
    }
}

impl ObjectId {
    pub fn kind(&self) -> Kind {
        Kind
    }
}

impl AsRef<oid> for ObjectId {
    fn as_ref(&self) -> &oid {
        self
    }
}

impl std::fmt::Display for ObjectId {
    fn fmt(&self, f: &mut std::fmt::Formatter<'_>) -> std::fmt::Result {
        self.0.fmt(f)
    }
}
