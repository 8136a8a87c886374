//! Byte strings.

#[derive(Clone, Debug, Default, PartialEq, Eq)]
pub struct BString(Vec<u8>);

/// The borrowed form is the same type here.
pub type BStr = BString;

impl BString {
    pub fn new(bytes: Vec<u8>) -> Self {
        BString(bytes)
    }
}

impl std::ops::Deref for BString {
    type Target = Vec<u8>;

    fn deref(&self) -> &Vec<u8> {
        &self.0
    }
}

impl AsRef<BStr> for BString {
    fn as_ref(&self) -> &BStr {
        self
    }
}

impl From<&BStr> for BString {
    fn from(borrowed: &BStr) -> Self {
        borrowed.clone()
    }
}

impl PartialEq<BString> for &BStr {
    fn eq(&self, other: &BString) -> bool {
        **self == *other
    }
}
