//! A list that holds one item in place and more in a `Vec`.

pub trait Array {
    type Item;
}

impl<T, const N: usize> Array for [T; N] {
    type Item = T;
}

/// Whatever the size of `A`, one item is held in place, so that for arrays of one, as in
/// `UnblamedHunk`, there is an allocation exactly from the second item on.
#[derive(Debug, PartialEq)]
pub enum SmallVec<A: Array> {
    InPlace(Option<A::Item>),
    OnHeap(Vec<A::Item>),
}

impl<A: Array> SmallVec<A> {
    pub fn push(&mut self, item: A::Item) {
        match self {
            SmallVec::InPlace(place @ None) => *place = Some(item),
            SmallVec::InPlace(place) => *self = SmallVec::OnHeap(place.take().into_iter().chain([item]).collect()),
            SmallVec::OnHeap(items) => items.push(item),
        }
    }

    pub fn retain(&mut self, mut keep: impl FnMut(&mut A::Item) -> bool) {
        match self {
            SmallVec::InPlace(place) => {
                place.take_if(|item| !keep(item));
            }
            SmallVec::OnHeap(items) => items.retain_mut(keep),
        }
    }
}

impl<A: Array> Default for SmallVec<A> {
    fn default() -> Self {
        SmallVec::InPlace(None)
    }
}

impl<A: Array> std::ops::Deref for SmallVec<A> {
    type Target = [A::Item];

    fn deref(&self) -> &[A::Item] {
        match self {
            SmallVec::InPlace(place) => place.as_slice(),
            SmallVec::OnHeap(items) => items,
        }
    }
}

impl<A: Array> std::ops::DerefMut for SmallVec<A> {
    fn deref_mut(&mut self) -> &mut [A::Item] {
        match self {
            SmallVec::InPlace(place) => place.as_mut_slice(),
            SmallVec::OnHeap(items) => items,
        }
    }
}

impl<A: Array> FromIterator<A::Item> for SmallVec<A> {
    fn from_iter<I: IntoIterator<Item = A::Item>>(items: I) -> Self {
        let mut list = SmallVec::default();
        items.into_iter().for_each(|item| list.push(item));
        list
    }
}

impl<T, const N: usize> From<[T; N]> for SmallVec<[T; N]> {
    fn from(items: [T; N]) -> Self {
        items.into_iter().collect()
    }
}
