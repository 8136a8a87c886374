//! The queue of commits.

use std::{cmp::Reverse, collections::BinaryHeap};

/// The greatest key (the latest time) comes first, and for equal keys the lowest value (the lowest
/// commit number). What is inserted twice comes twice.
pub struct PriorityQueue<K: Ord, T: Ord>(BinaryHeap<(K, Reverse<T>)>);

impl<K: Ord, T: Ord> PriorityQueue<K, T> {
    #[allow(clippy::new_without_default)]
    pub fn new() -> Self {
        PriorityQueue(BinaryHeap::new())
    }

    pub fn insert(&mut self, key: K, value: T) {
        self.0.push((key, Reverse(value)));
    }

    pub fn pop_value(&mut self) -> Option<T> {
        self.0.pop().map(|(_, Reverse(value))| value)
    }

    pub fn is_empty(&self) -> bool {
        self.0.is_empty()
    }
}
