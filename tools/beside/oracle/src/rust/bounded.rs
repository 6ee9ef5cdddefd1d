//! The `Vec` of the merge. It leaves the Rust's text where document 01 refuses: with 7 where a removal
//! would panic, with 8 where an insertion would pass the limit.

use std::ops::{Deref, DerefMut};
use std::panic::resume_unwind;

use crate::refusal::Refusal;

const MOST_MERGED: usize = 1024;

pub struct Vec<T>(std::vec::Vec<T>);

impl<T> Vec<T> {
    pub fn new() -> Self {
        Vec(std::vec::Vec::new())
    }

    pub fn push(&mut self, value: T) {
        self.0.push(value);
    }

    pub fn insert(&mut self, at: usize, value: T) {
        if self.0.len() == MOST_MERGED {
            resume_unwind(Box::new(Refusal(8)));
        }
        self.0.insert(at, value);
    }

    pub fn remove(&mut self, at: usize) -> T {
        if at >= self.0.len() {
            resume_unwind(Box::new(Refusal(7)));
        }
        self.0.remove(at)
    }

    pub fn into_std(self) -> std::vec::Vec<T> {
        self.0
    }
}

impl<T> From<std::vec::Vec<T>> for Vec<T> {
    fn from(values: std::vec::Vec<T>) -> Self {
        Vec(values)
    }
}

impl<T> IntoIterator for Vec<T> {
    type Item = T;
    type IntoIter = std::vec::IntoIter<T>;

    fn into_iter(self) -> Self::IntoIter {
        self.0.into_iter()
    }
}

impl<T> Deref for Vec<T> {
    type Target = [T];

    fn deref(&self) -> &[T] {
        &self.0
    }
}

impl<T> DerefMut for Vec<T> {
    fn deref_mut(&mut self) -> &mut [T] {
        &mut self.0
    }
}
