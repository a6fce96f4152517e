//! `Vec`, `vec!` as `rvec!`, and `collect` as `rcollect`.
use crate::alloc::{AllocError, AllocFailed, GLOBAL, Global};
use std::borrow::Borrow;
use std::cmp::Ordering;
use std::ops::{Deref, DerefMut, RangeBounds};
use std::vec;

#[derive(Debug, PartialEq, Eq, PartialOrd, Ord, Hash)]
pub struct Vec<T>(vec::Vec<T>);

impl<T> Vec<T> {
    #[inline]
    pub fn new(_alloc: Global) -> Vec<T> {
        Vec(vec::Vec::new())
    }

    #[inline]
    pub fn with_capacity(_alloc: Global, capacity: usize) -> Result<Vec<T>, AllocError> {
        Ok(Vec(vec::Vec::with_capacity(capacity)))
    }

    #[inline]
    pub fn from_slice(_alloc: Global, items: &[T]) -> Result<Vec<T>, AllocError>
    where
        T: Copy,
    {
        Ok(Vec(items.to_vec()))
    }

    #[inline]
    pub fn from_array<const N: usize>(_alloc: Global, items: [T; N]) -> Result<Vec<T>, AllocError> {
        Ok(Vec(vec::Vec::from(items)))
    }

    #[inline]
    pub fn filled(_alloc: Global, item: T, count: usize) -> Result<Vec<T>, AllocError>
    where
        T: Clone,
    {
        Ok(Vec(vec![item; count]))
    }

    #[inline]
    pub fn allocator(&self) -> &Global {
        &GLOBAL
    }

    #[inline]
    pub fn clone(&self) -> Result<Vec<T>, AllocError>
    where
        T: Clone,
    {
        Ok(Vec(self.0.clone()))
    }

    #[inline]
    pub fn as_slice(&self) -> &[T] {
        &self.0
    }

    #[inline]
    pub fn as_mut_slice(&mut self) -> &mut [T] {
        &mut self.0
    }

    #[inline]
    pub fn capacity(&self) -> usize {
        self.0.capacity()
    }

    #[inline]
    pub fn reserve(&mut self, more: usize) -> Result<(), AllocError> {
        self.0.reserve(more);
        Ok(())
    }

    #[inline]
    pub fn push(&mut self, item: T) -> Result<(), AllocFailed<T>> {
        self.0.push(item);
        Ok(())
    }

    #[inline]
    pub fn insert(&mut self, at: usize, item: T) -> Result<(), AllocFailed<T>> {
        self.0.insert(at, item);
        Ok(())
    }

    #[inline]
    pub fn append(&mut self, other: &mut Vec<T>) -> Result<(), AllocError> {
        self.0.append(&mut other.0);
        Ok(())
    }

    #[inline]
    pub fn extend_from_slice(&mut self, items: &[T]) -> Result<(), AllocError>
    where
        T: Copy,
    {
        self.0.extend_from_slice(items);
        Ok(())
    }

    #[inline]
    pub fn resize(&mut self, length: usize, item: T) -> Result<(), AllocError>
    where
        T: Clone,
    {
        self.0.resize(length, item);
        Ok(())
    }

    #[inline]
    pub fn pop(&mut self) -> Option<T> {
        self.0.pop()
    }

    #[inline]
    pub fn remove(&mut self, at: usize) -> T {
        self.0.remove(at)
    }

    #[inline]
    pub fn swap_remove(&mut self, at: usize) -> T {
        self.0.swap_remove(at)
    }

    #[inline]
    pub fn clear(&mut self) {
        self.0.clear()
    }

    #[inline]
    pub fn truncate(&mut self, length: usize) {
        self.0.truncate(length)
    }

    #[inline]
    pub fn retain<F: FnMut(&T) -> bool>(&mut self, is_kept: F) {
        self.0.retain(is_kept)
    }

    #[inline]
    pub fn drain<R: RangeBounds<usize>>(&mut self, range: R) -> vec::Drain<'_, T> {
        self.0.drain(range)
    }

    #[inline]
    pub fn dedup(&mut self)
    where
        T: PartialEq,
    {
        self.0.dedup()
    }

    #[inline]
    pub fn sort(&mut self) -> Result<(), AllocError>
    where
        T: Ord,
    {
        self.0.sort();
        Ok(())
    }

    #[inline]
    pub fn sort_by<F: FnMut(&T, &T) -> Ordering>(&mut self, compare: F) -> Result<(), AllocError> {
        self.0.sort_by(compare);
        Ok(())
    }

    #[inline]
    pub fn sort_by_key<K: Ord, F: FnMut(&T) -> K>(&mut self, key: F) -> Result<(), AllocError> {
        self.0.sort_by_key(key);
        Ok(())
    }
}

impl<T> Deref for Vec<T> {
    type Target = [T];

    #[inline]
    fn deref(&self) -> &[T] {
        &self.0
    }
}

impl<T> DerefMut for Vec<T> {
    #[inline]
    fn deref_mut(&mut self) -> &mut [T] {
        &mut self.0
    }
}

impl<T> Borrow<[T]> for Vec<T> {
    #[inline]
    fn borrow(&self) -> &[T] {
        &self.0
    }
}

impl<T> IntoIterator for Vec<T> {
    type Item = T;
    type IntoIter = vec::IntoIter<T>;

    #[inline]
    fn into_iter(self) -> Self::IntoIter {
        self.0.into_iter()
    }
}

impl<'a, T> IntoIterator for &'a Vec<T> {
    type Item = &'a T;
    type IntoIter = std::slice::Iter<'a, T>;

    #[inline]
    fn into_iter(self) -> Self::IntoIter {
        self.0.iter()
    }
}

impl<'a, T> IntoIterator for &'a mut Vec<T> {
    type Item = &'a mut T;
    type IntoIter = std::slice::IterMut<'a, T>;

    #[inline]
    fn into_iter(self) -> Self::IntoIter {
        self.0.iter_mut()
    }
}

/// Rattle's `collect`.
pub trait CollectIn: Iterator + Sized {
    #[inline]
    fn rcollect(self, _alloc: Global) -> Result<Vec<Self::Item>, AllocError> {
        Ok(Vec(self.collect()))
    }
}

impl<I: Iterator> CollectIn for I {}

/// Rattle's `vec!`.
#[macro_export]
macro_rules! rvec {
    (in $alloc:expr; $item:expr; $count:expr) => {
        $crate::vec::Vec::filled($alloc, $item, $count)
    };
    (in $alloc:expr; $($item:expr),* $(,)?) => {
        $crate::vec::Vec::from_array($alloc, [$($item),*])
    };
}
