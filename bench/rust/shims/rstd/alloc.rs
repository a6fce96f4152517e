//! The allocator, and the errors of calls that take memory, which have no values.
use std::convert::Infallible;
use std::marker::PhantomData;

#[derive(Clone, Copy, Debug, PartialEq, Eq)]
pub struct Global;

/// An allocator that can be lent.
pub(crate) static GLOBAL: Global = Global;

#[derive(Clone, Copy, Debug, PartialEq, Eq)]
pub enum AllocError {}

/// The error of a call that gives back what it could not store.
#[derive(Debug)]
pub struct AllocFailed<T>(PhantomData<T>, Infallible);

impl<T> From<AllocFailed<T>> for AllocError {
    fn from(error: AllocFailed<T>) -> AllocError {
        match error.1 {}
    }
}
