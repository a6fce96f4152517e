//! `Box` and `Rc`.
use crate::alloc::{AllocError, AllocFailed, Global};
use std::ops::{Deref, DerefMut};

#[derive(Debug, PartialEq, Eq, PartialOrd, Ord, Hash)]
pub struct Box<T>(std::boxed::Box<T>);

impl<T> Box<T> {
    #[inline]
    pub fn new(_alloc: Global, value: T) -> Result<Box<T>, AllocFailed<T>> {
        Ok(Box(std::boxed::Box::new(value)))
    }

    #[inline]
    pub fn into_inner(boxed: Box<T>) -> T {
        *boxed.0
    }
}

impl<T> Deref for Box<T> {
    type Target = T;

    #[inline]
    fn deref(&self) -> &T {
        &self.0
    }
}

impl<T> DerefMut for Box<T> {
    #[inline]
    fn deref_mut(&mut self) -> &mut T {
        &mut self.0
    }
}

#[derive(Debug, PartialEq, Eq, PartialOrd, Ord, Hash)]
pub struct Rc<T>(std::rc::Rc<T>);

impl<T> Rc<T> {
    #[inline]
    pub fn new(_alloc: Global, value: T) -> Result<Rc<T>, AllocFailed<T>> {
        Ok(Rc(std::rc::Rc::new(value)))
    }

    #[inline]
    pub fn clone(&self) -> Result<Rc<T>, AllocError> {
        Ok(Rc(self.0.clone()))
    }
}

impl<T> Deref for Rc<T> {
    type Target = T;

    #[inline]
    fn deref(&self) -> &T {
        &self.0
    }
}
