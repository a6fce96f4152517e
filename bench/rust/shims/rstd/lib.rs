//! What the sources use of Rattle's std, over Rust's. A call that takes memory has the allocator as its argument and returns a `Result`,
//! but never an error: the types of its errors have no values, and where memory runs out, Rust's std aborts.

pub mod alloc;
pub mod boxed;
pub mod collections;
pub mod host;
pub mod index_map;
pub mod vec;

pub use host::{env, fs, io, rt};
pub use std::{
    array, borrow, char, cmp, convert, default, fmt, hash, iter, mem, num, ops, option, process,
    result, slice, str,
};

pub mod marker {
    pub use std::marker::*;

    /// The view of contracts. Its impls are stripped, and imports of the name are left.
    pub trait Model {}
}

pub mod rc {
    pub use crate::boxed::Rc;
}

/// In place of Rattle's bound `Drop`, which each type has here.
pub trait Drop {}

impl<T: ?Sized> Drop for T {}

/// The names that Rattle knows without an import.
pub mod prelude {
    pub use crate::Drop;
    pub use crate::boxed::Box;
    pub use crate::rt::{AllocGlobal, HostRuntime};
    pub use crate::rvec;
    pub use crate::vec::{CollectIn as _, Vec};
}
