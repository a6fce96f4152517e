//! In place of the kit's crate indexmap. The map is in rstd, beside the hasher that it shares with the other maps.
pub use rstd::collections::IndexMap;
