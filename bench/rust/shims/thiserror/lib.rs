//! In place of the kit's crate thiserror. The derive `Error` is stripped, so there is only the name that the sources import.
pub trait Error {}
