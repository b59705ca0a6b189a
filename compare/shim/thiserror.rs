//! Stand-in for the crate thiserror: its derive.
pub use standin_derive::Error;
