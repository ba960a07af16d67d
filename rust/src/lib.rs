//! The contribution book of document 01 for Rust hosts.

pub mod by_value;
#[cfg(feature = "proved")]
mod given;
pub mod plain;
pub mod printer;
#[cfg(feature = "proved")]
pub mod proved;
pub mod samples;
pub mod summed;
