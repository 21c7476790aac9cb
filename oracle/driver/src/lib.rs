//! The published crate, a plain model and (with the feature `port`) the port, behind one trait,
//! so that a program can feed all of them the same input. With the feature `clibrary` the decoders
//! of the C library stand beside them, for the benchmark.

pub mod cases;
#[cfg(feature = "clibrary")]
pub mod clibrary;
// A copy of rust/chowderyard/src/declarations.rs, put here by oracle/build.
#[cfg(feature = "port")]
mod declarations;
pub mod engine;
pub mod guard;
pub mod hex;
pub mod layout;
pub mod plain;
#[cfg(feature = "port")]
pub mod port;
pub mod published;
pub mod random;
pub mod request;
