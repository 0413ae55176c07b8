//! The proved day-ahead market gate for Rust programs, and an independent model that it is compared with.
//!
//! `Gate` is a safe wrapper over the C interface (`include/gate.h`) of the gate that is written in Rattle and proved to
//! follow document 01 for every input; it starts with a worked long day. [`model`] tells the same rules a second time, in
//! plain Rust and unproved. Both are an [`Exchange`], so a program or a test can be run on either.
//!
//! Without the feature `proved`, which is on by default, the crate is the model alone and links no archive.
#![deny(missing_docs)]
#![deny(unsafe_code)]
#![deny(unsafe_op_in_unsafe_fn)]

mod exchange;
#[cfg(feature = "proved")]
#[allow(unsafe_code)]
pub mod ffi;
#[cfg(feature = "proved")]
mod gate;
pub mod model;
mod types;

pub use exchange::{Accepted, Call, Exchange};
#[cfg(feature = "proved")]
pub use gate::Gate;
pub use types::*;
