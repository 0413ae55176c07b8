//! A model of document 01 in plain Rust, with the requests of document 02 that have landed.
//!
//! It is written from the paper and the recorded readings, without looking at the proved crates or at the Python model, and
//! proves nothing. The proved gate is compared with it, answer by answer, and measured against it.
//!
//! ```
//! use jeddyspangle::model::Session;
//! use jeddyspangle::{Date, Exchange, Refusal, Unit};
//!
//! /// Runs on the model and on the proved gate alike.
//! fn two_units_of_one_number(exchange: &mut impl Exchange) -> [Result<(), Refusal>; 2] {
//!     let unit = Unit { number: 7, agent: 1, border: 1, purchase: true, maximum: 500, legacy: false, rights: false };
//!     [exchange.register(unit), exchange.register(unit)]
//! }
//!
//! let mut session = Session::open(Date::new(2006, 10, 29))?;
//! assert_eq!(two_units_of_one_number(&mut session), [Ok(()), Err(Refusal::Taken)]);
//! # Ok::<(), Refusal>(())
//! ```

pub mod calendar;
mod clearing;
pub mod message;
mod session;

pub use session::Session;
