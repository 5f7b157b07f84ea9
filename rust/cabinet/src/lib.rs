//! The proved ordering library for Rust: the functions of include/cabinet.h
//! behind types that hold the words, so that a caller sees tables, nodes,
//! stations, records and refusals.
//!
//! The library trusts nothing that it is given, and neither does this crate: a
//! state taken from words is looked at by the library, and a state used with a
//! table other than its own is refused there where it does not fit. Nothing is
//! decided on this side of the border.
//!
//! `unsafe` stands in the module `ffi` and nowhere else.

#![deny(unsafe_code)]
#![warn(missing_docs)]

mod common;
#[allow(unsafe_code)]
pub mod ffi;
pub mod layout;
mod node;
mod record;
mod refusal;
mod table;

pub use common::{Closing, Common};
pub use node::{Node, Open};
pub use record::{read_number, write_number, Entry, Record, Release, Report};
pub use refusal::Refusal;
pub use table::{Table, Task};
