//! Document 01 written again in plain Rust: the task table, the common record,
//! the judgement of a round, its close, the node, the written record and the
//! session program. One module a section of the paper.
//!
//! This is a witness, not a product: where a sentence of the paper can be
//! copied into code it is copied, and nothing is made fast at the cost of that.
//! Values up to 2^64 - 1 can come in at a call, so every sum of values that
//! came from outside is made in 128 bits or checked.

pub mod close;
pub mod common;
pub mod judge;
pub mod node;
pub mod refusal;
pub mod session;
pub mod stdio;
pub mod table;
pub mod written;

pub use close::close;
pub use common::Common;
pub use judge::Reply;
pub use node::Node;
pub use refusal::{Refusal, TableRule};
pub use table::{Table, Task};
pub use written::{Record, Release, Report};

/// "time (now, or a record's r) above 2^48 - 1" is refused 3.
pub const LATEST_TIME: u64 = (1 << 48) - 1;

/// A sum of values that the checks before it have already made small.
pub(crate) fn sum(a: u64, b: u64) -> u64 {
    a.checked_add(b).expect("checked values keep every sum below 2^64")
}
