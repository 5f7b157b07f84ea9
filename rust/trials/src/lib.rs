//! Trials: a session program is run on many generated sessions, and what it
//! prints is compared with the reference byte for byte; a library is called
//! beside the reference, and in whole cabinets with liars.
//!
//! `tables`, `rounds` and `sessions` make the input, from the values at which a
//! rule turns; `observe` counts which rules and edges the sessions reached;
//! `child` runs the program; `trial` compares; `shrink` makes a difference
//! small enough to read. `doors` are the trials of a library, `adversary` those
//! of whole cabinets over it. `wrong` keeps references with one mistake in each,
//! to see that the trials tell them apart.

pub mod adversary;
pub mod child;
pub mod doors;
pub mod observe;
pub mod random;
pub mod rounds;
pub mod sessions;
pub mod shrink;
pub mod tables;
pub mod trial;
pub mod wrong;
