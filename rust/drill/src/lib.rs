//! A cabinet in one process, for the classroom: up to fifteen controllers and a
//! station, driven by text commands. Every reply is the library's; here it is
//! only asked and put into words.
//!
//! `Drill` takes a script line by line. `run` takes a whole script and gives
//! back what happened as data, for a program that draws it.

#![forbid(unsafe_code)]
#![warn(missing_docs)]

mod command;
mod drill;
mod expect;
mod say;
mod state;
mod step;
mod words;

pub use command::{Command, Typed};
pub use drill::{run, Drill, Event, Trouble};
pub use explain::explain;
pub use state::{Job, Plan, Seat, State};
pub use step::{Close, Reply, Short};

/// The commands, as `help` prints them.
pub const COMMANDS: &str = include_str!("commands.txt");
