//! A session's bytes, or a drill's script, as one self-contained SVG: time from
//! left to right, a lane for each controller, the rounds across them, and the
//! common order after each round.
//!
//! `session` and `script` make a story of what happened, every number of which
//! is the library's; `draw` gives each part its place and writes it.

#![forbid(unsafe_code)]
#![warn(missing_docs)]

mod axis;
mod draw;
pub mod fold;
mod lane;
mod legend;
mod order;
mod scene;
pub mod script;
pub mod session;
pub mod story;
mod style;
mod svg;
pub mod text;

pub use draw::draw;
