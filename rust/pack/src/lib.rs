//! A session as text and as bytes: `text` turns decimal numbers into
//! seven-bit groups, `lines` turns a session's bytes into readable lines, and
//! `tool` is what the two programs share.

pub mod lines;
pub mod text;
pub mod tool;
