//! Whole cabinets: healthy nodes that are the library's, liars at the other
//! places, steps in any order, jobs of any length, records that some never get.
//! The sentences of demand 3 are looked at after every call:
//!
//! - no healthy report is of class 1 to 4 in a record that holds it;
//! - what a healthy node has started, the tasks that the replies to its accepted
//!   starts named, is the first part of the order that its own closed records
//!   give, counted from the first job of all;
//! - and of the order by the records of any healthy node that has closed at least
//!   as many; later records never change that part.
//!
//! The orders are made from the records by the reference and kept whole; nothing
//! of them is taken from the library.

mod cabinet;
mod healthy;
mod liars;
pub mod met;

use std::fmt;

use crate::doors::Doors;
use crate::random::Random;
use cabinet::Cabinet;
use met::Met;

/// What a cabinet showed.
#[derive(Clone, Debug, PartialEq, Eq)]
pub enum Broken {
    /// A sentence of demand 3 does not hold.
    Sentence(String),
    /// A step that had to be accepted was refused, or the other way round.
    Step(String),
}

impl fmt::Display for Broken {
    fn fmt(&self, out: &mut fmt::Formatter) -> fmt::Result {
        match self {
            Broken::Sentence(what) => write!(out, "demand 3 is broken: {what}"),
            Broken::Step(what) => write!(out, "a step went wrong: {what}"),
        }
    }
}

/// Runs cabinets of a seed until the healthy nodes have made so many calls. An
/// error names the cabinet, and says what was broken there.
pub fn adversary(doors: &Doors, seed: u64, steps: u64) -> Result<Met, (u64, Broken)> {
    let mut met = Met::default();
    while met.steps < steps {
        let mut mixed = Random::new(seed.wrapping_mul(0x0100_0000_01B3).wrapping_add(met.cabinets));
        let random = &mut Random::new(mixed.number());
        Cabinet::play(doors, random, &mut met).map_err(|broken| (met.cabinets, broken))?;
        met.cabinets += 1;
    }
    Ok(met)
}
