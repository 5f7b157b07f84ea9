//! The doors of include/cabinet.h as the trials see them: a call, what is lent
//! to it, and what it tells.
//!
//! `library` makes a call in the static library that is linked; `model` answers
//! it from the reference, by the header; `beside` makes it on both sides and
//! compares. `scripts` plays nodes and stations by the calls that `steps` chooses,
//! `looks` asks of common records, `bytes` reads and writes numbers, tables and
//! records, `damage` lends what the doors themselves refuse; `trial` runs them
//! all. `wanted` lists what they have to reach, and `observe` notes it. `program`
//! is the program over all of this.

pub mod beside;
pub mod bytes;
pub mod damage;
#[cfg(feature = "doors")]
pub mod library;
pub mod looks;
pub mod model;
mod observe;
pub mod program;
pub mod scripts;
mod steps;
pub mod trial;
pub mod wanted;

// The header's places, by its names; `cabinet` holds them against the header.
#[path = "../../cabinet/src/layout.rs"]
pub mod layout;

use std::ops::{Deref, DerefMut};

/// A call, with the numbers that it takes besides what is lent.
#[derive(Clone, Copy, Debug, PartialEq, Eq)]
pub enum Call {
    CheckTable,
    FreshCommon,
    FreshNode { number: u64 },
    Start { now: u64 },
    Finish { now: u64 },
    Report { r: u64 },
    Close { r: u64 },
    CloseStation { r: u64 },
    Projection { position: u64 },
    Bound { position: u64, time: u64 },
    Order,
    ReadNumber,
    WriteNumber { number: u64 },
    ReadTable,
    ReadRecord,
    WriteRecord { r: u64 },
}

impl Call {
    /// The function's name in the header, without its cabinet_.
    pub fn name(self) -> &'static str {
        match self {
            Call::CheckTable => "check_table",
            Call::FreshCommon => "fresh_common",
            Call::FreshNode { .. } => "fresh_node",
            Call::Start { .. } => "start",
            Call::Finish { .. } => "finish",
            Call::Report { .. } => "report",
            Call::Close { .. } => "close",
            Call::CloseStation { .. } => "close_station",
            Call::Projection { .. } => "projection",
            Call::Bound { .. } => "bound",
            Call::Order => "order",
            Call::ReadNumber => "read_number",
            Call::WriteNumber { .. } => "write_number",
            Call::ReadTable => "read_table",
            Call::ReadRecord => "read_record",
            Call::WriteRecord { .. } => "write_record",
        }
    }
}

/// A lent array, with a few places before and behind it that nobody may touch.
#[derive(Clone, Debug, PartialEq, Eq)]
pub struct Room<T> {
    places: Vec<T>,
}

const GUARDS: usize = 4;

impl<T: Copy + From<u8>> Room<T> {
    pub fn holding(values: &[T]) -> Room<T> {
        let guards = [T::from(0xA5); GUARDS];
        Room { places: [&guards[..], values, &guards[..]].concat() }
    }
}

impl<T: Copy + From<u8>> Default for Room<T> {
    fn default() -> Room<T> {
        Room::holding(&[])
    }
}

impl<T> Deref for Room<T> {
    type Target = [T];
    fn deref(&self) -> &[T] {
        &self.places[GUARDS..self.places.len() - GUARDS]
    }
}

impl<T> DerefMut for Room<T> {
    fn deref_mut(&mut self) -> &mut [T] {
        let end = self.places.len() - GUARDS;
        &mut self.places[GUARDS..end]
    }
}

/// What a caller lends. A call takes some of it and leaves the rest alone.
#[derive(Clone, Debug, Default, PartialEq, Eq)]
pub struct Lent {
    pub table: Room<u64>,
    /// The words of a node or of a common record.
    pub state: Room<u64>,
    pub releases: Room<u64>,
    pub entries: Room<u64>,
    pub order: Room<u64>,
    pub bytes: Room<u8>,
}

/// What a call tells: the five replies of the header.
#[derive(Clone, Debug, PartialEq, Eq)]
pub enum Told {
    Value { refusal: u64, value: u64 },
    Number { refusal: u64, value: u64, used: u64 },
    Report { refusal: u64, progress: u64, completed: u64, run: u64 },
    Closing { refusal: u64, back: u64, majority: u64, left: u64, classes: [u8; layout::NODES] },
    Record { refusal: u64, time: u64, releases: u64, entries: u64, used: u64 },
}

impl Told {
    /// 0 where the call was accepted.
    pub fn refusal(&self) -> u64 {
        match *self {
            Told::Value { refusal, .. }
            | Told::Number { refusal, .. }
            | Told::Report { refusal, .. }
            | Told::Closing { refusal, .. }
            | Told::Record { refusal, .. } => refusal,
        }
    }
}

/// A library, or whatever stands in its place.
pub type Doors = dyn Fn(Call, &mut Lent) -> Told;

#[cfg(test)]
mod tests {
    use super::model::model;
    use super::trial::trial;
    use super::{Call, Lent, GUARDS};

    /// A word written before or behind a lent array is no word of it, and is told.
    #[test]
    fn doors_that_write_beside_a_lent_array_are_told() {
        let behind = |call: Call, lent: &mut Lent| {
            if matches!(call, Call::Finish { .. }) {
                let end = lent.state.places.len() - GUARDS;
                lent.state.places[end] = 0;
            }
            model(call, lent)
        };
        let before = |call: Call, lent: &mut Lent| {
            if matches!(call, Call::WriteNumber { .. }) {
                lent.bytes.places[GUARDS - 1] = 0;
            }
            model(call, lent)
        };
        for told in [trial(&behind, 1, 100), trial(&before, 1, 100)] {
            let difference = told.err().expect("a difference");
            assert!(difference.contains("written past"), "{difference}");
        }
    }
}
