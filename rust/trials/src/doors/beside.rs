//! A call made on both sides: what each told, and what each left in what was
//! lent, must be the same; and a refusal must have changed nothing.

use std::fmt::Write;

use crate::doors::layout::*;
use crate::doors::model::model;
use crate::doors::{Call, Doors, Lent, Told};
use crate::observe::Reached;

/// The doors under trial, and what was reached so far.
pub struct Beside<'a> {
    pub doors: &'a Doors,
    pub reached: Reached,
    pub calls: u64,
}

impl<'a> Beside<'a> {
    /// The call on a copy of what is lent, beside the model's on another. An
    /// error says how they differ.
    pub fn call(&mut self, call: Call, lent: &Lent) -> Result<(Told, Lent), String> {
        let mut expected = lent.clone();
        let answer = model(call, &mut expected);
        let mut after = lent.clone();
        let told = (self.doors)(call, &mut after);
        self.compare(call, lent, (&told, &after), (&answer, &expected))?;
        Ok((told, after))
    }

    /// Compares two answers, and notes which door gave which refusal.
    pub fn compare(
        &mut self,
        call: Call,
        before: &Lent,
        ours: (&Told, &Lent),
        theirs: (&Told, &Lent),
    ) -> Result<(), String> {
        self.calls += 1;
        if ours != theirs {
            return Err(difference(call, ours, theirs));
        }
        if ours.0.refusal() != 0 && ours.1 != before {
            return Err(format!("{call:?} was refused {} and changed what was lent", ours.0.refusal()));
        }
        self.reached.note(&format!("{}: {}", call.name(), ours.0.refusal()));
        if let Told::Closing { refusal: 0, classes, .. } = ours.0 {
            let nodes = before.table[TABLE_NODES] as usize;
            for class in &classes[..nodes] {
                self.reached.note(&format!("{}: class {class}", call.name()));
            }
        }
        Ok(())
    }
}

fn difference(call: Call, ours: (&Told, &Lent), theirs: (&Told, &Lent)) -> String {
    let mut text = format!("{call:?}\n  told      {:?}\n  expected  {:?}\n", ours.0, theirs.0);
    let (one, other) = (ours.1, theirs.1);
    let arrays = [
        ("table", &one.table, &other.table),
        ("state", &one.state, &other.state),
        ("releases", &one.releases, &other.releases),
        ("entries", &one.entries, &other.entries),
        ("order", &one.order, &other.order),
    ];
    for (name, one, other) in arrays {
        differing(&mut text, name, one, other);
        if one[..] == other[..] && one != other {
            text += &format!("  {name}: written past its ends\n");
        }
    }
    differing(&mut text, "bytes", &one.bytes, &other.bytes);
    if one.bytes[..] == other.bytes[..] && one.bytes != other.bytes {
        text += "  bytes: written past their ends\n";
    }
    text
}

/// The first few places at which two arrays of one length differ.
fn differing<T: PartialEq + std::fmt::Display>(text: &mut String, name: &str, one: &[T], other: &[T]) {
    let places = one.iter().zip(other).enumerate().filter(|(_, (one, other))| one != other);
    for (place, (one, other)) in places.take(8) {
        writeln!(text, "  {name}[{place}] is {one}, expected {other}").expect("a string takes every line");
    }
}
