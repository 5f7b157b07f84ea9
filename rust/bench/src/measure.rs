//! A call under measure: that it is answered as the reference answers it, how
//! deep it goes into its stack, and how long it takes on each of several sides.

use std::hint::black_box;
use std::time::{Duration, Instant};

use trials::doors::model::model;
use trials::doors::{Call, Doors, Lent};

use crate::{median, stack};

/// Calls in a row between two looks at the clock.
pub const ROW: u32 = 400;

/// Every side tells and leaves what the reference does, and accepts the call.
pub fn agree(sides: &[&Doors], call: Call, lent: &Lent) {
    let mut theirs = lent.clone();
    let expected = model(call, &mut theirs);
    for (place, side) in sides.iter().enumerate() {
        let mut ours = lent.clone();
        assert_eq!(side(call, &mut ours), expected, "{call:?} of side {place}");
        assert_eq!(ours, theirs, "{call:?} of side {place}");
    }
    assert_eq!(expected.refusal(), 0, "{call:?} is to be measured where it is accepted");
}

/// How many bytes of its stack the call wrote to.
pub fn depth(doors: &Doors, call: Call, lent: &Lent) -> usize {
    let mut used = lent.clone();
    stack::depth(&mut || {
        used.state.copy_from_slice(&lent.state);
        black_box(doors(call, &mut used));
    })
}

/// The time of one call on each side, as medians over rows made in turn, so that
/// whatever else the machine does falls on all sides.
pub fn in_turn(times: usize, sides: &[&Doors], call: Call, lent: &Lent) -> Vec<Duration> {
    let mut rows = vec![Vec::new(); sides.len()];
    for _ in 0..times {
        for (&side, rows) in sides.iter().zip(&mut rows) {
            rows.push(row(side, call, lent));
        }
    }
    rows.into_iter().map(median).collect()
}

/// A row of calls, each on the same words: the state is put back before each.
fn row(doors: &Doors, call: Call, lent: &Lent) -> Duration {
    let mut used = lent.clone();
    let begun = Instant::now();
    for _ in 0..ROW {
        used.state.copy_from_slice(&lent.state);
        black_box(doors(call, &mut used));
    }
    begun.elapsed() / ROW
}
