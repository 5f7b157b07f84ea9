//! All trials over the doors under one seed.

use reference::Table;

use crate::doors::beside::Beside;
use crate::doors::layout::NODE_WORDS;
use crate::doors::model::words::{common_of, node_of, table_of};
use crate::doors::wanted::doors_wanted;
use crate::doors::{bytes, damage, looks, scripts, Doors, Lent};
use crate::observe::Reached;
use crate::random::Random;
use crate::sessions::session;
use crate::tables::{table, Shape};

/// What was done where nothing differed.
pub struct Tried {
    pub calls: u64,
    pub reached: Reached,
}

/// Of the states that the scripts went through, so many are damaged.
const DAMAGED: u64 = 24;

/// Plays scripts 0, 1, 2 and on of a seed, reads and writes as many sessions, and
/// damages some of the states. An error says where the two sides differ.
pub fn trial(doors: &Doors, seed: u64, scripts: u64) -> Result<Tried, String> {
    let mut beside = Beside { doors, reached: doors_wanted(), calls: 0 };
    let mut states = Vec::new();
    for number in 0..scripts {
        let random = &mut of(seed, number);
        scripts::play(&mut beside, random, &mut states)
            .map_err(|difference| format!("script {number} of seed {seed}: {difference}"))?;
        bytes::session(&mut beside, random, &session(seed, number))
            .map_err(|difference| format!("the bytes of session {number} of seed {seed}: {difference}"))?;
    }
    let random = &mut of(seed, u64::MAX);
    bytes::numbers(&mut beside)?;
    bytes::every_room(&mut beside)?;
    bytes::written(&mut beside, random)?;
    for lent in &states {
        let (table, common) = common_in(lent);
        looks::look(&mut beside, random, &table, &common)?;
    }
    for shape in [Shape::Canal, Shape::Crowd] {
        let checked = table(random, shape).check();
        damage::fresh(&mut beside, random, &checked)?;
    }
    for _ in 0..DAMAGED.min(states.len() as u64) {
        let lent = states.swap_remove(random.below(states.len() as u64) as usize);
        damage::state(&mut beside, random, &lent)?;
    }
    Ok(Tried { calls: beside.calls, reached: beside.reached })
}

fn of(seed: u64, number: u64) -> Random {
    let mut mixed = Random::new(seed.wrapping_mul(0x0100_0000_01B3).wrapping_add(number));
    Random::new(mixed.number())
}

/// The table and the common record of a state that a script left.
fn common_in(lent: &Lent) -> (Table, reference::Common) {
    let table = table_of(&lent.table).expect("the table is whole");
    let common = if lent.state.len() == NODE_WORDS {
        node_of(&table, &lent.state).map(|(_, common)| common)
    } else {
        common_of(&table, &lent.state)
    };
    (table, common.expect("the state is one that the reference has"))
}
