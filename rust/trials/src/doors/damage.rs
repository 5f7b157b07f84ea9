//! What the doors themselves refuse: arrays of another length, tables that do not
//! pass the check, words that are no state, marks above 1. A damaged array is
//! refused, or taken as what it then is; the model says which.

use reference::{Table, LATEST_TIME};

use crate::doors::beside::Beside;
use crate::doors::layout::*;
use crate::doors::model::words::{common_of, node_of, table_of, table_words};
use crate::doors::{Call, Lent, Room};
use crate::random::Random;

/// The calls that take a node, at times and for the round that its words name.
fn node_calls(lent: &Lent) -> [Call; 4] {
    let word = |place: usize| lent.state.get(place).copied().unwrap_or(0);
    let now = word(NODE_LATEST);
    [Call::Start { now }, Call::Finish { now }, Call::Report { r: now }, Call::Close { r: word(NODE_TIME) }]
}

/// The calls that take a common record, about what its words name.
fn common_calls(lent: &Lent) -> [Call; 4] {
    let word = |place: usize| lent.state.get(place).copied().unwrap_or(0);
    let r = word(COMMON_LAST).saturating_add(*lent.table.get(TABLE_TIMEOUT).unwrap_or(&1));
    let position = word(COMMON_BASE).saturating_add(1);
    [
        Call::CloseStation { r },
        Call::Projection { position },
        Call::Bound { position, time: r.min(LATEST_TIME) },
        Call::Order,
    ]
}

fn calls(lent: &Lent, node: bool) -> [Call; 4] {
    if node {
        node_calls(lent)
    } else {
        common_calls(lent)
    }
}

/// The entries of a close that a node's words expect: its own as sent, the others
/// missing; or all missing.
fn with_lists(lent: &Lent) -> Lent {
    let nodes = lent.table[TABLE_NODES] as usize;
    let mut entries = vec![0; nodes * ENTRY_WORDS];
    if lent.state.len() == NODE_WORDS {
        let own = lent.state[NODE_NUMBER] as usize * ENTRY_WORDS;
        entries[own] = 1;
        entries[own + 1..own + ENTRY_WORDS].copy_from_slice(&lent.state[NODE_SENT..NODE_SENT + 3]);
    }
    Lent {
        releases: Room::holding(&[0, 0]),
        entries: Room::holding(&entries),
        order: Room::holding(&[7; PLACES]),
        ..lent.clone()
    }
}

/// Everything on one state that the library has written.
pub fn state(beside: &mut Beside, random: &mut Random, written: &Lent) -> Result<(), String> {
    let lent = with_lists(written);
    let node = lent.state.len() == NODE_WORDS;
    lengths(beside, &lent, node)?;
    marks(beside, &lent, node)?;
    words(beside, random, &lent, node)?;
    several_words(beside, random, &lent, node)?;
    table(beside, random, &lent, node)?;
    other_table(beside, &lent, node)
}

/// An array that is one short, one long, empty or twice as long.
fn other_lengths(words: &[u64]) -> Vec<Room<u64>> {
    let mut longer = words.to_vec();
    longer.push(0);
    let shorter = &words[..words.len().saturating_sub(1)];
    let all = [shorter, &longer, &[], &[words, words].concat()];
    all.iter().filter(|other| other.len() != words.len()).map(|other| Room::holding(other)).collect()
}

fn lengths(beside: &mut Beside, lent: &Lent, node: bool) -> Result<(), String> {
    for table in other_lengths(&lent.table) {
        let wrong = Lent { table, ..lent.clone() };
        for call in calls(lent, node) {
            beside.call(call, &wrong)?;
        }
        for call in [Call::CheckTable, Call::FreshNode { number: 0 }, Call::ReadTable] {
            beside.call(call, &wrong)?;
        }
        beside.reached.note("lengths: a table");
    }
    for state in other_lengths(&lent.state) {
        let wrong = Lent { state, ..lent.clone() };
        for call in calls(lent, node) {
            beside.call(call, &wrong)?;
        }
        let fresh = if node { Call::FreshNode { number: 0 } } else { Call::FreshCommon };
        beside.call(fresh, &wrong)?;
        beside.reached.note(if node { "lengths: a node" } else { "lengths: a common record" });
    }
    lists(beside, lent, node)?;
    first_decides(beside, lent, node)
}

/// Lists whose words are no whole number of releases or entries.
fn lists(beside: &mut Beside, lent: &Lent, node: bool) -> Result<(), String> {
    let close = if node { node_calls(lent)[3] } else { common_calls(lent)[0] };
    let odd: Vec<u64> = vec![1; 9];
    for words in [1, 3, 5, 7, 9] {
        let releases = Lent { releases: Room::holding(&odd[..words]), ..lent.clone() };
        let entries = Lent { entries: Room::holding(&odd[..words]), ..lent.clone() };
        for call in [close, Call::WriteRecord { r: 5 }, Call::ReadRecord] {
            beside.call(call, &releases)?;
            beside.reached.note("lengths: releases");
            beside.call(call, &entries)?;
            beside.reached.note("lengths: entries");
        }
    }
    Ok(())
}

/// "The lent arrays are looked at from left to right, each first for its length
/// and then for what it holds": all wrong, then righted one after the other.
fn first_decides(beside: &mut Beside, lent: &Lent, node: bool) -> Result<(), String> {
    let mut broken = lent.table.to_vec();
    broken[TABLE_C] = 0;
    let mut no_state = lent.state.to_vec();
    no_state[if node { NODE_RUNNING } else { COMMON_BEGUN }] = 2;
    let mut wrong = Lent {
        table: Room::holding(&broken[1..]),
        state: Room::holding(&no_state[1..]),
        releases: Room::holding(&[0]),
        entries: Room::holding(&[2]),
        order: Room::holding(&[]),
        bytes: Room::holding(&[0x80]),
    };
    for righted in 0..8 {
        match righted {
            1 => wrong.table = Room::holding(&broken),
            2 => wrong.table = lent.table.clone(),
            3 => wrong.state = Room::holding(&no_state),
            4 => wrong.state = lent.state.clone(),
            5 => wrong.releases = Room::holding(&[u64::MAX, 0]),
            6 => wrong.entries = Room::holding(&[2, 0, 0, 0]),
            7 => wrong.entries = Room::holding(&[0, 2, 2, 2]),
            _ => {}
        }
        for call in calls(lent, node) {
            beside.call(call, &wrong)?;
        }
        for call in [Call::FreshNode { number: 99 }, Call::ReadRecord, Call::WriteRecord { r: u64::MAX }] {
            beside.call(call, &wrong)?;
        }
    }
    beside.reached.note("lengths: the first wrong array decides");
    Ok(())
}

/// A mark above 1 at each entry; and behind a mark of 0 anything may stand.
fn marks(beside: &mut Beside, lent: &Lent, node: bool) -> Result<(), String> {
    let close = if node { node_calls(lent)[3] } else { common_calls(lent)[0] };
    for entry in 0..lent.entries.len() / ENTRY_WORDS {
        for mark in [0, 2, 1 << 32, u64::MAX] {
            let mut lent = lent.clone();
            lent.entries[entry * ENTRY_WORDS] = mark;
            lent.entries[entry * ENTRY_WORDS + 1] = u64::MAX;
            lent.bytes = Room::holding(&[0x55; 200]);
            beside.call(close, &lent)?;
            beside.call(Call::WriteRecord { r: 5 }, &lent)?;
        }
    }
    Ok(())
}

/// Values to put in a word's place: bits turned over, neighbours, and where some
/// word's range ends.
fn others(random: &mut Random, lent: &Lent, value: u64) -> Vec<u64> {
    let nodes = lent.table[TABLE_NODES];
    let tasks = lent.table[TABLE_TASKS];
    let edge = random.pick(&[nodes, tasks, 1, 2, 64, 255, 256, 1 << 32, 1 << 48, 1 << 49, 1 << 63]);
    let about = random.about(edge);
    let (low, any) = (1 << random.below(4), 1 << random.below(64));
    let all = [value ^ low, value ^ any, value.wrapping_add(1), value.wrapping_sub(1), edge, edge - 1, about];
    let mut others: Vec<u64> =
        all.into_iter().chain([0, 1, u64::MAX]).filter(|&other| other != value).collect();
    others.sort_unstable();
    others.dedup();
    others
}

/// Every word of the state in turn. No word of a state is ever 2^64 - 1.
fn words(beside: &mut Beside, random: &mut Random, lent: &Lent, node: bool) -> Result<(), String> {
    for place in 0..lent.state.len() {
        for value in others(random, lent, lent.state[place]) {
            let mut damaged = lent.clone();
            damaged.state[place] = value;
            let taken = damage(beside, &damaged, node)?;
            if value == u64::MAX && taken {
                return Err(format!("2^64 - 1 was taken at word {place}"));
            }
        }
    }
    Ok(())
}

/// Two or three words at once, mostly among those that are not the order's.
fn several_words(beside: &mut Beside, random: &mut Random, lent: &Lent, node: bool) -> Result<(), String> {
    for _ in 0..300 {
        let mut damaged = lent.clone();
        for _ in 0..random.between(2, 3) {
            let words = random.pick(&[20, 20, lent.state.len() as u64]);
            let place = random.below(words) as usize;
            let values = others(random, lent, lent.state[place]);
            damaged.state[place] = random.pick(&values);
        }
        damage(beside, &damaged, node)?;
    }
    Ok(())
}

/// The four calls on damaged words; whether they are a state all the same.
fn damage(beside: &mut Beside, damaged: &Lent, node: bool) -> Result<bool, String> {
    for call in calls(damaged, node) {
        beside.call(call, damaged)?;
    }
    let table = table_of(&damaged.table).expect("the table is whole");
    let taken = match node {
        true => node_of(&table, &damaged.state).is_some(),
        false => common_of(&table, &damaged.state).is_some(),
    };
    beside.reached.note(match (node, taken) {
        (true, true) => "damage: a node taken as another",
        (true, false) => "damage: a node refused",
        (false, true) => "damage: a common record taken as another",
        (false, false) => "damage: a common record refused",
    });
    Ok(taken)
}

/// Every word of the table in turn, also those past its tasks, of which nothing
/// is asked.
fn table(beside: &mut Beside, random: &mut Random, lent: &Lent, node: bool) -> Result<(), String> {
    for place in 0..TABLE_WORDS {
        for value in others(random, lent, lent.table[place]) {
            let mut damaged = lent.clone();
            damaged.table[place] = value;
            beside.call(Call::CheckTable, &damaged)?;
            beside.call(Call::FreshNode { number: random.below(17) }, &damaged)?;
            let call = random.pick(&calls(lent, node));
            beside.call(call, &damaged)?;
            let whole = table_of(&damaged.table);
            beside.reached.note(if whole.is_ok() {
                "damage: a table taken as another"
            } else {
                "damage: a table refused"
            });
            let unused = whole.is_ok_and(|table| Ok(table) == table_of(&lent.table));
            beside.reached.note_if(unused, "damage: a word that no table of this many tasks has");
        }
    }
    Ok(())
}

/// The state under a table with one node, or one task, less.
fn other_table(beside: &mut Beside, lent: &Lent, node: bool) -> Result<(), String> {
    for place in [TABLE_NODES, TABLE_TASKS] {
        let mut table = lent.table.clone();
        table[place] -= 1;
        if table_of(&table).is_err() {
            continue;
        }
        let other = Lent { table, ..lent.clone() };
        for call in calls(lent, node) {
            let (told, _) = beside.call(call, &other)?;
            beside.reached.note_if(told.refusal() == WRONG_STATE, "damage: a state of another table");
        }
    }
    Ok(())
}

/// Marks, tables and lengths need no state that was played: a fresh one of each.
pub fn fresh(beside: &mut Beside, random: &mut Random, checked: &Table) -> Result<(), String> {
    let table = Room::holding(&table_words(checked));
    for (call, length) in [(Call::FreshNode { number: 0 }, NODE_WORDS), (Call::FreshCommon, COMMON_WORDS)] {
        let lent = Lent { table: table.clone(), state: Room::holding(&vec![7; length]), ..Lent::default() };
        let (_, lent) = beside.call(call, &lent)?;
        state(beside, random, &lent)?;
    }
    Ok(())
}
