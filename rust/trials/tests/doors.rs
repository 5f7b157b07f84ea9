//! The trials over the doors, with the model itself in the library's place: they
//! reach what they have to, and they tell doors that have one fault each.

// All faults in one shape: which call or answer, and what is done to it.
#![allow(clippy::single_match)]

use trials::adversary::adversary;
use trials::doors::layout::*;
use trials::doors::model::model;
use trials::doors::model::words::table_of;
use trials::doors::trial::trial;
use trials::doors::{Call, Lent, Room, Told};

#[test]
fn the_default_scripts_reach_everything_on_the_lists() {
    let tried = trial(&model, 1, 6000).unwrap_or_else(|difference| panic!("{difference}"));
    assert!(tried.reached.missing().is_empty(), "not reached: {:?}", tried.reached.missing());
}

#[test]
fn the_cabinets_are_not_tame_and_the_reference_keeps_demand_3() {
    let met = adversary(&model, 2, 300_000).unwrap_or_else(|(cabinet, broken)| panic!("{cabinet}: {broken}"));
    assert!(met.too_tame().is_empty(), "too seldom: {:?}", met.too_tame());
}

type Fault = fn(Call, &mut Lent) -> Told;

/// A call of the model, and then what the fault does where it was accepted.
fn after(call: Call, lent: &mut Lent, fault: impl FnOnce(&mut Lent, &mut Told)) -> Told {
    let mut told = model(call, lent);
    if told.refusal() == 0 {
        fault(lent, &mut told);
    }
    told
}

/// The same where it was refused.
fn refused(call: Call, lent: &mut Lent, fault: impl FnOnce(&mut Lent, &mut Told)) -> Told {
    let mut told = model(call, lent);
    if told.refusal() != 0 {
        fault(lent, &mut told);
    }
    told
}

/// A call on the lent words made good first, as if nothing had been wrong there.
fn mended(call: Call, lent: &mut Lent, mend: impl FnOnce(&mut Lent)) -> Told {
    let mut other = lent.clone();
    mend(&mut other);
    let told = model(call, &mut other);
    if told.refusal() == 0 {
        *lent = other;
    }
    told
}

fn put<T>(place: Option<&mut T>, value: T) {
    if let Some(place) = place {
        *place = value;
    }
}

/// What it does, and the doors that do it.
const FAULTS: &[(&str, Fault)] = &[
    ("a refused step moves the latest time", |call, lent| {
        refused(call, lent, |lent, _| match call {
            Call::Start { now } => put(lent.state.get_mut(NODE_LATEST), now),
            _ => {}
        })
    }),
    ("a refused start names a task all the same", |call, lent| {
        refused(call, lent, |_, told| match told {
            Told::Value { refusal: 6, value } => *value = 1,
            _ => {}
        })
    }),
    ("9 names the task after the one that breaks the bound", |call, lent| {
        refused(call, lent, |_, told| match told {
            Told::Value { refusal: 9, value } => *value += 1,
            _ => {}
        })
    }),
    ("2 names no task", |call, lent| {
        refused(call, lent, |_, told| match told {
            Told::Value { refusal: 2, value } => *value = 0,
            _ => {}
        })
    }),
    ("a refused close tells a back-runner", |call, lent| {
        refused(call, lent, |_, told| match told {
            Told::Closing { back, .. } => *back = 0,
            _ => {}
        })
    }),
    ("a close tells a class beyond the number of nodes", |call, lent| {
        after(call, lent, |lent, told| match told {
            Told::Closing { classes, .. } => put(classes.get_mut(lent.table[TABLE_NODES] as usize), 1),
            _ => {}
        })
    }),
    ("a close never tells that the node is left behind", |call, lent| {
        after(call, lent, |_, told| match told {
            Told::Closing { left, .. } => *left = 0,
            _ => {}
        })
    }),
    ("a close always tells a majority", |call, lent| {
        after(call, lent, |_, told| match told {
            Told::Closing { majority, .. } => *majority = 1,
            _ => {}
        })
    }),
    ("a job that was dropped stays in the last place", |call, lent| {
        after(call, lent, |lent, _| match call {
            Call::CloseStation { .. } => {
                let kept =
                    lent.state[COMMON_ORDER + lent.state[COMMON_COUNT] as usize - 1..].first().copied();
                put(lent.state.get_mut(COMMON_WORDS - 1), kept.unwrap_or(0));
            }
            _ => {}
        })
    }),
    ("what was sent stays in the words of a round that was closed", |call, lent| {
        let time = lent.state.get(NODE_TIME).copied().unwrap_or(0);
        after(call, lent, |lent, _| match call {
            Call::Close { .. } => lent.state[NODE_TIME] = time,
            _ => {}
        })
    }),
    ("a fresh node leaves what stood in the order", |call, lent| {
        let stood = lent.state.last().copied().unwrap_or(0);
        after(call, lent, |lent, _| match call {
            Call::FreshNode { .. } => put(lent.state.last_mut(), stood),
            _ => {}
        })
    }),
    ("a running mark of 2 is a mark", |call, lent| {
        mended(call, lent, |lent| match call {
            Call::Start { .. } | Call::Finish { .. } | Call::Report { .. } | Call::Close { .. } => {
                if let Some(mark) = lent.state.get_mut(NODE_RUNNING) {
                    *mark = (*mark).min(1);
                }
            }
            _ => {}
        })
    }),
    ("a place past the count may hold something", |call, lent| {
        mended(call, lent, |lent| match call {
            Call::Projection { .. } | Call::Bound { .. }
                if lent.state.len() == COMMON_WORDS && lent.state[COMMON_COUNT] < PLACES as u64 =>
            {
                lent.state[COMMON_WORDS - 1] = 0;
            }
            _ => {}
        })
    }),
    ("more jobs kept than were released are taken", |call, lent| {
        mended(call, lent, |lent| match call {
            Call::Projection { .. } if lent.state.len() == COMMON_WORDS => {
                let base = lent.state[COMMON_BASE];
                let free = &mut lent.state[COMMON_EARLIEST + TASKS - 1];
                if *free == 0 && base < 1 << 40 {
                    *free = base + PLACES as u64;
                }
            }
            _ => {}
        })
    }),
    ("a word past the tasks of a table is looked at", |call, lent| {
        let tasks = lent.table.get(TABLE_TASKS).copied().unwrap_or(0);
        let looked = lent.table.get(TABLE_S + 63).copied().unwrap_or(0);
        let mut told = model(call, &mut lent.clone());
        match (&mut told, call) {
            (Told::Value { refusal, .. }, Call::CheckTable)
                if *refusal == 0 && tasks < 64 && looked > 1 << 40 =>
            {
                *refusal = 2;
                told
            }
            _ => model(call, lent),
        }
    }),
    ("the state is looked at before the table", |call, lent| {
        let state = matches!(call, Call::Start { .. }) && lent.state.len() != NODE_WORDS;
        match state {
            true => Told::Value { refusal: WRONG_LENGTH, value: 0 },
            false => model(call, lent),
        }
    }),
    ("a table that is none is told as 1 or 2 at a start", |call, lent| {
        refused(call, lent, |lent, told| match (call, told) {
            (Call::Start { .. }, Told::Value { refusal, .. }) if *refusal == WRONG_TABLE => {
                *refusal = table_of(&lent.table).map_or_else(|no| no.number().into(), |_| 0);
            }
            _ => {}
        })
    }),
    ("marks are looked at before the length of the entries", |call, lent| {
        let mark = lent.entries.first().is_some_and(|&mark| mark > 1);
        refused(call, lent, |_, told| match (call, told) {
            (Call::WriteRecord { .. }, Told::Value { refusal, .. }) if mark && *refusal == WRONG_LENGTH => {
                *refusal = WRONG_MARK;
            }
            _ => {}
        })
    }),
    ("a mark above 1 is a report", |call, lent| {
        mended(call, lent, |lent| match call {
            Call::CloseStation { .. } => {
                for entry in lent.entries.chunks_exact_mut(ENTRY_WORDS) {
                    entry[0] = entry[0].min(1);
                }
            }
            _ => {}
        })
    }),
    ("half a release at the end is left out", |call, lent| {
        mended(call, lent, |lent| match call {
            Call::CloseStation { .. } | Call::Close { .. } => {
                let whole = lent.releases.len() / RELEASE_WORDS * RELEASE_WORDS;
                lent.releases = Room::holding(&lent.releases[..whole]);
            }
            _ => {}
        })
    }),
    ("the projection past L is told", |call, lent| match call {
        Call::Projection { position } => refused(call, lent, |lent, told| match told {
            Told::Value { refusal, .. } if *refusal == NO_POSITION && position > 0 => {
                *told = model(Call::Projection { position: position - 1 }, &mut lent.clone());
            }
            _ => {}
        }),
        _ => model(call, lent),
    }),
    ("the bound of a position that is not kept is tried before its time", |call, lent| match call {
        Call::Bound { position, .. } => {
            let place = model(Call::Bound { position, time: 0 }, &mut lent.clone());
            if place.refusal() == NO_POSITION {
                place
            } else {
                model(call, lent)
            }
        }
        _ => model(call, lent),
    }),
    ("the order's list is filled to its end", |call, lent| {
        after(call, lent, |lent, told| match (call, told) {
            (Call::Order, Told::Value { value, .. }) => put(lent.order.get_mut(*value as usize), 0),
            _ => {}
        })
    }),
    ("a list that is too short for the order gets what fits", |call, lent| {
        refused(call, lent, |lent, told| match (call, told.refusal()) {
            (Call::Order, WRONG_LENGTH) => put(lent.order.first_mut(), 0),
            _ => {}
        })
    }),
    ("places past the count of releases are cleared", |call, lent| {
        after(call, lent, |lent, told| match told {
            Told::Record { releases, .. } => lent.releases[2 * *releases as usize..].fill(0),
            _ => {}
        })
    }),
    ("places past the count of entries are cleared", |call, lent| {
        after(call, lent, |lent, told| match told {
            Told::Record { entries, .. } => lent.entries[4 * *entries as usize..].fill(0),
            _ => {}
        })
    }),
    ("of a missing entry only the mark is written", |call, lent| {
        after(call, lent, |lent, told| match told {
            Told::Record { entries, .. } => {
                for entry in lent.entries.chunks_exact_mut(ENTRY_WORDS).take(*entries as usize) {
                    if entry[0] == 0 {
                        entry[3] = 9;
                    }
                }
            }
            _ => {}
        })
    }),
    ("releases stay where the entries of a record are refused", |call, lent| {
        refused(call, lent, |lent, told| match told {
            Told::Record { refusal: 20, .. } => put(lent.releases.first_mut(), 0),
            _ => {}
        })
    }),
    ("21 comes before 15 while reading", |call, lent| {
        let room = lent.releases.len();
        refused(call, lent, |_, told| match told {
            Told::Record { refusal, .. } if *refusal == 15 && room == 0 => *refusal = 21,
            _ => {}
        })
    }),
    ("a refused reading tells the bytes used", |call, lent| {
        refused(call, lent, |_, told| match told {
            Told::Record { used, .. } | Told::Number { used, .. } => *used = 1,
            _ => {}
        })
    }),
    ("a byte past a written record is cleared", |call, lent| {
        after(call, lent, |lent, told| match (call, told) {
            (Call::WriteRecord { .. }, Told::Value { value, .. }) => {
                put(lent.bytes.get_mut(*value as usize), 0)
            }
            _ => {}
        })
    }),
    ("a number that does not fit leaves its first group", |call, lent| {
        refused(call, lent, |lent, told| match (call, told.refusal()) {
            (Call::WriteNumber { .. }, 21) => put(lent.bytes.first_mut(), 0x80),
            _ => {}
        })
    }),
    ("21 comes before 22", |call, lent| {
        let empty = lent.bytes.is_empty();
        refused(call, lent, |_, told| match (call, told) {
            (Call::WriteNumber { .. }, Told::Value { refusal, .. }) if *refusal == 22 && empty => {
                *refusal = 21
            }
            _ => {}
        })
    }),
    ("a table read leaves what stood past its tasks", |call, lent| {
        let stood = lent.table.last().copied().unwrap_or(0);
        after(call, lent, |lent, _| match call {
            Call::ReadTable if lent.table[TABLE_TASKS] < 64 => put(lent.table.last_mut(), stood),
            _ => {}
        })
    }),
];

#[test]
fn doors_with_one_fault_are_told() {
    let silent: Vec<&str> = FAULTS
        .iter()
        .filter(|(_, doors)| {
            let doors = *doors;
            trial(&move |call, lent: &mut Lent| doors(call, lent), 1, 300).is_ok()
        })
        .map(|&(what, _)| what)
        .collect();
    assert!(silent.is_empty(), "not told: {silent:#?}");
}
