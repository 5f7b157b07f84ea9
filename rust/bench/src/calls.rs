//! Each call of the library with what it is lent: on a full order, and the
//! longest record.

use reference::node::Round;
use reference::written::{push_number, record_bytes};
use reference::{Node, Record, Release, Report, Table};
use trials::doors::layout::*;
use trials::doors::model::words::{common_words, entry_words, node_words, release_words, table_words};
use trials::doors::{Call, Lent, Room};

use crate::rounds::{full_state, Ready};

/// Each call once.
pub fn cases() -> Vec<(Call, Lent)> {
    let ready = full_state(40);
    let Ready { table, common, record } = &ready;
    let (close_station, station) = station(&ready);
    // A node that has come to O, so that the next start is by the bound.
    let idle = Node {
        number: 0,
        progress: common.offset(),
        completion: record.r,
        running: false,
        latest: record.r,
        round: None,
    };
    let node = |node: Node| lent(&ready, &node_words(&node, common));
    let sent = record.entries[0].expect("fifteen reports");
    let round = Some(Round { r: record.r, sent, lock: sent.progress + sent.run });
    let reported = Node { progress: sent.progress, completion: sent.completion, round, ..idle.clone() };
    let running = Node { running: true, ..idle.clone() };
    let now = record.r + (1 << 40);
    let last = common.length();
    let mut cases = vec![
        (Call::CheckTable, station.clone()),
        (Call::FreshCommon, station.clone()),
        (Call::FreshNode { number: 14 }, node(idle.clone())),
        (Call::Start { now }, node(idle.clone())),
        (Call::Finish { now }, node(running)),
        (Call::Report { r: now }, node(idle)),
        (Call::Close { r: record.r }, node(reported)),
        (close_station, station.clone()),
        (Call::Projection { position: last }, station.clone()),
        (Call::Bound { position: last, time: now }, station.clone()),
        (Call::Order, station.clone()),
    ];
    cases.extend(byte_cases(table, station));
    cases
}

/// A station's close of the record that comes next.
pub fn station(ready: &Ready) -> (Call, Lent) {
    (Call::CloseStation { r: ready.record.r }, lent(ready, &common_words(&ready.common)))
}

fn lent(ready: &Ready, state: &[u64]) -> Lent {
    Lent {
        table: Room::holding(&table_words(&ready.table)),
        state: Room::holding(state),
        releases: Room::holding(&release_words(&ready.record.releases)),
        entries: Room::holding(&entry_words(&ready.record.entries)),
        order: Room::holding(&[0; PLACES]),
        bytes: Room::default(),
    }
}

/// Numbers of nine bytes, the table of 64 tasks, and the longest record.
fn byte_cases(table: &Table, lent: Lent) -> Vec<(Call, Lent)> {
    let most = (1 << 63) - 1;
    let release = Release { task: most, delay: most };
    let report = Report { progress: most, completion: most, run: most };
    let longest = Record { r: most, releases: vec![release; RELEASES], entries: vec![Some(report); NODES] };
    let record = record_bytes(&longest).expect("numbers below 2^63");
    assert_eq!(record.len(), RECORD_BYTES);
    let with = |bytes: &[u8]| Lent {
        bytes: Room::holding(bytes),
        releases: Room::holding(&release_words(&longest.releases)),
        entries: Room::holding(&entry_words(&longest.entries)),
        ..lent.clone()
    };
    vec![
        (Call::ReadNumber, with(&packed(&[most]))),
        (Call::WriteNumber { number: most }, with(&[0; NUMBER_BYTES])),
        (Call::ReadTable, with(&table_bytes(table))),
        (Call::ReadRecord, with(&record)),
        (Call::WriteRecord { r: most }, with(&[0; RECORD_BYTES])),
    ]
}

fn table_bytes(table: &Table) -> Vec<u8> {
    let mut numbers = vec![table.nodes() as u64, table.timeout(), table.tasks().len() as u64];
    for task in table.tasks() {
        numbers.extend([task.execution, task.distance, task.deadline, task.slack]);
    }
    packed(&numbers)
}

fn packed(numbers: &[u64]) -> Vec<u8> {
    let mut bytes = Vec::new();
    for &number in numbers {
        push_number(number, &mut bytes).expect("a number below 2^63");
    }
    bytes
}
