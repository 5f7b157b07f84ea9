//! Makes a session on which two programs differ small: whole records first,
//! then releases and reports, then the last tasks, each left out where the
//! difference stays.

use reference::session::read_table;
use reference::written::{read_record, record_bytes, Bytes};
use reference::{Common, Record, Table};

use crate::sessions::packed;
use crate::tables::Numbers;

/// How many smaller sessions are tried.
const TRIES: usize = 400;

/// A session taken apart: the table where it can be read, the records that can
/// be, and what is left after them.
#[derive(Clone)]
struct Parts {
    table: Option<Numbers>,
    records: Vec<Record>,
    rest: Vec<u8>,
}

struct Shrinking<F> {
    differs: F,
    tries: usize,
    least: Parts,
}

/// A smaller session on which `differs` still holds, or the same one.
pub fn shrink(session: &[u8], differs: impl FnMut(&[u8]) -> bool) -> Vec<u8> {
    let mut shrinking = Shrinking { differs, tries: TRIES, least: take_apart(session) };
    shrinking.attempt(|parts| parts.rest.clear());
    shrinking.cut(|parts| Some(&mut parts.records));
    for record in (0..shrinking.least.records.len()).rev() {
        shrinking.attempt(|parts| {
            parts.records.remove(record);
        });
    }
    for record in (0..shrinking.least.records.len()).rev() {
        shrinking.thin(record);
    }
    shrinking.cut(|parts| parts.table.as_mut().map(|table| &mut table.tasks));
    shrinking.least.bytes()
}

impl<F: FnMut(&[u8]) -> bool> Shrinking<F> {
    /// Keeps a change where the difference stays.
    fn attempt(&mut self, change: impl FnOnce(&mut Parts)) -> bool {
        if self.tries == 0 {
            return false;
        }
        self.tries -= 1;
        let mut smaller = self.least.clone();
        change(&mut smaller);
        let kept = (self.differs)(&smaller.bytes());
        if kept {
            self.least = smaller;
        }
        kept
    }

    /// Leaves out half of a list from its end as long as that works.
    fn cut<T>(&mut self, list: impl Fn(&mut Parts) -> Option<&mut Vec<T>>) {
        while let Some(half) = list(&mut self.least).map(|list| list.len() / 2).filter(|&half| half > 0) {
            if !self.attempt(|parts| list(parts).expect("the same list").truncate(half)) {
                return;
            }
        }
    }

    /// Leaves out releases and reports of one record.
    fn thin(&mut self, record: usize) {
        for release in (0..self.least.records[record].releases.len()).rev() {
            self.attempt(|parts| {
                parts.records[record].releases.remove(release);
            });
        }
        for entry in 0..self.least.records[record].entries.len() {
            if self.least.records[record].entries[entry].is_some() {
                self.attempt(|parts| parts.records[record].entries[entry] = None);
            }
        }
    }
}

impl Parts {
    fn bytes(&self) -> Vec<u8> {
        let mut bytes = self.table.as_ref().map_or(Vec::new(), |table| packed(&table.written()));
        for record in &self.records {
            bytes.extend(record_bytes(record).expect("a record that was read can be written"));
        }
        bytes.extend(&self.rest);
        bytes
    }
}

fn take_apart(session: &[u8]) -> Parts {
    let mut bytes = Bytes::new(session);
    let Ok(table) = read_table(&mut bytes) else {
        return Parts { table: None, records: Vec::new(), rest: session.to_vec() };
    };
    let mut records = Vec::new();
    let mut read = bytes.taken() as usize;
    while let Ok(record) = read_record(&mut bytes, Common::TASKS, Table::NODES) {
        read = bytes.taken() as usize;
        records.push(record);
    }
    let table =
        Numbers { nodes: table.nodes() as u64, timeout: table.timeout(), tasks: table.tasks().to_vec() };
    Parts { table: Some(table), records, rest: session[read..].to_vec() }
}
