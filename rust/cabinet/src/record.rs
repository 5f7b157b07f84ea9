//! Round records and numbers, as values and as bytes.

use crate::ffi;
use crate::layout::{ENTRY_WORDS, NODES, RECORD_BYTES, RELEASES, RELEASE_WORDS};
use crate::refusal::{accepted, Refusal};

/// A release: the task, and the delay after r.
#[derive(Clone, Copy, Debug, Default, PartialEq, Eq)]
pub struct Release {
    /// The task released.
    pub task: u64,
    /// Its release time less r.
    pub delay: u64,
}

/// What a node reports for a round.
#[derive(Clone, Copy, Debug, Default, PartialEq, Eq)]
pub struct Report {
    /// Finished jobs.
    pub progress: u64,
    /// Completion time of the last one, 0 at first.
    pub completed: u64,
    /// 1 if a job runs or will run. What others report may be anything.
    pub run: u64,
}

/// A node's place in a record: its report, or none where it is missing.
pub type Entry = Option<Report>;

/// A round record.
#[derive(Clone, Debug, Default, PartialEq, Eq)]
pub struct Record {
    /// r, the round's time.
    pub time: u64,
    /// The releases, by growing delay.
    pub releases: Vec<Release>,
    /// One entry a node.
    pub entries: Vec<Entry>,
}

impl Record {
    /// The record at the first byte, and the bytes used; 15, 18, 19 or 20.
    pub fn read(bytes: &[u8]) -> Result<(Record, usize), Refusal> {
        let mut releases = [0; RELEASES * RELEASE_WORDS];
        let mut entries = [0; NODES * ENTRY_WORDS];
        let reply = ffi::read_record(bytes, &mut releases, &mut entries);
        accepted(reply.refusal)?;
        let releases = releases.chunks_exact(RELEASE_WORDS).take(reply.releases as usize);
        let entries = entries.chunks_exact(ENTRY_WORDS).take(reply.entries as usize);
        let record = Record {
            time: reply.time,
            releases: releases.map(|words| Release { task: words[0], delay: words[1] }).collect(),
            entries: entries.map(entry).collect(),
        };
        Ok((record, reply.used as usize))
    }

    /// Writes the record into the first bytes, and tells how many; 15, 22 or
    /// 21. Bytes past them stay.
    pub fn write(&self, bytes: &mut [u8]) -> Result<usize, Refusal> {
        let reply = ffi::write_record(bytes, self.time, &self.release_words(), &self.entry_words());
        accepted(reply.refusal)?;
        Ok(reply.value as usize)
    }

    /// The bytes of the record; 15 or 22.
    pub fn to_bytes(&self) -> Result<Vec<u8>, Refusal> {
        let mut bytes = vec![0; RECORD_BYTES];
        let used = self.write(&mut bytes)?;
        bytes.truncate(used);
        Ok(bytes)
    }

    /// The releases as the library takes them. Over-long lists go there whole,
    /// and are refused there.
    pub(crate) fn release_words(&self) -> Vec<u64> {
        self.releases.iter().flat_map(|release| [release.task, release.delay]).collect()
    }

    pub(crate) fn entry_words(&self) -> Vec<u64> {
        let words = |entry: &Entry| match entry {
            None => [0; ENTRY_WORDS],
            Some(report) => [1, report.progress, report.completed, report.run],
        };
        self.entries.iter().flat_map(words).collect()
    }
}

fn entry(words: &[u64]) -> Entry {
    match words[0] {
        0 => None,
        _ => Some(Report { progress: words[1], completed: words[2], run: words[3] }),
    }
}

/// The number at the first byte, and the bytes used; 18 or 19.
pub fn read_number(bytes: &[u8]) -> Result<(u64, usize), Refusal> {
    let reply = ffi::read_number(bytes);
    accepted(reply.refusal)?;
    Ok((reply.value, reply.used as usize))
}

/// Writes a number into the first bytes, and tells how many; 22 or 21.
pub fn write_number(bytes: &mut [u8], number: u64) -> Result<usize, Refusal> {
    let reply = ffi::write_number(bytes, number);
    accepted(reply.refusal)?;
    Ok(reply.value as usize)
}
