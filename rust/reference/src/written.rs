//! "The written record": numbers in groups of seven bits, and round records
//! made of them, read and written.

use std::io::{self, BufRead, ErrorKind};

use crate::common::Common;
use crate::refusal::Refusal;
use crate::table::Table;

/// One release of a record: the task, and the delay after r.
#[derive(Clone, Copy, Debug, Default, PartialEq, Eq)]
pub struct Release {
    pub task: u64,
    pub delay: u64,
}

/// What a node reports; an entry of a record is one of these or missing.
#[derive(Clone, Copy, Debug, Default, PartialEq, Eq)]
pub struct Report {
    pub progress: u64,
    pub completion: u64,
    pub run: u64,
}

#[derive(Clone, Debug, Default, PartialEq, Eq)]
pub struct Record {
    pub r: u64,
    pub releases: Vec<Release>,
    pub entries: Vec<Option<Report>>,
}

/// Why a reading stopped: a refusal, or a source that could not be read. The
/// second is never the end of the bytes.
#[derive(Debug)]
pub enum Fault {
    Refused(Refusal),
    Source(io::Error),
}

impl From<Refusal> for Fault {
    fn from(refusal: Refusal) -> Fault {
        Fault::Refused(refusal)
    }
}

impl From<io::Error> for Fault {
    fn from(error: io::Error) -> Fault {
        Fault::Source(error)
    }
}

/// Bytes to read numbers from, how many of them have been taken, and how many
/// had been when the number read last began.
pub struct Bytes<S> {
    source: S,
    taken: u64,
    begun: u64,
}

impl<S: BufRead> Bytes<S> {
    pub fn new(source: S) -> Bytes<S> {
        Bytes { source, taken: 0, begun: 0 }
    }

    pub fn taken(&self) -> u64 {
        self.taken
    }

    /// The index of the first byte of the number read last.
    pub fn begun(&self) -> u64 {
        self.begun
    }

    pub fn source(&self) -> &S {
        &self.source
    }

    /// The next byte without taking it; none where the bytes end.
    fn peek(&mut self) -> io::Result<Option<u8>> {
        loop {
            match self.source.fill_buf() {
                Ok(bytes) => return Ok(bytes.first().copied()),
                Err(error) if error.kind() == ErrorKind::Interrupted => {}
                Err(error) => return Err(error),
            }
        }
    }

    pub fn at_end(&mut self) -> io::Result<bool> {
        Ok(self.peek()?.is_none())
    }

    /// The next byte, or 18 where there is none.
    fn take(&mut self) -> Result<u8, Fault> {
        let byte = self.peek()?.ok_or(Refusal::BytesEnd)?;
        self.source.consume(1);
        self.taken += 1;
        Ok(byte)
    }
}

/// "groups of seven bits, lowest first, the top bit set on all groups but the
/// last, shortest form, at most nine groups".
const GROUPS: u32 = 9;

/// Reads a number; 18 where the bytes end early; 19 for "a ninth group with its
/// top bit set (at once, with or without a tenth byte)" and for "the last of
/// several groups is 0".
pub fn read_number<S: BufRead>(bytes: &mut Bytes<S>) -> Result<u64, Fault> {
    bytes.begun = bytes.taken;
    let mut value = 0;
    for group in 0..GROUPS {
        let byte = bytes.take()?;
        value |= u64::from(byte & 0x7f) << (7 * group);
        if byte < 0x80 {
            if byte == 0 && group > 0 {
                return Err(Refusal::LastGroupZero.into());
            }
            return Ok(value);
        }
    }
    Err(Refusal::NinthGroupGoesOn.into())
}

/// Reads "r, count of releases, (task, delay) each, count of entries, then per
/// entry 0, or 1 with progress, completion time, run". The two rooms say how
/// many places the caller lends: a larger count is 21, after that count's 15.
pub fn read_record<S: BufRead>(
    bytes: &mut Bytes<S>,
    release_room: usize,
    entry_room: usize,
) -> Result<Record, Fault> {
    let r = read_number(bytes)?;
    let mut releases = Vec::new();
    for _ in 0..read_count(bytes, Common::TASKS, Refusal::TooManyReleases, release_room)? {
        releases.push(Release { task: read_number(bytes)?, delay: read_number(bytes)? });
    }
    let mut entries = Vec::new();
    for _ in 0..read_count(bytes, Table::NODES, Refusal::TooManyEntries, entry_room)? {
        entries.push(read_entry(bytes)?);
    }
    Ok(Record { r, releases, entries })
}

/// "a count of releases over 64 or of entries over 15 gives 15 as soon as it is
/// met"; a lent list that is shorter gives "21 there, after that count's 15".
fn read_count<S: BufRead>(
    bytes: &mut Bytes<S>,
    limit: usize,
    above: Refusal,
    room: usize,
) -> Result<u64, Fault> {
    let count = read_number(bytes)?;
    if count > limit as u64 {
        return Err(above.into());
    }
    if count > room as u64 {
        return Err(Refusal::BufferTooShort.into());
    }
    Ok(count)
}

/// A presence mark is a number as every other; above 1 it is 20.
fn read_entry<S: BufRead>(bytes: &mut Bytes<S>) -> Result<Option<Report>, Fault> {
    match read_number(bytes)? {
        0 => Ok(None),
        1 => Ok(Some(Report {
            progress: read_number(bytes)?,
            completion: read_number(bytes)?,
            run: read_number(bytes)?,
        })),
        _ => Err(Refusal::MarkAboveOne.into()),
    }
}

/// What reading into lent lists answers: r, the two counts and the bytes used.
#[derive(Clone, Copy, Debug, PartialEq, Eq)]
pub struct ReadInto {
    pub r: u64,
    pub releases: usize,
    pub entries: usize,
    pub used: usize,
}

/// The value and the bytes used.
pub fn number_from(bytes: &[u8]) -> Result<(u64, usize), Refusal> {
    let mut bytes = Bytes::new(bytes);
    let value = from_memory(read_number(&mut bytes))?;
    Ok((value, bytes.taken() as usize))
}

/// The record and the bytes used.
pub fn record_from(bytes: &[u8]) -> Result<(Record, usize), Refusal> {
    let mut bytes = Bytes::new(bytes);
    let record = from_memory(read_record(&mut bytes, Common::TASKS, Table::NODES))?;
    Ok((record, bytes.taken() as usize))
}

/// Reads a record into lent lists. "places past the count stay as they were";
/// a refusal leaves them all as they were.
pub fn record_into(
    bytes: &[u8],
    releases: &mut [Release],
    entries: &mut [Option<Report>],
) -> Result<ReadInto, Refusal> {
    let mut bytes = Bytes::new(bytes);
    let record = from_memory(read_record(&mut bytes, releases.len(), entries.len()))?;
    releases[..record.releases.len()].copy_from_slice(&record.releases);
    entries[..record.entries.len()].copy_from_slice(&record.entries);
    Ok(ReadInto {
        r: record.r,
        releases: record.releases.len(),
        entries: record.entries.len(),
        used: bytes.taken() as usize,
    })
}

fn from_memory<T>(read: Result<T, Fault>) -> Result<T, Refusal> {
    read.map_err(|fault| match fault {
        Fault::Refused(refusal) => refusal,
        Fault::Source(error) => unreachable!("memory can always be read: {error}"),
    })
}

/// Appends a number's groups; 22 for "value of 2^63 or more to write".
pub fn push_number(value: u64, bytes: &mut Vec<u8>) -> Result<(), Refusal> {
    if value >= 1 << 63 {
        return Err(Refusal::ValueTooLarge);
    }
    let mut rest = value;
    while rest >= 0x80 {
        bytes.push((rest & 0x7f) as u8 | 0x80);
        rest >>= 7;
    }
    bytes.push(rest as u8);
    Ok(())
}

/// Writes a number at the buffer's start: 22, then 21. The reply is its length.
pub fn write_number(value: u64, buffer: &mut [u8]) -> Result<usize, Refusal> {
    let mut bytes = Vec::new();
    push_number(value, &mut bytes)?;
    store(&bytes, buffer)
}

/// Writes a record at the buffer's start: "15 for those counts, then 22, then
/// 21; bytes past the record stay as they were". The reply is its length.
pub fn write_record(record: &Record, buffer: &mut [u8]) -> Result<usize, Refusal> {
    store(&record_bytes(record)?, buffer)
}

/// The bytes of a record, or 15 for its counts, then 22.
pub fn record_bytes(record: &Record) -> Result<Vec<u8>, Refusal> {
    if record.releases.len() > Common::TASKS {
        return Err(Refusal::TooManyReleases);
    }
    if record.entries.len() > Table::NODES {
        return Err(Refusal::TooManyEntries);
    }
    let mut bytes = Vec::new();
    for value in record_numbers(record) {
        push_number(value, &mut bytes)?;
    }
    Ok(bytes)
}

/// A record as the numbers of its written form, in order.
pub fn record_numbers(record: &Record) -> Vec<u64> {
    let mut numbers = vec![record.r, record.releases.len() as u64];
    for release in &record.releases {
        numbers.extend([release.task, release.delay]);
    }
    numbers.push(record.entries.len() as u64);
    for entry in &record.entries {
        match entry {
            None => numbers.push(0),
            Some(report) => numbers.extend([1, report.progress, report.completion, report.run]),
        }
    }
    numbers
}

/// 21 for "written record longer than the buffer".
fn store(bytes: &[u8], buffer: &mut [u8]) -> Result<usize, Refusal> {
    let place = buffer.get_mut(..bytes.len()).ok_or(Refusal::BufferTooShort)?;
    place.copy_from_slice(bytes);
    Ok(bytes.len())
}
