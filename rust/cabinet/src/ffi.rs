//! The border: the functions of include/cabinet.h as C declares them, and each
//! again as a safe function on slices. This is the only module with `unsafe`.
//!
//! Why the calls are sound: the library asks that each pointer is valid for its
//! length, is never null, and that an array to be written overlaps no other. A
//! slice is valid for its length and its pointer is never null, also where it
//! is empty; a `&mut` slice overlaps nothing else that is lent. The library
//! keeps nothing between calls. That these declarations are the header's is
//! held by a test, not by the compiler.

/// A refusal, or a value.
#[repr(C)]
#[derive(Clone, Copy, Debug, PartialEq, Eq)]
pub struct Reply {
    /// 0 where the call was accepted.
    pub refusal: u64,
    /// What the call answers; with 2 and 9 the task, but not when a table is
    /// read from bytes.
    pub value: u64,
}

/// A number that was read.
#[repr(C)]
#[derive(Clone, Copy, Debug, PartialEq, Eq)]
pub struct NumberReply {
    /// 0 where the call was accepted.
    pub refusal: u64,
    /// The number.
    pub value: u64,
    /// Bytes used.
    pub used: u64,
}

/// What a node reports.
#[repr(C)]
#[derive(Clone, Copy, Debug, PartialEq, Eq)]
pub struct ReportReply {
    /// 0 where the call was accepted.
    pub refusal: u64,
    /// Finished jobs.
    pub progress: u64,
    /// Completion time of the last.
    pub completed: u64,
    /// Run, 0 or 1.
    pub run: u64,
}

/// What a close answers.
#[repr(C)]
#[derive(Clone, Copy, Debug, PartialEq, Eq)]
pub struct CloseReply {
    /// 0 where the call was accepted.
    pub refusal: u64,
    /// The back-runner, 15 if none.
    pub back: u64,
    /// 1 where class 0 or 5 is a majority.
    pub majority: u64,
    /// 1 where the node is left behind now.
    pub left: u64,
    /// One class a node; places beyond the number of nodes hold 0.
    pub classes: [u8; 15],
}

/// A record that was read into lent lists.
#[repr(C)]
#[derive(Clone, Copy, Debug, PartialEq, Eq)]
pub struct RecordReply {
    /// 0 where the call was accepted.
    pub refusal: u64,
    /// r.
    pub time: u64,
    /// How many releases were read.
    pub releases: u64,
    /// How many entries were read.
    pub entries: u64,
    /// Bytes used, 0 on a refusal.
    pub used: u64,
}

#[rustfmt::skip]
extern "C" {
    fn cabinet_check_table(table: *const u64, table_words: usize) -> Reply;
    fn cabinet_fresh_common(common: *mut u64, common_words: usize) -> Reply;
    fn cabinet_fresh_node(table: *const u64, table_words: usize, node: *mut u64, node_words: usize, number: u64) -> Reply;
    fn cabinet_start(table: *const u64, table_words: usize, node: *mut u64, node_words: usize, now: u64) -> Reply;
    fn cabinet_finish(table: *const u64, table_words: usize, node: *mut u64, node_words: usize, now: u64) -> Reply;
    fn cabinet_report(table: *const u64, table_words: usize, node: *mut u64, node_words: usize, r: u64) -> ReportReply;
    fn cabinet_close(table: *const u64, table_words: usize, node: *mut u64, node_words: usize, r: u64, releases: *const u64, release_words: usize, entries: *const u64, entry_words: usize) -> CloseReply;
    fn cabinet_close_station(table: *const u64, table_words: usize, common: *mut u64, common_words: usize, r: u64, releases: *const u64, release_words: usize, entries: *const u64, entry_words: usize) -> CloseReply;
    fn cabinet_projection(table: *const u64, table_words: usize, common: *const u64, common_words: usize, position: u64) -> Reply;
    fn cabinet_bound(table: *const u64, table_words: usize, common: *const u64, common_words: usize, position: u64, time: u64) -> Reply;
    fn cabinet_order(table: *const u64, table_words: usize, common: *const u64, common_words: usize, order: *mut u64, order_words: usize) -> Reply;
    fn cabinet_read_number(bytes: *const u8, length: usize) -> NumberReply;
    fn cabinet_write_number(bytes: *mut u8, length: usize, number: u64) -> Reply;
    fn cabinet_read_table(bytes: *const u8, length: usize, table: *mut u64, table_words: usize) -> Reply;
    fn cabinet_read_record(bytes: *const u8, length: usize, releases: *mut u64, release_words: usize, entries: *mut u64, entry_words: usize) -> RecordReply;
    fn cabinet_write_record(bytes: *mut u8, length: usize, r: u64, releases: *const u64, release_words: usize, entries: *const u64, entry_words: usize) -> Reply;
}

/// Whether a table may be used.
pub fn check_table(table: &[u64]) -> Reply {
    unsafe { cabinet_check_table(table.as_ptr(), table.len()) }
}

/// A common record at the start.
pub fn fresh_common(common: &mut [u64]) -> Reply {
    unsafe { cabinet_fresh_common(common.as_mut_ptr(), common.len()) }
}

/// A node at the start.
pub fn fresh_node(table: &[u64], node: &mut [u64], number: u64) -> Reply {
    unsafe { cabinet_fresh_node(table.as_ptr(), table.len(), node.as_mut_ptr(), node.len(), number) }
}

/// Start of the next job.
pub fn start(table: &[u64], node: &mut [u64], now: u64) -> Reply {
    unsafe { cabinet_start(table.as_ptr(), table.len(), node.as_mut_ptr(), node.len(), now) }
}

/// Finish of the job that runs.
pub fn finish(table: &[u64], node: &mut [u64], now: u64) -> Reply {
    unsafe { cabinet_finish(table.as_ptr(), table.len(), node.as_mut_ptr(), node.len(), now) }
}

/// Report at the round time r.
pub fn report(table: &[u64], node: &mut [u64], r: u64) -> ReportReply {
    unsafe { cabinet_report(table.as_ptr(), table.len(), node.as_mut_ptr(), node.len(), r) }
}

/// A node's close of a round record.
pub fn close(table: &[u64], node: &mut [u64], r: u64, releases: &[u64], entries: &[u64]) -> CloseReply {
    unsafe {
        cabinet_close(
            table.as_ptr(),
            table.len(),
            node.as_mut_ptr(),
            node.len(),
            r,
            releases.as_ptr(),
            releases.len(),
            entries.as_ptr(),
            entries.len(),
        )
    }
}

/// A station's close.
pub fn close_station(
    table: &[u64],
    common: &mut [u64],
    r: u64,
    releases: &[u64],
    entries: &[u64],
) -> CloseReply {
    unsafe {
        cabinet_close_station(
            table.as_ptr(),
            table.len(),
            common.as_mut_ptr(),
            common.len(),
            r,
            releases.as_ptr(),
            releases.len(),
            entries.as_ptr(),
            entries.len(),
        )
    }
}

/// The projection of a position from B to L.
pub fn projection(table: &[u64], common: &[u64], position: u64) -> Reply {
    unsafe { cabinet_projection(table.as_ptr(), table.len(), common.as_ptr(), common.len(), position) }
}

/// Whether the bound holds for a position from B + 1 to L at a time.
pub fn bound(table: &[u64], common: &[u64], position: u64, time: u64) -> Reply {
    unsafe { cabinet_bound(table.as_ptr(), table.len(), common.as_ptr(), common.len(), position, time) }
}

/// The tasks of the jobs kept into a list.
pub fn order(table: &[u64], common: &[u64], order: &mut [u64]) -> Reply {
    unsafe {
        cabinet_order(
            table.as_ptr(),
            table.len(),
            common.as_ptr(),
            common.len(),
            order.as_mut_ptr(),
            order.len(),
        )
    }
}

/// The number at the first byte.
pub fn read_number(bytes: &[u8]) -> NumberReply {
    unsafe { cabinet_read_number(bytes.as_ptr(), bytes.len()) }
}

/// A number into the first bytes.
pub fn write_number(bytes: &mut [u8], number: u64) -> Reply {
    unsafe { cabinet_write_number(bytes.as_mut_ptr(), bytes.len(), number) }
}

/// A task table at the first byte.
pub fn read_table(bytes: &[u8], table: &mut [u64]) -> Reply {
    unsafe { cabinet_read_table(bytes.as_ptr(), bytes.len(), table.as_mut_ptr(), table.len()) }
}

/// The record at the first byte, into lent lists.
pub fn read_record(bytes: &[u8], releases: &mut [u64], entries: &mut [u64]) -> RecordReply {
    unsafe {
        cabinet_read_record(
            bytes.as_ptr(),
            bytes.len(),
            releases.as_mut_ptr(),
            releases.len(),
            entries.as_mut_ptr(),
            entries.len(),
        )
    }
}

/// A record into the first bytes.
pub fn write_record(bytes: &mut [u8], r: u64, releases: &[u64], entries: &[u64]) -> Reply {
    unsafe {
        cabinet_write_record(
            bytes.as_mut_ptr(),
            bytes.len(),
            r,
            releases.as_ptr(),
            releases.len(),
            entries.as_ptr(),
            entries.len(),
        )
    }
}
