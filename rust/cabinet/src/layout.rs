//! The limits and word places of include/cabinet.h, by the names there without
//! their CABINET_. A test holds each of them against the header.

/// Most nodes of a table.
pub const NODES: usize = 15;
/// Most tasks of a table.
pub const TASKS: usize = 64;
/// Most jobs that a common record keeps.
pub const PLACES: usize = 256;
/// Most releases of a record.
pub const RELEASES: usize = 64;

/// Words of a table.
pub const TABLE_WORDS: usize = 259;
/// Words of a common record.
pub const COMMON_WORDS: usize = 326;
/// Words of a node.
pub const NODE_WORDS: usize = 336;
/// Where a node's own common record begins.
pub const NODE_COMMON: usize = 10;

/// Words of a release: task, delay.
pub const RELEASE_WORDS: usize = 2;
/// Words of an entry: 0 (missing) or 1, progress, completion time, run.
pub const ENTRY_WORDS: usize = 4;

/// Bytes of the longest written record.
pub const RECORD_BYTES: usize = 1583;
/// Bytes of the longest written number.
pub const NUMBER_BYTES: usize = 9;

/// A lent array has another length than the call states.
pub const WRONG_LENGTH: u64 = 100;
/// The table does not pass the check.
pub const WRONG_TABLE: u64 = 101;
/// The state is none for this table.
pub const WRONG_STATE: u64 = 102;
/// An entry's first word is above 1.
pub const WRONG_MARK: u64 = 103;
/// The common record keeps no such position.
pub const NO_POSITION: u64 = 104;

/// In a table: number of nodes.
pub const TABLE_NODES: usize = 0;
/// In a table: timeout.
pub const TABLE_TIMEOUT: usize = 1;
/// In a table: number of tasks.
pub const TABLE_TASKS: usize = 2;
/// In a table: 64 words of C.
pub const TABLE_C: usize = 3;
/// In a table: 64 words of T.
pub const TABLE_T: usize = 67;
/// In a table: 64 words of D.
pub const TABLE_D: usize = 131;
/// In a table: 64 words of S.
pub const TABLE_S: usize = 195;

/// In a common record: B.
pub const COMMON_BASE: usize = 0;
/// In a common record: W.
pub const COMMON_START: usize = 1;
/// In a common record: O.
pub const COMMON_OFFSET: usize = 2;
/// In a common record: how many jobs are kept.
pub const COMMON_COUNT: usize = 3;
/// In a common record: 1 once a round has been.
pub const COMMON_BEGUN: usize = 4;
/// In a common record: the last round's time.
pub const COMMON_LAST: usize = 5;
/// In a common record: 64 words of E.
pub const COMMON_EARLIEST: usize = 6;
/// In a common record: 256 words, the tasks of the jobs kept.
pub const COMMON_ORDER: usize = 70;

/// In a node: its number.
pub const NODE_NUMBER: usize = 0;
/// In a node: its progress.
pub const NODE_PROGRESS: usize = 1;
/// In a node: the completion time of its last job.
pub const NODE_COMPLETED: usize = 2;
/// In a node: 1 while a job runs.
pub const NODE_RUNNING: usize = 3;
/// In a node: its latest time.
pub const NODE_LATEST: usize = 4;
/// In a node: 1 while a round is open.
pub const NODE_OPEN: usize = 5;
/// In a node: the open round's time.
pub const NODE_TIME: usize = 6;
/// In a node: progress, completion time and run as sent for the open round.
pub const NODE_SENT: usize = 7;
