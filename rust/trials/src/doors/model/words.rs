//! States of the reference as words and back, by the header's places; and which
//! words are a state, written by hand from the header and document 01. The
//! library's own test of this is proved elsewhere and is not looked at here.

use reference::node::Round;
use reference::{Common, Node, Refusal, Release, Report, Table, Task};

use crate::doors::layout::*;

pub fn table_words(table: &Table) -> [u64; TABLE_WORDS] {
    let mut words = [0; TABLE_WORDS];
    words[TABLE_NODES] = table.nodes() as u64;
    words[TABLE_TIMEOUT] = table.timeout();
    words[TABLE_TASKS] = table.tasks().len() as u64;
    for (place, task) in table.tasks().iter().enumerate() {
        words[TABLE_C + place] = task.execution;
        words[TABLE_T + place] = task.distance;
        words[TABLE_D + place] = task.deadline;
        words[TABLE_S + place] = task.slack;
    }
    words
}

/// "Of each 64 the first ones are the tasks'; nothing is asked of the others."
pub fn table_of(words: &[u64]) -> Result<Table, Refusal> {
    let count = words[TABLE_TASKS];
    Table::check_counts(words[TABLE_NODES], words[TABLE_TIMEOUT], count)?;
    let task = |place| Task {
        execution: words[TABLE_C + place],
        distance: words[TABLE_T + place],
        deadline: words[TABLE_D + place],
        slack: words[TABLE_S + place],
    };
    let tasks: Vec<Task> = (0..count as usize).map(task).collect();
    Table::check(words[TABLE_NODES], words[TABLE_TIMEOUT], &tasks)
}

pub fn common_words(common: &Common) -> [u64; COMMON_WORDS] {
    let mut words = [0; COMMON_WORDS];
    words[COMMON_BASE] = common.base;
    words[COMMON_START] = common.next_start;
    words[COMMON_OFFSET] = common.offset;
    words[COMMON_COUNT] = common.jobs.len() as u64;
    words[COMMON_BEGUN] = u64::from(common.last_round.is_some());
    words[COMMON_LAST] = common.last_round.unwrap_or(0);
    words[COMMON_EARLIEST..COMMON_EARLIEST + TASKS].copy_from_slice(&common.earliest);
    for (place, &task) in common.jobs.iter().enumerate() {
        words[COMMON_ORDER + place] = task as u64;
    }
    words
}

pub fn node_words(node: &Node, common: &Common) -> [u64; NODE_WORDS] {
    let mut words = [0; NODE_WORDS];
    words[NODE_NUMBER] = node.number as u64;
    words[NODE_PROGRESS] = node.progress;
    words[NODE_COMPLETED] = node.completion;
    words[NODE_RUNNING] = u64::from(node.running);
    words[NODE_LATEST] = node.latest;
    if let Some(round) = node.round {
        words[NODE_OPEN] = 1;
        words[NODE_TIME] = round.r;
        words[NODE_SENT] = round.sent.progress;
        words[NODE_SENT + 1] = round.sent.completion;
        words[NODE_SENT + 2] = round.sent.run;
    }
    words[NODE_COMMON..].copy_from_slice(&common_words(common));
    words
}

/// Every time that is accepted lies below.
const TIMES: u64 = 1 << 48;
/// r + timeout, r + delay + T and so W, E and the latest time lie below.
const LATER: u64 = 1 << 49;

/// The common record that 326 words are, where they are one under this table:
/// marks are 0 or 1, times and E in their ranges, B <= O <= L, L no more than
/// E allows (each release lifts an E by at least 1), and the jobs kept are of
/// the table's tasks with zeros behind them.
pub fn common_of(table: &Table, words: &[u64]) -> Option<Common> {
    let [base, next_start, offset, count, begun, last] = *words.first_chunk()?;
    let earliest: [u64; TASKS] = *words[COMMON_EARLIEST..].first_chunk()?;
    let places = &words[COMMON_ORDER..];
    if count > PLACES as u64 || earliest.iter().any(|&earliest| earliest >= LATER) {
        return None;
    }
    let (kept, unused) = places.split_at(count as usize);
    let length = u128::from(base) + u128::from(count);
    let released: u64 = earliest.iter().sum();
    let holds = begun <= 1
        && last < if begun == 1 { TIMES } else { 1 }
        && next_start < LATER
        && base <= offset
        && u128::from(offset) <= length
        && length <= u128::from(released)
        && kept.iter().all(|&task| task < table.tasks().len() as u64)
        && unused.iter().all(|&task| task == 0);
    holds.then(|| Common {
        jobs: kept.iter().map(|&task| task as usize).collect(),
        base,
        next_start,
        offset,
        earliest,
        last_round: (begun == 1).then_some(last),
    })
}

/// The node that 336 words are, where they are one under this table: it has
/// finished, runs and has sent no job past L, its times are in their ranges, and
/// with no round open nothing stands at the round's places.
pub fn node_of(table: &Table, words: &[u64]) -> Option<(Node, Common)> {
    let common = common_of(table, &words[NODE_COMMON..])?;
    let [number, progress, completion, running, latest, open, time, sent @ ..] =
        *words.first_chunk::<NODE_COMMON>()?;
    let length = u128::from(common.length());
    let own = number < table.nodes() as u64
        && running <= 1
        && u128::from(progress) + u128::from(running) <= length
        && completion < TIMES
        && latest < LATER;
    let round = match open {
        0 => time == 0 && sent == [0; 3],
        1 => time < TIMES && u128::from(sent[0]) <= length && sent[1] < TIMES && sent[2] <= 1,
        _ => false,
    };
    let sent = Report { progress: sent[0], completion: sent[1], run: sent[2] };
    (own && round).then(|| {
        // "The lock is progress + run."
        let round = (open == 1).then(|| Round { r: time, sent, lock: sent.progress + sent.run });
        let number = number as usize;
        (Node { number, progress, completion, running: running == 1, latest, round }, common)
    })
}

pub fn release_words(releases: &[Release]) -> Vec<u64> {
    releases.iter().flat_map(|release| [release.task, release.delay]).collect()
}

pub fn entry_words(entries: &[Option<Report>]) -> Vec<u64> {
    let words = |entry: &Option<Report>| match entry {
        None => [0; ENTRY_WORDS],
        Some(report) => [1, report.progress, report.completion, report.run],
    };
    entries.iter().flat_map(words).collect()
}

pub fn releases_of(words: &[u64]) -> Vec<Release> {
    words.chunks_exact(RELEASE_WORDS).map(|release| Release { task: release[0], delay: release[1] }).collect()
}

/// Entries whose marks are 0 or 1; what stands behind a 0 means nothing.
pub fn entries_of(words: &[u64]) -> Vec<Option<Report>> {
    let entry = |words: &[u64]| {
        (words[0] == 1).then(|| Report { progress: words[1], completion: words[2], run: words[3] })
    };
    words.chunks_exact(ENTRY_WORDS).map(entry).collect()
}
