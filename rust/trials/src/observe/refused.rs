//! Notes on what was refused, and why.

use reference::judge::judge;
use reference::written::{number_from, Bytes};
use reference::{Common, Record, Refusal, Table, TableRule, LATEST_TIME};

use super::Reached;

impl Reached {
    /// A table that was refused; `numbers` are m, timeout and count.
    pub(super) fn refused_numbers(&mut self, numbers: [u64; 3], refusal: Refusal) {
        self.note(match refusal {
            Refusal::NodeCount if numbers[0] == 0 => "refusal 1: no node",
            Refusal::NodeCount => "refusal 1: more than 15 nodes",
            Refusal::TimeoutZero => "refusal 1: timeout 0",
            Refusal::TaskCount if numbers[2] == 0 => "refusal 1: no task",
            Refusal::TaskCount => "refusal 1: more than 64 tasks",
            Refusal::Table { rule, .. } => rule_name(rule),
            Refusal::BytesEnd => "refusal 18: in the table",
            Refusal::NinthGroupGoesOn => "refusal 19: ninth group goes on, in the table",
            Refusal::LastGroupZero => "refusal 19: last group 0, in the table",
            other => unreachable!("{other:?} is no refusal of a table"),
        });
    }

    /// A record that could not be read; `start` is where it began.
    pub(super) fn refused_bytes(&mut self, start: &[u8], bytes: &Bytes<&[u8]>, refusal: Refusal) {
        let read = start.len() - bytes.source().len();
        let last = (bytes.taken() - bytes.begun()) as usize;
        let number = &start[read - last..read];
        let value = number_from(number).map_or(0, |(value, _)| value);
        match refusal {
            Refusal::TooManyReleases => {
                self.note("refusal 15: release count above 64 while reading");
                self.note_if(value == 65, "refusal 15: release count 65");
            }
            Refusal::TooManyEntries => {
                self.note("refusal 15: entry count above 15 while reading");
                self.note_if(value == 16, "refusal 15: entry count 16");
            }
            Refusal::BytesEnd => self.note("refusal 18: in a record"),
            Refusal::NinthGroupGoesOn => self.note("refusal 19: ninth group goes on, in a record"),
            Refusal::LastGroupZero => self.note("refusal 19: last group 0, in a record"),
            Refusal::MarkAboveOne => {
                self.note("refusal 20: mark above 1");
                self.note_if(number.len() > 1, "refusal 20: mark of several bytes");
            }
            other => unreachable!("{other:?} is no refusal of reading"),
        }
    }

    /// A record that was read and then refused.
    pub(crate) fn refused_round(
        &mut self,
        table: &Table,
        common: &Common,
        record: &Record,
        refusal: Refusal,
    ) {
        match refusal {
            Refusal::TimeTooLate => {
                self.note("refusal 3: r above 2^48 - 1");
                self.note_if(record.r == LATEST_TIME + 1, "refusal 3: r is 2^48");
            }
            Refusal::RoundTooSoon => {
                self.note("refusal 14: r too soon");
                let soonest = common.last_round().map(|last| last + table.timeout());
                self.note_if(Some(record.r + 1) == soonest, "refusal 14: by one");
            }
            Refusal::ReleaseTooSoon => self.refused_16(common, record),
            Refusal::OrderFull => self.refused_17(table, common, record),
            other => self.refused_15(table, record, other),
        }
    }

    fn refused_15(&mut self, table: &Table, record: &Record, refusal: Refusal) {
        let tasks = table.tasks().len() as u64;
        self.note(match refusal {
            Refusal::EntryCountNotNodes if record.entries.len() < table.nodes() => {
                "refusal 15: entry count below m"
            }
            Refusal::EntryCountNotNodes => "refusal 15: entry count above m",
            Refusal::UnknownTask => "refusal 15: unknown task",
            Refusal::FirstDelayNotZero => "refusal 15: first delay not 0",
            Refusal::DelayNotBelowTimeout => "refusal 15: delay not below timeout",
            Refusal::DelaysFall => "refusal 15: delays fall",
            other => unreachable!("{other:?} is no refusal of a round"),
        });
        let known = || record.releases.iter().filter(|release| release.task < tasks);
        let at_count = record.releases.iter().all(|release| release.task <= tasks);
        self.note_if(
            refusal == Refusal::UnknownTask && at_count,
            "refusal 15: the task number is the task count",
        );
        self.note_if(
            refusal == Refusal::DelayNotBelowTimeout
                && known().all(|release| release.delay <= table.timeout()),
            "refusal 15: delay at timeout",
        );
    }

    fn refused_16(&mut self, common: &Common, record: &Record) {
        let early = record.releases.iter().find_map(|release| {
            let (time, earliest) = (record.r + release.delay, common.earliest(release.task as usize));
            (time < earliest).then(|| earliest - time)
        });
        match early {
            None => self.note("refusal 16: twice in one list"),
            Some(by) => {
                self.note("refusal 16: too soon after an earlier round");
                self.note_if(by == 1, "refusal 16: by one");
            }
        }
    }

    fn refused_17(&mut self, table: &Table, common: &Common, record: &Record) {
        let judged = judge(table, common, record);
        let kept = common.length() + record.releases.len() as u64 - judged.base;
        self.note("refusal 17: order full");
        self.note_if(kept == 257, "refusal 17: by one");
        self.note_if(judged.base > common.base(), "refusal 17: though the base moves");
    }
}

fn rule_name(rule: TableRule) -> &'static str {
    match rule {
        TableRule::ValueTooLarge => "refusal 2: value above 2^32 - 1",
        TableRule::ExecutionZero => "refusal 2: C is 0",
        TableRule::ExecutionAboveDeadline => "refusal 2: C > D",
        TableRule::DeadlineAboveDistance => "refusal 2: D > T",
        TableRule::SlackTooLarge => "refusal 2: S + C > D",
        TableRule::SlackTooSmall => "refusal 2: S below a lower task's C",
        TableRule::TimeoutTooLong => "refusal 2: timeout above C",
    }
}
