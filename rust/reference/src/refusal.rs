//! The refusals of document 01. Where one number has several reasons each has
//! a case of its own, so that a trial can count which of them it has met; what
//! a caller is told is `number` and `task`, no more.

/// The table rules that refusal 2 stands for.
#[derive(Clone, Copy, Debug, PartialEq, Eq, PartialOrd, Ord)]
pub enum TableRule {
    /// C, T, D or S above 4,294,967,295.
    ValueTooLarge,
    /// 1 <= C.
    ExecutionZero,
    /// C <= D.
    ExecutionAboveDeadline,
    /// D <= T.
    DeadlineAboveDistance,
    /// S + C <= D.
    SlackTooLarge,
    /// S at least the largest C of any lower-priority task.
    SlackTooSmall,
    /// timeout <= smallest C, at each task with C < timeout.
    TimeoutTooLong,
}

#[derive(Clone, Copy, Debug, PartialEq, Eq, PartialOrd, Ord)]
pub enum Refusal {
    /// 1
    NodeCount,
    /// 1
    TaskCount,
    /// 1
    TimeoutZero,
    /// 1, where a node is made.
    NodeNumber,
    /// 2, with the first task at which a rule is broken.
    Table { task: usize, rule: TableRule },
    /// 3
    TimeTooLate,
    /// 4
    TimeBeforeLatest,
    /// 5
    LeftBehind,
    /// 6
    JobRuns,
    /// 7
    ProgressIsLength,
    /// 8
    BeyondOffsetAndLock,
    /// 9, with the lowest-numbered task that breaks the bound.
    BoundBroken { task: usize },
    /// 10
    NothingRuns,
    /// 11
    RoundIsOpen,
    /// 12
    NoRoundOpen,
    /// 12
    AnotherRound,
    /// 13
    OwnEntryAbsent,
    /// 13
    OwnEntryChanged,
    /// 14
    RoundTooSoon,
    /// 15
    TooManyReleases,
    /// 15, while a record is read or written: more than 15 entries.
    TooManyEntries,
    /// 15
    EntryCountNotNodes,
    /// 15
    UnknownTask,
    /// 15
    FirstDelayNotZero,
    /// 15
    DelayNotBelowTimeout,
    /// 15
    DelaysFall,
    /// 16
    ReleaseTooSoon,
    /// 17
    OrderFull,
    /// 18
    BytesEnd,
    /// 19
    NinthGroupGoesOn,
    /// 19
    LastGroupZero,
    /// 20
    MarkAboveOne,
    /// 21
    BufferTooShort,
    /// 22
    ValueTooLarge,
}

impl Refusal {
    /// The number in document 01's table of refusals.
    pub fn number(self) -> u8 {
        use Refusal::*;
        match self {
            NodeCount | TaskCount | TimeoutZero | NodeNumber => 1,
            Table { .. } => 2,
            TimeTooLate => 3,
            TimeBeforeLatest => 4,
            LeftBehind => 5,
            JobRuns => 6,
            ProgressIsLength => 7,
            BeyondOffsetAndLock => 8,
            BoundBroken { .. } => 9,
            NothingRuns => 10,
            RoundIsOpen => 11,
            NoRoundOpen | AnotherRound => 12,
            OwnEntryAbsent | OwnEntryChanged => 13,
            RoundTooSoon => 14,
            TooManyReleases | TooManyEntries | EntryCountNotNodes | UnknownTask => 15,
            FirstDelayNotZero | DelayNotBelowTimeout | DelaysFall => 15,
            ReleaseTooSoon => 16,
            OrderFull => 17,
            BytesEnd => 18,
            NinthGroupGoesOn | LastGroupZero => 19,
            MarkAboveOne => 20,
            BufferTooShort => 21,
            ValueTooLarge => 22,
        }
    }

    /// The task that refusals 2 and 9 name.
    pub fn task(self) -> Option<usize> {
        match self {
            Refusal::Table { task, .. } | Refusal::BoundBroken { task } => Some(task),
            _ => None,
        }
    }
}
