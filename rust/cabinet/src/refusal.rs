//! Refusals: document 01's 1 to 22, and the library's own 100 to 104.

use std::error::Error;
use std::fmt;

use crate::ffi::Reply;

/// Why a call was refused. What was lent is then as it stood.
#[derive(Clone, Copy, Debug, PartialEq, Eq)]
pub struct Refusal {
    number: u64,
    task: Option<u64>,
}

impl Refusal {
    /// The number, as document 01 and include/cabinet.h have it.
    pub fn number(self) -> u64 {
        self.number
    }

    /// The task that broke a table rule (2) or breaks the bound (9). A table
    /// read from bytes is refused 2 without it.
    pub fn task(self) -> Option<u64> {
        self.task
    }

    fn text(self) -> &'static str {
        match self.number {
            1 => "node or task count out of range, timeout 0, or no such node number",
            2 => "a table rule is broken",
            3 => "the time is above 2^48 - 1",
            4 => "the time is before the node's latest",
            5 => "the node is left behind",
            6 => "a job runs",
            7 => "there is no further job",
            8 => "a round is open, and the job is beyond both offset and lock",
            9 => "the bound is broken",
            10 => "nothing runs",
            11 => "a round is open",
            12 => "no round is open, or another one",
            13 => "the node's own entry is absent or not as sent",
            14 => "the round comes before last round + timeout",
            15 => "a count, a task or a delay of the record does not fit the table",
            16 => "a release comes before its task's earliest",
            17 => "more than 256 jobs would be kept",
            18 => "the bytes end early",
            19 => "a number is too long or not in its shortest form",
            20 => "a presence mark is above 1",
            21 => "the lent buffer or list is too short",
            22 => "a value of 2^63 or more cannot be written",
            100 => "a lent array has a wrong length",
            101 => "the table does not pass the check",
            102 => "the state is none for this table",
            103 => "an entry's first word is above 1",
            104 => "no such position is kept",
            _ => "a number that this crate does not know",
        }
    }
}

impl fmt::Display for Refusal {
    fn fmt(&self, out: &mut fmt::Formatter) -> fmt::Result {
        write!(out, "refused {}: {}", self.number, self.text())?;
        match self.task {
            Some(task) => write!(out, " (task {task})"),
            None => Ok(()),
        }
    }
}

impl Error for Refusal {}

/// Whether a call was accepted, for calls whose refusals name no task.
pub(crate) fn accepted(number: u64) -> Result<(), Refusal> {
    match number {
        0 => Ok(()),
        number => Err(Refusal { number, task: None }),
    }
}

/// The value of an accepted call, for calls whose 2 and 9 name the task.
pub(crate) fn value_or_task(reply: Reply) -> Result<u64, Refusal> {
    match reply.refusal {
        0 => Ok(reply.value),
        number @ (2 | 9) => Err(Refusal { number, task: Some(reply.value) }),
        number => Err(Refusal { number, task: None }),
    }
}

#[cfg(test)]
mod tests {
    use super::{accepted, value_or_task};
    use crate::ffi::Reply;

    #[test]
    fn every_number_has_a_text_of_one_line() {
        let unknown = accepted(23).unwrap_err().text();
        let mut texts: Vec<&str> =
            (1..=22).chain(100..=104).map(|number| accepted(number).unwrap_err().text()).collect();
        assert!(texts.iter().all(|text| *text != unknown && !text.contains('\n')));
        texts.sort_unstable();
        texts.dedup();
        assert_eq!(texts.len(), 27, "no two have the same");
    }

    #[test]
    fn only_2_and_9_name_a_task() {
        for number in (1..=22).chain(100..=104) {
            let refusal = value_or_task(Reply { refusal: number, value: 7 }).unwrap_err();
            assert_eq!(refusal.task(), [2, 9].contains(&number).then_some(7));
        }
        assert_eq!(value_or_task(Reply { refusal: 0, value: 7 }), Ok(7));
        assert_eq!(accepted(2).unwrap_err().to_string(), "refused 2: a table rule is broken");
    }
}
