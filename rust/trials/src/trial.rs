//! The comparison itself: session after session through the reference and
//! through the program under trial, until they differ or enough has been run.

use std::io;
use std::path::Path;
use std::time::{Duration, Instant};

use reference::session::run_bytes;

use crate::child::{run, Answer};
use crate::observe::Reached;
use crate::sessions::session;
use crate::shrink::shrink;

/// Where a trial ends, unless a difference ends it.
#[derive(Clone, Copy, Debug)]
pub struct Limits {
    pub sessions: u64,
    pub time: Option<Duration>,
}

/// A session on which the program under trial is wrong.
pub struct Difference {
    /// The number of the session under the seed, from 0.
    pub number: u64,
    pub session: Vec<u8>,
}

pub struct Outcome {
    pub sessions: u64,
    pub reached: Reached,
    pub difference: Option<Difference>,
}

/// Runs sessions 0, 1, 2 and on of a seed through the program.
pub fn trial(program: &Path, seed: u64, limits: Limits) -> io::Result<Outcome> {
    let begun = Instant::now();
    let mut reached = Reached::default();
    let in_time = || limits.time.is_none_or(|time| begun.elapsed() < time);
    let mut number = 0;
    while number < limits.sessions && in_time() {
        let session = session(seed, number);
        reached.observe(&session);
        if !answer(program, &session, number)?.agrees(&run_bytes(&session)) {
            let difference = Some(Difference { number, session });
            return Ok(Outcome { sessions: number + 1, reached, difference });
        }
        number += 1;
    }
    Ok(Outcome { sessions: number, reached, difference: None })
}

/// A difference on a smaller session: what that should print, and what the
/// program did with it.
pub struct Smaller {
    pub session: Vec<u8>,
    pub expected: Vec<u8>,
    pub answer: Answer,
}

impl Difference {
    pub fn smaller(&self, program: &Path) -> io::Result<Smaller> {
        let agrees = |session: &[u8]| -> io::Result<bool> {
            Ok(answer(program, session, self.number)?.agrees(&run_bytes(session)))
        };
        let session = shrink(&self.session, |session| !agrees(session).unwrap_or(true));
        let expected = run_bytes(&session);
        let answer = answer(program, &session, self.number)?;
        Ok(Smaller { session, expected, answer })
    }
}

/// Every eighth session comes in small pieces, the others at once.
fn answer(program: &Path, session: &[u8], number: u64) -> io::Result<Answer> {
    let piece = if number.is_multiple_of(8) { 1 + (number as usize / 8) % 23 } else { session.len().max(1) };
    run(program, session, piece, most(session))
}

/// More than the longest answer to this session: a line is shorter than 200
/// bytes and costs at least three, the order's at most 256 jobs.
fn most(session: &[u8]) -> u64 {
    (session.len() as u64 + 256) * 100
}
