//! Runs a session program on bytes. A program that neither ends nor stops
//! printing is stopped, and that is an answer too.

use std::io::{self, Read, Write};
use std::path::Path;
use std::process::{Child, ChildStdin, Command, Stdio};
use std::sync::mpsc;
use std::thread;
use std::time::{Duration, Instant};

/// How long a session may take.
const PATIENCE: Duration = Duration::from_secs(20);

/// What a program did with a session.
#[derive(Clone, Debug, PartialEq, Eq)]
pub struct Answer {
    pub printed: Vec<u8>,
    /// Why it did not end as it should: a status other than 0, a signal, or no
    /// end at all.
    pub trouble: Option<String>,
}

impl Answer {
    pub fn agrees(&self, expected: &[u8]) -> bool {
        self.trouble.is_none() && self.printed == expected
    }
}

/// Runs the program on a session. `piece` is how many bytes it is handed at a
/// time: a pipe may give a reader less than it asked for. It is stopped where
/// it prints more than `most` bytes. An error is a program that does not start.
pub fn run(program: &Path, session: &[u8], piece: usize, most: u64) -> io::Result<Answer> {
    let mut child =
        Command::new(program).stdin(Stdio::piped()).stdout(Stdio::piped()).stderr(Stdio::null()).spawn()?;
    let input = child.stdin.take().expect("a piped input");
    let output = child.stdout.take().expect("a piped output");
    let (sender, receiver) = mpsc::channel();
    Ok(thread::scope(|threads| {
        threads.spawn(move || feed(input, session, piece));
        threads.spawn(move || {
            let mut printed = Vec::new();
            let _ = output.take(most).read_to_end(&mut printed);
            let _ = sender.send(printed);
        });
        match receiver.recv_timeout(PATIENCE) {
            Ok(printed) if printed.len() as u64 == most => {
                stopped(&mut child, printed, "printed without end")
            }
            Ok(printed) => ended(&mut child, printed),
            Err(_) => stopped(&mut child, Vec::new(), "did not end"),
        }
    }))
}

/// A program may end before it has read everything, so a closed pipe is no fault.
fn feed(mut input: ChildStdin, session: &[u8], piece: usize) {
    for part in session.chunks(piece) {
        if input.write_all(part).is_err() {
            return;
        }
        if piece < session.len() {
            thread::yield_now();
        }
    }
}

/// A program that has printed everything has a moment left to end.
fn ended(child: &mut Child, printed: Vec<u8>) -> Answer {
    let begun = Instant::now();
    while begun.elapsed() < PATIENCE {
        if let Some(status) = child.try_wait().expect("a child that was started can be waited for") {
            let trouble = (!status.success()).then(|| format!("ended with {status}"));
            return Answer { printed, trouble };
        }
        thread::sleep(Duration::from_micros(50));
    }
    stopped(child, printed, "did not end")
}

fn stopped(child: &mut Child, printed: Vec<u8>, trouble: &str) -> Answer {
    let _ = child.kill();
    let _ = child.wait();
    Answer { printed, trouble: Some(trouble.to_string()) }
}
