//! A session's bytes as readable lines: `m timeout count`, a line a task, then
//! a line a record, each number in decimal. Packing the lines gives back the
//! very bytes. One record is held at a time.
//!
//! Refused is what a session refuses while it reads: 1 after the first three
//! numbers, 15 at a count, and the byte faults 18, 19 and 20. Whether a table
//! or a round is a good one is for the session to say.

use std::fmt;
use std::io::{self, BufRead, Write};

use reference::written::{read_number, read_record, record_numbers, Bytes, Fault};
use reference::{Common, Refusal, Table};

#[derive(Debug)]
pub enum Trouble {
    /// The refusal, and the index of the byte at which it stands: the missing
    /// byte for 18, the last byte taken for 19, else the number's first byte.
    Refused {
        refusal: Refusal,
        offset: u64,
    },
    Input(io::Error),
    Output(io::Error),
}

impl fmt::Display for Trouble {
    fn fmt(&self, out: &mut fmt::Formatter) -> fmt::Result {
        match self {
            Trouble::Refused { refusal, offset } => {
                write!(out, "byte {offset}: refused {} ({})", refusal.number(), why(*refusal))
            }
            Trouble::Input(error) => write!(out, "input: {error}"),
            Trouble::Output(error) => write!(out, "output: {error}"),
        }
    }
}

fn why(refusal: Refusal) -> &'static str {
    match refusal {
        Refusal::NodeCount => "the number of nodes is not 1 to 15",
        Refusal::TaskCount => "the number of tasks is not 1 to 64",
        Refusal::TimeoutZero => "the timeout is 0",
        Refusal::TooManyReleases => "more than 64 releases",
        Refusal::TooManyEntries => "more than 15 entries",
        Refusal::BytesEnd => "the bytes end early",
        Refusal::NinthGroupGoesOn => "a ninth group with its top bit set",
        Refusal::LastGroupZero => "the last of several groups is 0",
        Refusal::MarkAboveOne => "a presence mark above 1",
        _ => "not a refusal of reading",
    }
}

/// Writes the lines of a whole session. The lines before a refusal are written.
pub fn unpack<S: BufRead, W: Write>(session: S, output: &mut W) -> Result<(), Trouble> {
    let mut bytes = Bytes::new(session);
    unpack_table(&mut bytes, output)?;
    while !bytes.at_end().map_err(Trouble::Input)? {
        let record = read_record(&mut bytes, Common::TASKS, Table::NODES);
        let record = record.map_err(|fault| trouble(&bytes, fault))?;
        write_line(&record_numbers(&record), output)?;
    }
    output.flush().map_err(Trouble::Output)
}

fn unpack_table<S: BufRead, W: Write>(bytes: &mut Bytes<S>, output: &mut W) -> Result<(), Trouble> {
    let counts: [u64; 3] = unpack_line(bytes, output)?;
    let [nodes, timeout, tasks] = counts;
    Table::check_counts(nodes, timeout, tasks).map_err(|refusal| trouble(bytes, Fault::Refused(refusal)))?;
    for _ in 0..tasks {
        let _task: [u64; 4] = unpack_line(bytes, output)?;
    }
    Ok(())
}

/// Reads `N` numbers and writes them as a line.
fn unpack_line<const N: usize, S: BufRead, W: Write>(
    bytes: &mut Bytes<S>,
    output: &mut W,
) -> Result<[u64; N], Trouble> {
    let mut numbers = [0; N];
    for number in &mut numbers {
        *number = read_number(bytes).map_err(|fault| trouble(bytes, fault))?;
    }
    write_line(&numbers, output)?;
    Ok(numbers)
}

fn write_line<W: Write>(numbers: &[u64], output: &mut W) -> Result<(), Trouble> {
    let words: Vec<String> = numbers.iter().map(u64::to_string).collect();
    writeln!(output, "{}", words.join(" ")).map_err(Trouble::Output)
}

fn trouble<S: BufRead>(bytes: &Bytes<S>, fault: Fault) -> Trouble {
    match fault {
        Fault::Source(error) => Trouble::Input(error),
        Fault::Refused(refusal) => {
            let offset = match refusal.number() {
                18 => bytes.taken(),
                19 => bytes.taken() - 1,
                _ => bytes.begun(),
            };
            Trouble::Refused { refusal, offset }
        }
    }
}
