//! The session program of "A worked canal": bytes in, printed lines out. It
//! keeps the table, one common record and one round record, so its memory does
//! not grow with the input.

use std::io::{self, BufRead, BufReader, Read, Write};

use crate::close;
use crate::common::Common;
use crate::judge::Reply;
use crate::refusal::Refusal;
use crate::table::{Table, Task};
use crate::written::{read_number, read_record, Bytes, Fault};

/// Why a session could not be carried to its last line.
#[derive(Debug)]
pub enum Broken {
    Input(io::Error),
    Output(io::Error),
}

/// What ends a session before its input does: a refusal, which is printed, or
/// an input or output that failed, which is not.
enum Stop {
    Refused(Refusal),
    Broken(Broken),
}

impl From<Refusal> for Stop {
    fn from(refusal: Refusal) -> Stop {
        Stop::Refused(refusal)
    }
}

impl From<Broken> for Stop {
    fn from(broken: Broken) -> Stop {
        Stop::Broken(broken)
    }
}

impl From<Fault> for Stop {
    fn from(fault: Fault) -> Stop {
        match fault {
            Fault::Refused(refusal) => Stop::Refused(refusal),
            Fault::Source(error) => Stop::Broken(Broken::Input(error)),
        }
    }
}

/// Runs a whole session. Every refusal is a printed line; what is given back as
/// an error is only that the input could not be read or the output not written.
pub fn run<R: Read, W: Write>(input: R, output: &mut W) -> Result<(), Broken> {
    let mut bytes = Bytes::new(BufReader::new(input));
    let table = read_table(&mut bytes).map_err(Stop::from);
    if let Some(table) = unless_refused(output, table)? {
        let mut common = Common::fresh();
        let ended = close_rounds(&mut bytes, output, &table, &mut common);
        unless_refused(output, ended)?;
        say_order(output, &common).map_err(Broken::Output)?;
    }
    output.flush().map_err(Broken::Output)
}

/// A whole session in memory.
pub fn run_bytes(input: &[u8]) -> Vec<u8> {
    let mut output = Vec::new();
    run(input, &mut output).expect("memory can be read and written");
    output
}

/// "m, timeout, task count, the four numbers per task"; "1 is decided as soon
/// as the first three numbers are read", 2 when all are.
pub fn read_table<S: BufRead>(bytes: &mut Bytes<S>) -> Result<Table, Fault> {
    let nodes = read_number(bytes)?;
    let timeout = read_number(bytes)?;
    let count = read_number(bytes)?;
    Table::check_counts(nodes, timeout, count)?;
    let mut tasks = Vec::new();
    for _ in 0..count {
        tasks.push(Task {
            execution: read_number(bytes)?,
            distance: read_number(bytes)?,
            deadline: read_number(bytes)?,
            slack: read_number(bytes)?,
        });
    }
    Ok(Table::check(nodes, timeout, &tasks)?)
}

/// "records back to back": each is read whole and then judged. "Input that
/// ends between two records ends the session."
fn close_rounds<R: Read, W: Write>(
    bytes: &mut Bytes<BufReader<R>>,
    output: &mut W,
    table: &Table,
    common: &mut Common,
) -> Result<(), Stop> {
    while !bytes.at_end().map_err(Broken::Input)? {
        let record = read_record(bytes, Common::TASKS, Table::NODES)?;
        let reply = close::close(table, common, &record)?;
        say_round(output, record.r, table, common, &reply).map_err(Broken::Output)?;
        // Whoever waits for this round's line has it before we wait for more.
        if bytes.source().buffer().is_empty() {
            output.flush().map_err(Broken::Output)?;
        }
    }
    Ok(())
}

/// "A refusal prints `refused N` in place of the round line".
fn unless_refused<T, W: Write>(output: &mut W, ended: Result<T, Stop>) -> Result<Option<T>, Broken> {
    match ended {
        Ok(value) => Ok(Some(value)),
        Err(Stop::Broken(broken)) => Err(broken),
        Err(Stop::Refused(refusal)) => {
            writeln!(output, "refused {}", refusal.number()).map_err(Broken::Output)?;
            Ok(None)
        }
    }
}

/// "Fields: r, O, B, L, W after the round, the m classes".
fn say_round<W: Write>(
    output: &mut W,
    r: u64,
    table: &Table,
    common: &Common,
    reply: &Reply,
) -> io::Result<()> {
    write!(
        output,
        "round {r} ipo {} base {} length {} toc {} nodes ",
        common.offset(),
        common.base(),
        common.length(),
        common.next_start()
    )?;
    for class in &reply.classes[..table.nodes()] {
        write!(output, "{class}")?;
    }
    writeln!(output)
}

/// "position:task of each job kept, blank between, or `order` alone".
fn say_order<W: Write>(output: &mut W, common: &Common) -> io::Result<()> {
    write!(output, "order")?;
    for (position, task) in (common.base() + 1..).zip(common.jobs()) {
        write!(output, " {position}:{task}")?;
    }
    writeln!(output)
}
