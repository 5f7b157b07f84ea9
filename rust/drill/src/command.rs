//! The commands, and how a line is read as one. A line is read against the
//! state before it, so that a command names only what is there.

use cabinet::{Entry, Record, Release, Report, Task};
use explain::explain;

use crate::state::State;
use crate::words::{without_comment, Fault, Word, Words};

/// What a line asks for.
#[derive(Clone, Debug, PartialEq, Eq)]
pub enum Command {
    /// A fresh cabinet with this table.
    Table {
        /// m.
        nodes: u64,
        /// The timeout.
        timeout: u64,
        /// Each task's numbers, with its name if it was given one.
        tasks: Vec<(Option<String>, Task)>,
    },
    /// A start.
    Start {
        /// The node.
        node: usize,
        /// Now.
        time: u64,
    },
    /// A finish.
    Finish {
        /// The node.
        node: usize,
        /// Now.
        time: u64,
    },
    /// A report.
    Report {
        /// The node.
        node: usize,
        /// r.
        time: u64,
    },
    /// A round record.
    Close {
        /// The one node that it goes to; none where it goes to the
        /// station and to all nodes with an open round.
        node: Option<usize>,
        /// r.
        time: u64,
        /// As typed.
        releases: Vec<Release>,
        /// As typed.
        entries: Vec<Typed>,
    },
    /// The station and every node.
    Show,
    /// One node.
    Node(usize),
    /// The station's order.
    Order,
    /// The station's projections.
    Projection,
    /// What every node has started.
    Started,
    /// What a refusal means.
    Explain(u64),
    /// What the last reply must hold.
    Expect(String),
    /// The list of commands.
    Help,
}

/// An entry of a typed record.
#[derive(Clone, Copy, Debug, PartialEq, Eq)]
pub enum Typed {
    /// `=`: the report that the node sent.
    Sent(Report),
    /// `-`.
    Missing,
    /// Three numbers.
    ByHand(Report),
}

impl Typed {
    fn entry(self) -> Entry {
        match self {
            Typed::Sent(report) | Typed::ByHand(report) => Some(report),
            Typed::Missing => None,
        }
    }
}

/// The round record of a `Close`.
pub(crate) fn record(time: u64, releases: &[Release], entries: &[Typed]) -> Record {
    let entries = entries.iter().map(|typed| typed.entry()).collect();
    Record { time, releases: releases.to_vec(), entries }
}

/// Reads a line; none where it is blank or a comment.
pub(crate) fn read(line: &str, state: Option<&State>) -> Result<Option<Command>, Fault> {
    let mut words = Words::of(line);
    let Some(first) = words.peek() else { return Ok(None) };
    if first.text == "expect" {
        return expect(line, first).map(Some);
    }
    let first = words.word("a command")?;
    let command = if first.is_number() {
        of_node(first, &mut words, state)?
    } else {
        of_cabinet(first, &mut words, state)?
    };
    words.end()?;
    Ok(Some(command))
}

/// A command that begins with a node's number.
fn of_node(first: Word, words: &mut Words, state: Option<&State>) -> Result<Command, Fault> {
    let state = with_table(first, state)?;
    let node = number_of(first, state)?;
    let verb = words.word("start, finish, report or close")?;
    match verb.text {
        "start" => Ok(Command::Start { node, time: words.number("the time")? }),
        "finish" => Ok(Command::Finish { node, time: words.number("the time")? }),
        "report" => Ok(Command::Report { node, time: words.number("the round's time")? }),
        "close" => close(Some(node), words, state),
        other => Err(verb.fault(format!("a node can start, finish, report or close; it cannot '{other}'"))),
    }
}

fn of_cabinet(first: Word, words: &mut Words, state: Option<&State>) -> Result<Command, Fault> {
    match first.text {
        "table" => table(words),
        "help" => Ok(Command::Help),
        "explain" => refusal(words),
        "close" => close(None, words, with_table(first, state)?),
        "node" => {
            let state = with_table(first, state)?;
            Ok(Command::Node(number_of(words.word("the node's number")?, state)?))
        }
        "show" => with_table(first, state).map(|_| Command::Show),
        "order" => with_table(first, state).map(|_| Command::Order),
        "projection" => with_table(first, state).map(|_| Command::Projection),
        "started" => with_table(first, state).map(|_| Command::Started),
        other => Err(first.fault(format!("'{other}' is no command; `help` lists them"))),
    }
}

fn with_table<'a>(first: Word, state: Option<&'a State>) -> Result<&'a State, Fault> {
    state.ok_or_else(|| first.fault("there is no table yet; begin with `table`"))
}

/// The number of a node that the table has.
fn number_of(word: Word, state: &State) -> Result<usize, Fault> {
    let number = word.number("the node's number")?;
    let count = state.seats.len();
    let known = usize::try_from(number).ok().filter(|&number| number < count);
    known.ok_or_else(|| {
        word.fault(format!("there is no node {number}; the table's last one is {}", count - 1))
    })
}

fn refusal(words: &mut Words) -> Result<Command, Fault> {
    let word = words.word("the refusal's number")?;
    let number = word.number("the refusal's number")?;
    match explain(number) {
        Some(_) => Ok(Command::Explain(number)),
        None => Err(word.fault(format!("no refusal has the number {number}"))),
    }
}

/// The words are kept as typed: `expect` looks for them in the reply's line.
fn expect(line: &str, first: Word) -> Result<Command, Fault> {
    let wanted = without_comment(line).trim_start().trim_start_matches("expect").trim();
    if crate::expect::words(wanted).next().is_none() {
        return Err(first.fault("say what the last reply must hold, such as: expect refused 9"));
    }
    Ok(Command::Expect(wanted.to_string()))
}

fn table(words: &mut Words) -> Result<Command, Fault> {
    let nodes = words.number("the number of nodes")?;
    let timeout = words.number("the timeout")?;
    let mut tasks: Vec<(Option<String>, Task)> = Vec::new();
    while words.peek().is_some() {
        words.semicolon("the next task")?;
        let name = name(words, &tasks)?;
        let c = words.number("C, the task's longest execution,")?;
        let t = words.number("T, the least distance between its releases,")?;
        let d = words.number("D, its deadline,")?;
        let s = words.number("S, its slack,")?;
        tasks.push((name, Task { c, t, d, s }));
    }
    Ok(Command::Table { nodes, timeout, tasks })
}

/// A task's name: a letter, then letters, digits and hyphens; not given twice.
fn name(words: &mut Words, before: &[(Option<String>, Task)]) -> Result<Option<String>, Fault> {
    let Some(word) = words.peek().filter(|word| !word.is_number() && word.text != ";") else {
        return Ok(None);
    };
    let word = words.word("a name").map(|_| word)?;
    let plain = |letter: char| letter.is_ascii_alphanumeric() || letter == '-';
    if !word.text.starts_with(|letter: char| letter.is_ascii_alphabetic()) || !word.text.chars().all(plain) {
        return Err(word.fault(format!("'{}' is neither C nor a name", word.text)));
    }
    if before.iter().any(|(other, _)| other.as_deref() == Some(word.text)) {
        return Err(word.fault(format!("two tasks are called {}", word.text)));
    }
    Ok(Some(word.text.to_string()))
}

fn close(node: Option<usize>, words: &mut Words, state: &State) -> Result<Command, Fault> {
    let time = words.number("the round's time")?;
    words.semicolon("the releases")?;
    let releases = releases(&words.part(), state)?;
    words.semicolon("the entries")?;
    let entries = entries(&words.part(), time, state)?;
    Ok(Command::Close { node, time, releases, entries })
}

fn releases(part: &[Word], state: &State) -> Result<Vec<Release>, Fault> {
    let release = |pair: &[Word]| match *pair {
        [task, delay] => {
            Ok(Release { task: task_of(task, state)?, delay: delay.number("a release's delay")? })
        }
        _ => Err(pair[0].fault(format!("the release of '{}' has no delay", pair[0].text))),
    };
    part.chunks(2).map(release).collect()
}

/// A task by name or number. Whether the table has the number is for the
/// library to say.
fn task_of(word: Word, state: &State) -> Result<u64, Fault> {
    match state.plan.named(word.text) {
        Some(task) => Ok(task),
        None if word.is_number() => word.number("a release's task"),
        None => Err(word.fault(format!("no task is called '{}'", word.text))),
    }
}

fn entries(mut part: &[Word], time: u64, state: &State) -> Result<Vec<Typed>, Fault> {
    let mut entries = Vec::new();
    while let [first, rest @ ..] = part {
        let (entry, after) = match first.text {
            "=" => (sent(*first, entries.len(), time, state)?, rest),
            "-" => (Typed::Missing, rest),
            _ => by_hand(part)?,
        };
        entries.push(entry);
        part = after;
    }
    Ok(entries)
}

fn sent(word: Word, node: usize, time: u64, state: &State) -> Result<Typed, Fault> {
    if node >= state.seats.len() {
        return Err(word.fault(format!("'=' stands at place {node}, and there is no node {node}")));
    }
    let none = || word.fault(format!("node {node} has sent no report for round {time}"));
    state.sent(node, time).map(|open| Typed::Sent(open.sent)).ok_or_else(none)
}

fn by_hand<'a, 'b>(part: &'b [Word<'a>]) -> Result<(Typed, &'b [Word<'a>]), Fault> {
    let [progress, completed, run, rest @ ..] = part else {
        return Err(part[0].fault("an entry is =, - or three numbers: progress, completion time, run"));
    };
    let report = Report {
        progress: progress.number("an entry's progress")?,
        completed: completed.number("an entry's completion time")?,
        run: run.number("an entry's run")?,
    };
    Ok((Typed::ByHand(report), rest))
}
