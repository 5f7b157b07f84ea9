//! A script taken line by line, and what happened as data.

use std::error::Error;
use std::fmt;

use crate::command::{read, Command};
use crate::expect::holds;
use crate::say::say;
use crate::state::State;
use crate::step::{step, Reply};

/// A command, what was answered, and the cabinet after it.
#[derive(Clone, Debug, PartialEq, Eq)]
pub struct Event {
    /// The line of the script, from 1.
    pub line: usize,
    /// The line as it was typed.
    pub typed: String,
    /// What it asks.
    pub command: Command,
    /// What was answered.
    pub reply: Reply,
    /// The answer in words; nothing for an `expect` that is met.
    pub said: Vec<String>,
    /// The cabinet after it; none where there is no table yet.
    pub after: Option<State>,
}

/// Why a line was not carried out. It has changed nothing.
#[derive(Clone, Debug, PartialEq, Eq)]
pub enum Trouble {
    /// The line is no command that can be carried out.
    Bad {
        /// The line of the script, from 1.
        line: usize,
        /// In characters, from 1.
        column: usize,
        /// In words.
        why: String,
    },
    /// The last reply does not hold what the script expects.
    Unmet {
        /// The line of the `expect`.
        line: usize,
        /// What it wanted.
        wanted: String,
        /// The last reply; none where the command before it was bad, or there
        /// was none.
        reply: Option<Vec<String>>,
    },
}

impl fmt::Display for Trouble {
    fn fmt(&self, out: &mut fmt::Formatter) -> fmt::Result {
        match self {
            Trouble::Bad { line, column, why } => write!(out, "line {line}, column {column}: {why}"),
            Trouble::Unmet { line, wanted, reply: None } => {
                write!(out, "line {line}: expected '{wanted}', and there is no reply before it")
            }
            Trouble::Unmet { line, wanted, reply: Some(lines) } => {
                write!(out, "line {line}: expected '{wanted}', but the reply was '{}'", lines.join(" / "))
            }
        }
    }
}

impl Error for Trouble {}

/// A cabinet that is being driven.
#[derive(Clone, Debug, Default)]
pub struct Drill {
    line: usize,
    state: Option<State>,
    reply: Option<Vec<String>>,
}

impl Drill {
    /// Before the first line.
    pub fn new() -> Drill {
        Drill::default()
    }

    /// The cabinet as it stands; none where there is no table yet.
    pub fn state(&self) -> Option<&State> {
        self.state.as_ref()
    }

    /// Carries out the next line. A blank line or a comment gives none.
    pub fn line(&mut self, typed: &str) -> Result<Option<Event>, Trouble> {
        self.line += 1;
        let line = self.line;
        // Some editors put this mark before the first letter of a file.
        let typed = typed.strip_prefix('\u{feff}').filter(|_| line == 1).unwrap_or(typed);
        let read = read(typed, self.state.as_ref()).map_err(|fault| {
            self.reply = None;
            Trouble::Bad { line, column: fault.column, why: fault.why }
        });
        let Some(command) = read? else { return Ok(None) };
        if let Command::Expect(wanted) = &command {
            self.expect(wanted)?;
        }
        let reply = step(&mut self.state, &command);
        let said = say(&command, &reply, self.state.as_ref());
        if !matches!(command, Command::Expect(_)) {
            self.reply = Some(said.clone());
        }
        Ok(Some(Event { line, typed: typed.to_string(), command, reply, said, after: self.state.clone() }))
    }

    /// A line that is no text, by the column at which it stops being one.
    pub fn no_text(&mut self, column: usize) -> Trouble {
        self.line += 1;
        self.reply = None;
        Trouble::Bad { line: self.line, column, why: "this is no text in UTF-8".to_string() }
    }

    fn expect(&self, wanted: &str) -> Result<(), Trouble> {
        match &self.reply {
            Some(lines) if holds(lines, wanted) => Ok(()),
            reply => {
                Err(Trouble::Unmet { line: self.line, wanted: wanted.to_string(), reply: reply.clone() })
            }
        }
    }
}

/// Runs a whole script. The first bad line or unmet expectation ends it.
pub fn run(script: &str) -> Result<Vec<Event>, Trouble> {
    let mut drill = Drill::new();
    let mut events = Vec::new();
    for line in script.lines() {
        events.extend(drill.line(line)?);
    }
    Ok(events)
}
