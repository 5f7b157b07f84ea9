//! The ready scripts under examples/, and short ways to run a script.

#![allow(dead_code)]

use std::fs;
use std::path::{Path, PathBuf};

use drill::{run, Close, Event, Reply, State};

pub const TABLE: &str = "table 3 2 ; gate 10 100 100 40 ; gauge 20 200 200 50 ; solve 30 400 400 40";

/// The worked canal after round 0, in which all three nodes took part.
pub const ROUND_0: &str = "0 report 0\n1 report 0\n2 report 0\nclose 0 ; gauge 0, solve 1 ; = = =";

pub fn examples() -> PathBuf {
    Path::new(env!("CARGO_MANIFEST_DIR")).join("../../examples")
}

/// Every script there, by name.
pub fn all() -> Vec<PathBuf> {
    let entries = fs::read_dir(examples()).expect("the folder of examples");
    let paths = entries.map(|entry| entry.expect("an example").path());
    let mut scripts: Vec<PathBuf> = paths.filter(|path| path.extension() == Some("drill".as_ref())).collect();
    scripts.sort();
    scripts
}

pub fn read(path: &Path) -> String {
    fs::read_to_string(path).unwrap_or_else(|error| panic!("{}: {error}", path.display()))
}

/// The events of the worked canal's first round and of these lines after it.
pub fn canal(lines: &str) -> Vec<Event> {
    let script = format!("{TABLE}\n{ROUND_0}\n{lines}");
    let events = run(&script).unwrap_or_else(|trouble| panic!("{trouble}\n{script}"));
    events[5..].to_vec()
}

pub fn last(events: &[Event]) -> &Event {
    events.last().expect("an event")
}

/// The lines of the last reply.
pub fn said(lines: &str) -> Vec<String> {
    last(&canal(lines)).said.clone()
}

pub fn after(event: &Event) -> &State {
    event.after.as_ref().expect("a table")
}

/// The numbers of every refusal in a reply.
pub fn refusals(reply: &Reply) -> Vec<u64> {
    match reply {
        Reply::Table(Err(refusal)) | Reply::Finish(Err(refusal)) | Reply::Report(Err(refusal)) => {
            vec![refusal.number()]
        }
        Reply::Start(Err((refusal, _))) => vec![refusal.number()],
        Reply::Close(Close { station, nodes, .. }) => {
            let answers = station.iter().chain(nodes.iter().map(|(_, answer)| answer));
            answers.filter_map(|answer| answer.err()).map(|refusal| refusal.number()).collect()
        }
        _ => Vec::new(),
    }
}

/// Whether a reply is refused by all that it was asked of.
pub fn refused_by_all(reply: &Reply) -> bool {
    let asked = match reply {
        Reply::Close(Close { station, nodes, .. }) => station.iter().len() + nodes.len(),
        Reply::Question => return false,
        _ => 1,
    };
    refusals(reply).len() == asked
}
