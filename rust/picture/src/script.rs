//! A drill's script as a story: what was typed and answered, scene by scene.

use std::collections::HashMap;
use std::mem::take;

use cabinet::{Closing, Common, Refusal};
use drill::{Close, Command, Drill, Event, Job, Reply, Short, State, Trouble, Typed};

use crate::fold::{Folding, Keep};
use crate::session::Watch;
use crate::story::{
    cells, report_words, Act, Cell, Closed, Lane, Place, Plan, Round, Scene, Source, Story, What,
};
use crate::svg::Px;
use crate::text::{wrapped, PLAIN};

/// Runs a script and tells what happened; the first bad line or unmet
/// expectation leaves nothing to draw.
pub fn story(script: &str, keep: Keep, watch: &mut Watch) -> Result<Story, Trouble> {
    let mut drill = Drill::new();
    let mut scenes = Vec::new();
    let mut playing: Option<Playing> = None;
    let mut notes = Vec::new();
    let mut bytes = 0;
    for (line, typed) in (1..).zip(script.lines()) {
        bytes += typed.len() as u64 + 1;
        watch(line, bytes);
        let Some(event) = drill.line(typed)? else { continue };
        match (&event.command, &event.reply) {
            (Command::Table { .. }, Reply::Table(Ok(()))) => {
                scenes.extend(playing.take().map(|playing| playing.scene(keep)));
                let state = event.after.as_ref().expect("an accepted table makes a cabinet");
                playing = Some(Playing::begun(state, caption(script, event.line), take(&mut notes)));
            }
            (Command::Table { .. }, _) => {
                let note = format!("line {}: {}", event.line, event.said.join(" "));
                playing.as_mut().map_or(&mut notes, |playing| &mut playing.notes).push(note);
            }
            _ => playing.iter_mut().for_each(|playing| playing.take(&event)),
        }
    }
    scenes.extend(playing.map(|playing| playing.scene(keep)));
    Ok(Story { source: Source::Drill, scenes })
}

/// What the script says right before a line: its comments there, without the
/// lists in them, which are indented.
fn caption(script: &str, line: usize) -> String {
    let before: Vec<&str> = script.lines().take(line - 1).collect();
    let blank = |line: &&&str| line.trim().is_empty();
    let comments = before.iter().rev().skip_while(blank).map_while(|line| line.strip_prefix('#'));
    let words: Vec<&str> = comments.filter(|words| !words.starts_with("  ")).map(str::trim).collect();
    words.into_iter().rev().collect::<Vec<_>>().join(" ")
}

/// A scene that is being played.
struct Playing {
    caption: String,
    plan: Plan,
    lanes: Vec<Lane>,
    rounds: Vec<Round>,
    /// The cabinet after the last event.
    state: State,
    notes: Vec<String>,
    /// The latest time of all.
    newest: u64,
    /// How many rounds stand at a time.
    rounds_at: HashMap<u64, usize>,
    /// By node, time and rank.
    steps: HashMap<(usize, u64, usize), Step>,
}

impl Playing {
    fn begun(state: &State, caption: String, notes: Vec<String>) -> Playing {
        let plan = Plan { table: state.plan.table.clone(), names: state.plan.names.clone() };
        let lanes = vec![Lane::default(); state.seats.len()];
        let (rounds, rounds_at, steps) = (Vec::new(), HashMap::new(), HashMap::new());
        Playing { caption, plan, lanes, rounds, state: state.clone(), notes, newest: 0, rounds_at, steps }
    }

    fn take(&mut self, event: &Event) {
        let Some(after) = &event.after else { return };
        match (&event.command, &event.reply) {
            (Command::Start { node, time }, Reply::Start(answer)) => self.start(*node, *time, answer),
            (Command::Finish { node, time }, Reply::Finish(answer)) => self.finish(*node, *time, answer),
            (Command::Report { node, time }, Reply::Report(answer)) => match answer {
                Ok(_) => self.newest = self.newest.max(*time),
                Err(refusal) => self.refused(*node, *time, *refusal, What::Tells(told("report", *refusal))),
            },
            (Command::Close { node, entries, .. }, Reply::Close(close)) => {
                let round = self.round(*node, entries, close, after);
                self.mark_left_behind(round.at, after);
                *self.rounds_at.entry(round.at.time).or_default() += 1;
                self.rounds.push(round);
            }
            _ => {}
        }
        self.state = after.clone();
    }

    fn start(&mut self, node: usize, time: u64, answer: &Result<Job, (Refusal, Option<Short>)>) {
        match answer {
            Ok(job) => self.act(node, time, What::Starts(self.plan.job(job.position, job.task), job.task)),
            Err((refusal, Some(short))) => {
                let what = What::Waits(waiting(&self.plan, short));
                self.refused(node, time, *refusal, what);
            }
            Err((refusal, None)) if refusal.number() == 8 => {
                let lines = ["refused 8: waits", "for the round's close"];
                self.refused(node, time, *refusal, What::Waits(lines.map(str::to_string).to_vec()));
            }
            Err((refusal, None)) => {
                self.refused(node, time, *refusal, What::Tells(told("start", *refusal)));
            }
        }
    }

    fn finish(&mut self, node: usize, time: u64, answer: &Result<Job, Refusal>) {
        match answer {
            Ok(job) => {
                let label = self.plan.job(job.position, job.task);
                self.act(node, time, What::Finishes(label, job.task));
            }
            Err(refusal) => self.refused(node, time, *refusal, What::Tells(told("finish", *refusal))),
        }
    }

    /// A step whose time is none for the node is drawn where the node stands.
    fn refused(&mut self, node: usize, time: u64, refusal: Refusal, what: What) {
        let drawn = match refusal.number() {
            3 | 4 => self.state.seats[node].node.latest(),
            _ => time,
        };
        self.act(node, drawn, what);
    }

    fn act(&mut self, node: usize, time: u64, what: What) {
        self.newest = self.newest.max(time);
        let rank = self.rank(node, time);
        let step = self.steps.entry((node, time, rank)).or_default().take(&what);
        self.lanes[node].acts.push(Act { at: Place { time, rank, step }, what });
    }

    /// How many rounds of a time come before what a node does then, twice: those
    /// that were closed, and the one that it has reported for.
    fn rank(&self, node: usize, time: u64) -> usize {
        let open = self.state.seats[node].node.open_round().filter(|open| open.time == time);
        2 * (self.rounds_at(time) + usize::from(open.is_some()))
    }

    fn rounds_at(&self, time: u64) -> usize {
        self.rounds_at.get(&time).copied().unwrap_or(0)
    }

    fn round(&self, alone: Option<usize>, entries: &[Typed], close: &Close, after: &State) -> Round {
        let (before, answer, now) = match alone {
            Some(node) => {
                let (_, answer) = &close.nodes[0];
                (self.state.seats[node].node.common(), answer, after.seats[node].node.common())
            }
            None => {
                let answer = close.station.as_ref().expect("a record for all goes to the station");
                (Common::clone(&self.state.station), answer, Common::clone(&after.station))
            }
        };
        let mut cells = match answer {
            Ok(told) => cells(&self.plan, &before, &close.record, told, |node| says(entries, node)),
            Err(_) => vec![None; self.lanes.len()],
        };
        match alone {
            Some(own) => (0..cells.len()).filter(|&node| node != own).for_each(|node| cells[node] = None),
            None => {
                apart(&mut cells, answer, close, after);
                self.closed_alone(&mut cells, close.record.time);
            }
        }
        let time = self.drawn(close.record.time, answer);
        Round {
            at: Place { time, rank: 2 * self.rounds_at(time) + 1, step: 0 },
            time: close.record.time,
            alone,
            releases: close.record.releases.clone(),
            cells,
            outcome: match answer {
                Ok(told) => Ok(Closed { told: *told, after: now }),
                Err(refusal) => Err(refusal.number()),
            },
        }
    }

    /// Nodes that were given another record for the same round.
    fn closed_alone(&self, cells: &mut [Option<Cell>], time: u64) {
        for round in self.rounds.iter().filter(|round| round.time == time && round.outcome.is_ok()) {
            if let Some(cell) = round.alone.and_then(|node| cells[node].as_mut()) {
                cell.lines.push("closed another record".to_string());
            }
        }
    }

    /// A record that is refused is drawn where the cabinet stands, whatever its
    /// time says.
    fn drawn(&self, r: u64, answer: &Result<Closing, Refusal>) -> u64 {
        let last = || self.rounds.iter().map(|round| round.at.time).max().unwrap_or(0);
        match answer {
            Ok(_) => r,
            Err(_) => r.clamp(last(), self.newest.max(last())),
        }
    }

    fn mark_left_behind(&mut self, at: Place, after: &State) {
        for (lane, seat) in self.lanes.iter_mut().zip(&after.seats) {
            if seat.node.left_behind() {
                lane.left_behind.get_or_insert(at);
            }
        }
    }

    fn scene(mut self, keep: Keep) -> Scene {
        for node in 0..self.lanes.len() {
            if let Some(open) = self.state.seats[node].node.open_round() {
                let lines = vec![format!("round {} is open:", open.time), report_words(&open.sent)];
                self.act(node, open.time, What::Tells(lines));
            }
        }
        self.rounds.sort_by_key(|round| round.at);
        let mut folding = Folding::new(keep);
        self.rounds.into_iter().for_each(|round| folding.push(round));
        let columns = folding.columns();
        for lane in &mut self.lanes {
            lane.acts.retain(|act| !columns.iter().any(|column| column.covers(act.at)));
            lane.acts.sort_by_key(|act| act.at);
        }
        let last = Common::clone(&self.state.station);
        let Playing { caption, plan, lanes, notes, .. } = self;
        Scene { caption, plan, lanes, columns, last, notes }
    }
}

/// What stands at the last step of a time in a lane.
#[derive(Default)]
struct Step {
    number: usize,
    started: bool,
    told: bool,
}

impl Step {
    /// The step of the next act: a job that took no time, and a second thing to
    /// tell, have a place of their own to be seen.
    fn take(&mut self, what: &What) -> usize {
        let taken = match what {
            What::Finishes(..) => self.started,
            What::Waits(_) | What::Tells(_) => self.told,
            What::Starts(..) | What::Done => false,
        };
        if taken {
            *self = Step { number: self.number + 1, ..Step::default() };
        }
        self.started |= matches!(what, What::Starts(..));
        self.told |= matches!(what, What::Waits(_) | What::Tells(_));
        self.number
    }
}

/// A report that was typed by hand is what the node says, not what its software
/// sent.
fn says(entries: &[Typed], node: usize) -> &'static str {
    match entries.get(node) {
        Some(Typed::ByHand(_)) => "says ",
        _ => "",
    }
}

/// Nodes that answer a record otherwise than the station.
fn apart(cells: &mut [Option<Cell>], station: &Result<Closing, Refusal>, close: &Close, after: &State) {
    for (node, answer) in &close.nodes {
        let line = match (station, answer) {
            (Ok(_), Err(refusal)) => format!("does not close it: refused {}", refusal.number()),
            (Err(_), Ok(_)) => "closes it".to_string(),
            (Ok(_), Ok(told)) if told.left_behind => "is left behind".to_string(),
            (Ok(_), Ok(_)) if after.seats[*node].node.common() != *after.station => {
                "has an order of its own".to_string()
            }
            _ => continue,
        };
        let cell = cells[*node].get_or_insert(Cell { class: None, report: None, lines: Vec::new() });
        cell.lines.push(line);
    }
}

/// Why a start has to wait, in three short lines.
fn waiting(plan: &Plan, short: &Short) -> Vec<String> {
    let Short { job, projection, task, earliest, slack, missing, .. } = short;
    vec![
        format!("refused 9: {missing} short"),
        format!("{} may last to {projection},", plan.job(job.position, job.task)),
        format!("{} bears {earliest} + {slack} = {}", plan.task(*task), earliest + slack),
    ]
}

/// How wide the name of a refusal may be in a lane.
const NAME: Px = 150;

fn told(what: &str, refusal: Refusal) -> Vec<String> {
    let number = refusal.number();
    let known = explain::refusals().into_iter().find(|known| known.number == number);
    let mut lines = vec![format!("{what} refused {number}:")];
    lines.extend(wrapped(known.map_or("", |known| known.name), PLAIN, NAME));
    lines
}
