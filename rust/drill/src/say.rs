//! Replies and states in words, a line each.

use std::rc::Rc;

use cabinet::{Closing, Common, Refusal, Report};
use explain::explain;

use crate::command::Command;
use crate::state::{Job, Plan, Seat, State};
use crate::step::{Close, Reply, Short};
use crate::COMMANDS;

/// The lines for a reply, with the state after it.
pub(crate) fn say(command: &Command, reply: &Reply, after: Option<&State>) -> Vec<String> {
    match (command, after) {
        (Command::Help, _) => lines(COMMANDS),
        (Command::Explain(number), _) => lines(&explain(*number).unwrap_or_default()),
        (Command::Expect(_), _) => Vec::new(),
        (Command::Table { .. }, _) => vec![table(reply, after)],
        (_, Some(state)) => of_state(command, reply, state),
        (_, None) => unreachable!("a command that needs a table is bad without one"),
    }
}

fn lines(text: &str) -> Vec<String> {
    text.lines().map(str::to_string).collect()
}

fn of_state(command: &Command, reply: &Reply, state: &State) -> Vec<String> {
    let plan = &state.plan;
    match (command, reply) {
        (Command::Start { node, time }, Reply::Start(answer)) => {
            vec![format!("at {time}: {node} {}", start(plan, answer))]
        }
        (Command::Finish { node, time }, Reply::Finish(answer)) => {
            vec![format!("at {time}: {node} {}", finish(plan, answer))]
        }
        (Command::Report { node, time }, Reply::Report(answer)) => {
            vec![format!("at {time}: {node} {}", report(answer))]
        }
        (Command::Close { .. }, Reply::Close(answer)) => close(state, answer),
        (Command::Show, _) => show(state),
        (Command::Node(number), _) => vec![node(state, *number)],
        (Command::Order, _) => vec![order(plan, &state.station)],
        (Command::Projection, _) => vec![projection(plan, &state.station)],
        (Command::Started, _) => started(state),
        _ => unreachable!("a reply to another command"),
    }
}

fn table(reply: &Reply, after: Option<&State>) -> String {
    let state = match (reply, after) {
        (Reply::Table(Ok(())), Some(state)) => state,
        (Reply::Table(Err(refusal)), _) => return format!("table {refusal}"),
        _ => unreachable!("a reply to another command"),
    };
    let table = &state.plan.table;
    let tasks: Vec<String> = (0..table.task_count() as u64).map(|task| state.plan.task(task)).collect();
    format!("table: {} nodes, timeout {}, {}", table.nodes(), table.timeout(), tasks.join(", "))
}

/// `task 2 solve (position 3)`.
fn job(plan: &Plan, job: Job) -> String {
    format!("{} (position {})", plan.task(job.task), job.position)
}

fn start(plan: &Plan, answer: &Result<Job, (Refusal, Option<Short>)>) -> String {
    match answer {
        Ok(started) => format!("starts {}", job(plan, *started)),
        Err((_, Some(short))) => format!("refused 9: {}", waiting(plan, short)),
        Err((refusal, None)) => refusal.to_string(),
    }
}

fn waiting(plan: &Plan, short: &Short) -> String {
    let from = match short.from {
        Some(time) => format!("; as things stand it may start from {time} on"),
        None => String::new(),
    };
    format!(
        "{} can be released at {} and bears {}, which is {}; {} is projected at {}: {} short{from}",
        plan.task(short.task),
        short.earliest,
        short.slack,
        short.earliest + short.slack,
        job(plan, short.job),
        short.projection,
        short.missing,
    )
}

fn finish(plan: &Plan, answer: &Result<Job, Refusal>) -> String {
    match answer {
        Ok(finished) => format!("finishes {}", job(plan, *finished)),
        Err(refusal) => refusal.to_string(),
    }
}

fn report(answer: &Result<Report, Refusal>) -> String {
    match answer {
        Ok(Report { progress, completed, run }) => {
            let lock = progress + run;
            format!("reports progress {progress}, completed {completed}, run {run}; lock {lock}")
        }
        Err(refusal) => refusal.to_string(),
    }
}

/// A line for the station with those that answer as it does, and one for each
/// node that answers otherwise.
fn close(state: &State, close: &Close) -> Vec<String> {
    let time = close.record.time;
    let alone = |(number, answer): &(usize, Result<Closing, Refusal>)| match answer {
        Ok(told) => closed(state, &format!("round {time} by {number}"), told, &own(state, *number)),
        Err(refusal) => format!("round {time} by {number} {refusal}"),
    };
    let Some(station) = &close.station else { return close.nodes.iter().map(alone).collect() };
    let (alike, otherwise): (Vec<_>, Vec<_>) =
        close.nodes.iter().cloned().partition(|(number, answer)| agrees(state, station, *number, answer));
    let alike: Vec<usize> = alike.iter().map(|(number, _)| *number).collect();
    let first = match station {
        Ok(told) => {
            let line = closed(state, &format!("round {time}"), told, &state.station);
            format!("{line}; {}", attendance(state, &alike, &close.nodes))
        }
        Err(refusal) => format!("round {time} {refusal}; {}", as_it_stood(&alike)),
    };
    std::iter::once(first).chain(otherwise.iter().map(alone)).collect()
}

/// Whether a node answers as the station does, and has the same common
/// record after it.
fn agrees(
    state: &State,
    station: &Result<Closing, Refusal>,
    number: usize,
    answer: &Result<Closing, Refusal>,
) -> bool {
    match (station, answer) {
        (Ok(told), Ok(own_told)) => {
            let judged = Closing { left_behind: told.left_behind, ..*own_told };
            judged == *told && own(state, number) == *state.station
        }
        (Err(one), Err(other)) => one == other,
        _ => false,
    }
}

fn own(state: &State, number: usize) -> Common {
    state.seats[number].node.common()
}

fn closed(state: &State, what: &str, told: &Closing, common: &Common) -> String {
    let classes: Vec<String> =
        told.classes[..state.plan.table.nodes()].iter().map(|class| class.to_string()).collect();
    let back = match told.back_runner {
        Some(number) => format!("back-runner {number}"),
        None => "no back-runner".to_string(),
    };
    let majority = if told.majority { "majority" } else { "no majority" };
    let left = if told.left_behind { "; left behind" } else { "" };
    format!(
        "{what}: classes {}, {back}, {majority}; {}; {}{left}",
        classes.join(" "),
        numbers(common),
        order(&state.plan, common)
    )
}

/// Who closed the round as the station did, who had none open, who is left
/// behind.
fn attendance(state: &State, alike: &[usize], answers: &[(usize, Result<Closing, Refusal>)]) -> String {
    let all = 0..state.seats.len();
    let left: Vec<usize> = all.clone().filter(|&number| state.seats[number].node.left_behind()).collect();
    let asked = |number: &usize| answers.iter().any(|(other, _)| other == number);
    let absent: Vec<usize> = all.filter(|number| !asked(number) && !left.contains(number)).collect();
    let mut parts = vec![match alike {
        [] => "closed by the station alone".to_string(),
        _ => format!("closed by {}", list(alike)),
    }];
    if !alike.is_empty() && !absent.is_empty() {
        parts.push(format!("no round open on {}", list(&absent)));
    }
    if !left.is_empty() {
        parts.push(format!("left behind {}", list(&left)));
    }
    parts.join("; ")
}

fn as_it_stood(alike: &[usize]) -> String {
    match alike {
        [] => "the station is as it stood".to_string(),
        _ => format!("the station and {} are as they stood", list(alike)),
    }
}

fn list(numbers: &[usize]) -> String {
    numbers.iter().map(usize::to_string).collect::<Vec<_>>().join(" ")
}

fn numbers(common: &Common) -> String {
    format!(
        "offset {}, base {}, length {}, next start {}",
        common.offset(),
        common.base(),
        common.length(),
        common.next_start()
    )
}

/// `order 2:gate | 3:solve`: the bar stands behind the part that is fixed.
fn order(plan: &Plan, common: &Common) -> String {
    let fixed = (common.offset() - common.base()) as usize;
    let mut words: Vec<String> = jobs(common).map(|job| at(plan, job)).collect();
    words.insert(fixed.min(words.len()), "|".to_string());
    format!("order {}", words.join(" "))
}

fn jobs(common: &Common) -> impl Iterator<Item = Job> + '_ {
    let base = common.base();
    (1u64..).zip(common.order()).map(move |(place, &task)| Job { position: base + place, task })
}

/// `3:solve`.
fn at(plan: &Plan, job: Job) -> String {
    format!("{}:{}", job.position, plan.short(job.task))
}

fn projection(plan: &Plan, common: &Common) -> String {
    let of = |position| common.projection(&plan.table, position).expect("a position that is kept");
    let jobs = jobs(common).map(|job| format!("{} at {}", at(plan, job), of(job.position)));
    let base = std::iter::once(format!("projection base {} at {}", common.base(), of(common.base())));
    base.chain(jobs).collect::<Vec<_>>().join(", ")
}

fn show(state: &State) -> Vec<String> {
    let mut lines = vec![station(state)];
    lines.extend((0..state.seats.len()).map(|number| node(state, number)));
    lines
}

fn station(state: &State) -> String {
    let common = &state.station;
    let last = match common.last_round() {
        Some(time) => format!("last round {time}"),
        None => "no round has been".to_string(),
    };
    let earliest: Vec<String> = (0..state.plan.table.task_count())
        .filter_map(|task| Some((task, common.earliest(task)?)))
        .map(|(task, time)| format!("{} {time}", state.plan.short(task as u64)))
        .collect();
    format!(
        "station: {last}; {}; {}; earliest {}",
        numbers(common),
        order(&state.plan, common),
        earliest.join(", ")
    )
}

fn node(state: &State, number: usize) -> String {
    let seat = &state.seats[number];
    let common = seat.node.common();
    let record = if common == *state.station {
        "common record as the station's".to_string()
    } else {
        format!("{}; {}", numbers(&common), order(&state.plan, &common))
    };
    let left = if seat.node.left_behind() { "; left behind" } else { "" };
    format!("node {number}: {}; {record}{left}", own_part(&state.plan, seat))
}

fn own_part(plan: &Plan, seat: &Seat) -> String {
    let node = &seat.node;
    let runs = match seat.started.last() {
        Some(job) if node.running() => format!("runs {}", at(plan, *job)),
        _ => "runs nothing".to_string(),
    };
    let round = match node.open_round() {
        Some(open) => format!("round {} open, lock {}", open.time, open.sent.progress + open.sent.run),
        None => "no round open".to_string(),
    };
    format!(
        "progress {}, completed {}, {runs}, latest {}, {round}",
        node.progress(),
        node.completed(),
        node.latest()
    )
}

fn started(state: &State) -> Vec<String> {
    let plan = &state.plan;
    let line = |(number, seat): (usize, &Rc<Seat>)| {
        let jobs: Vec<String> = seat.started.iter().map(|job| at(plan, *job)).collect();
        match jobs.is_empty() {
            true => format!("{number} has started nothing"),
            false => format!("{number} has started {}", jobs.join(" ")),
        }
    };
    let verdict = match state.parted() {
        None => "one order".to_string(),
        Some([(one, first), (other, second)]) => format!(
            "two orders: position {} is {} on {one} and {} on {other}",
            first.position,
            plan.task(first.task),
            plan.task(second.task)
        ),
    };
    state.seats.iter().enumerate().map(line).chain(std::iter::once(verdict)).collect()
}
