//! The part of a round's column below the lanes: what the round set, and the
//! common order with its fixed part, base and offset.

use crate::fold::{rows, Fold, Row};
use crate::story::{Closed, Plan, Round};
use crate::style::{fill, framed, FIXED, FREE, INK};
use crate::svg::{group, line, rect, text, Element, Px};
use crate::text::{counted, widest, width, wrapped, Face, BOLD, LINE, PLAIN, SMALL};

/// Height of a row.
const ROW: Px = 20;
/// Room for `new` left of the rows, and for `base` and `offset` right of them.
const NEW: Px = 38;
const MARKS: Px = 40;
/// The square in a task's colour.
const CHIP: Px = 10;

/// Releases that are named one by one.
const NAMED: usize = 3;

/// What a round set, in short lines.
pub fn numbers(plan: &Plan, round: &Round) -> Vec<String> {
    let closed = match &round.outcome {
        Ok(closed) => closed,
        Err(number) => return refused(*number),
    };
    let after = &closed.after;
    let mut lines = vec![
        format!("offset {}, base {}", after.offset(), after.base()),
        format!("length {}", after.length()),
        format!("next start {}", after.next_start()),
        match closed.told.back_runner {
            Some(node) => format!("back-runner {node}"),
            None => "no back-runner".to_string(),
        },
        if closed.told.majority { "majority" } else { "no majority" }.to_string(),
    ];
    match round.releases.len() {
        0 => lines.push("no releases".to_string()),
        count if count > NAMED => lines.push(format!("{count} jobs released")),
        _ => lines.extend(round.releases.iter().map(|release| {
            format!("{} released at {}", plan.task(release.task), round.time + release.delay)
        })),
    }
    lines
}

fn refused(number: u64) -> Vec<String> {
    let known = explain::refusals().into_iter().find(|known| known.number == number);
    let mut lines = wrapped(known.map_or("", |known| known.name), PLAIN, 150);
    lines.push("nothing has changed".to_string());
    lines
}

/// What a fold holds, in short lines.
pub fn folded(fold: &Fold) -> Vec<String> {
    let mut lines = vec![
        format!("{} rounds", counted(fold.rounds)),
        format!("from {}", fold.first.time),
        format!("to {}", fold.last.time),
        format!("{} jobs released", counted(fold.released)),
    ];
    if fold.refused > 0 {
        lines.push(format!("{} refused", counted(fold.refused)));
    }
    lines
}

/// For an order that is empty.
const NOTHING: &str = "nothing waits";

/// A row with its words.
struct Drawn {
    row: Row,
    label: String,
    due: String,
    new: u64,
}

impl Drawn {
    /// New jobs are bold; a stretch has old and new ones.
    fn face(&self) -> Face {
        match self.row {
            Row::Job { .. } if self.new > 0 => BOLD,
            _ => PLAIN,
        }
    }
}

fn drawn(plan: &Plan, round: &Round, closed: &Closed) -> Vec<Drawn> {
    let after = &closed.after;
    let new = round.new_positions();
    let due = |position| match after.projection(&plan.table, position) {
        Ok(time) => format!("by {time}"),
        Err(_) => String::new(),
    };
    let words = |row: Row| {
        let label = match row {
            Row::Job { position, task } => plan.job(position, task),
            Row::Stretch { first, last, tasks } => {
                let tasks = match tasks {
                    (low, high) if low == high => format!("all {}", plan.task(low)),
                    (low, high) => format!("tasks {low} to {high}"),
                };
                format!("{first} to {last}: {tasks}")
            }
        };
        let within = |position: &&u64| (row.first()..=row.last()).contains(position);
        let due = match row {
            Row::Job { position, .. } => due(position),
            Row::Stretch { .. } => String::new(),
        };
        Drawn { label, due, new: new.iter().filter(within).count() as u64, row }
    };
    rows(after.base(), after.offset(), after.order()).into_iter().map(words).collect()
}

fn finished(base: u64) -> String {
    if base == 1 {
        "1 finished".to_string()
    } else {
        format!("1 to {base} finished")
    }
}

/// How wide the rows of a round are.
fn rows_wide(drawn: &[Drawn], base: u64) -> Px {
    let row = |row: &Drawn| CHIP + 18 + width(&row.label, row.face()) + width(&row.due, PLAIN);
    let alone = |words: &str| width(words, PLAIN) + 12;
    let jobs = drawn.iter().map(row).max().unwrap_or(alone(NOTHING));
    if base > 0 {
        jobs.max(alone(&finished(base)))
    } else {
        jobs
    }
}

/// How wide the column must be for what stands below the lanes.
pub fn wide(plan: &Plan, round: &Round) -> Px {
    let lines = widest(&numbers(plan, round), PLAIN);
    match &round.outcome {
        Ok(closed) => lines.max(NEW + rows_wide(&drawn(plan, round, closed), closed.after.base()) + MARKS),
        Err(_) => lines,
    }
}

/// The order of a closed round, its left upper corner at x and y. With
/// `aligned` a position stands at the same height in every round.
pub fn stack(plan: &Plan, round: &Round, aligned: bool, x: Px, y: Px) -> (Element, Px) {
    let mut order = group("order");
    let Ok(closed) = &round.outcome else { return (order, y) };
    let after = &closed.after;
    let drawn = drawn(plan, round, closed);
    let wide = rows_wide(&drawn, after.base());
    let (left, right) = (x + NEW, x + NEW + wide);
    let mut at = y;
    if after.base() > 0 {
        let high = if aligned { ROW * after.base() as Px } else { ROW };
        let frame = rect(left, at, wide, high).with("fill", "none").with("stroke", INK);
        order.add(frame.with("stroke-dasharray", "2 3"));
        order.add(text(left + 6, at + high / 2 + 4, PLAIN, &finished(after.base())));
        at += high;
    }
    let (base, mut offset) = (at, at);
    for job in &drawn {
        let fixed = job.row.last() <= after.offset();
        order.add(self::row(job, fixed, (left, at), wide));
        at += ROW;
        if fixed {
            offset = at;
        }
    }
    if drawn.is_empty() {
        order.add(text(left + 6, at + 14, PLAIN, NOTHING));
        at += ROW;
    }
    for shift in [-1, 2] {
        order.add(line((left - 8, base + shift), (right + 6, base + shift)).with("stroke", INK));
    }
    order.add(text(right + 9, base - 2, SMALL, "base"));
    let thick = line((left - 8, offset), (right + 6, offset)).with("stroke", INK);
    if offset != base {
        order.add(thick.with("stroke-width", 4));
    }
    order.add(text(right + 9, offset + 9, SMALL, "offset"));
    (order, at)
}

fn row(job: &Drawn, fixed: bool, at: (Px, Px), wide: Px) -> Element {
    let (x, y) = at;
    let mut row = group(if fixed { "job fixed" } else { "job free" });
    row.add(framed(x, y, wide, ROW, if fixed { FIXED } else { FREE }));
    if let Row::Job { task, .. } = job.row {
        row.add(framed(x + 4, y + 5, CHIP, CHIP, fill(task)));
    }
    row.add(text(x + CHIP + 9, y + 14, job.face(), &job.label));
    if !job.due.is_empty() {
        row.add(text(x + wide - width(&job.due, PLAIN) - 4, y + 14, PLAIN, &job.due));
    }
    let new = match (job.new, &job.row) {
        (0, _) => return row,
        (_, Row::Job { .. }) => "new".to_string(),
        (count, Row::Stretch { .. }) => format!("{count} new"),
    };
    row.add(text(x - width(&new, SMALL) - 9, y + 14, SMALL, &new));
    row
}

/// Lines of text below each other.
pub fn lines(x: Px, y: Px, lines: &[String]) -> Vec<Element> {
    let line = |(place, words): (usize, &String)| text(x, y + LINE * place as Px, PLAIN, words);
    lines.iter().enumerate().map(line).collect()
}
