//! A node's lane: what it ran and where it waited as bars in the upper part,
//! what it reported and its class below.

use crate::axis::{Axis, Needs, END};
use crate::fold::Fold;
use crate::story::{Act, Cell, Column, Lane, Place, What, CLASSES};
use crate::style::{badge, fill, framed, BADGE, INK, LEFT, WAITING};
use crate::svg::{group, line, text, Element, Px};
use crate::text::{counted, widest, width, BOLD, LINE, PLAIN};

/// The bars' height, and their distance from the lane's upper edge.
const BAR: Px = 18;
const ABOVE: Px = 5;
/// Room for ticks between two rounds.
const TICKS: Px = 70;

/// The height of the part with bars: a session tells of none.
pub fn bars(lanes: &[Lane]) -> Px {
    let bar = |act: &Act| matches!(act.what, What::Starts(..) | What::Finishes(..) | What::Waits(_));
    let some = lanes.iter().any(|lane| lane.left_behind.is_some() || lane.acts.iter().any(bar));
    if some {
        BAR
    } else {
        0
    }
}

/// The lines of a fold for a node: how often it had which class.
fn counts(fold: &Fold, node: usize) -> Vec<String> {
    let Some(counts) = fold.classes.get(node) else { return Vec::new() };
    let told = counts.iter().enumerate().filter(|(_, count)| **count > 0);
    told.map(|(class, count)| format!("{} {}: {}", class, CLASSES[class], counted(*count))).collect()
}

/// How many lines of text the lane needs below its bars.
fn line_count(node: usize, lane: &Lane, columns: &[Column]) -> usize {
    let acts = lane.acts.iter().map(|act| match &act.what {
        What::Waits(lines) | What::Tells(lines) => lines.len(),
        _ => 0,
    });
    let cells = columns.iter().map(|column| match column {
        Column::Round(round) => round.cells[node].as_ref().map_or(0, |cell| cell.lines.len() + 1),
        Column::Fold(fold) => counts(fold, node).len(),
    });
    acts.chain(cells).max().unwrap_or(0).max(1)
}

/// The lane's height.
pub fn high(node: usize, lane: &Lane, columns: &[Column], bars: Px) -> Px {
    ABOVE + bars + LINE * line_count(node, lane, columns) as Px + 9
}

/// How wide a column must be for what stands in the lanes.
pub fn wide(column: &Column, nodes: usize) -> Px {
    let cell = |cell: &Cell| {
        let name = cell.class.map_or(0, |class| BADGE.0 + 5 + width(CLASSES[usize::from(class)], BOLD));
        name.max(widest(&cell.lines, PLAIN))
    };
    match column {
        Column::Round(round) => round.cells.iter().flatten().map(cell).max().unwrap_or(0),
        Column::Fold(fold) => (0..nodes).map(|node| widest(&counts(fold, node), PLAIN)).max().unwrap_or(0),
    }
}

/// What the lane asks of the axis.
pub fn needs(lane: &Lane, columns: &[Column], needs: &mut Needs) {
    let below = |act: &&Act| matches!(act.what, What::Waits(_) | What::Tells(_));
    for (index, act) in lane.acts.iter().enumerate() {
        if !matches!(act.what, What::Done) {
            needs.moment(act.at);
        }
        let later = &lane.acts[index + 1..];
        match &act.what {
            What::Starts(label, _) => {
                let end = later.iter().find(|act| matches!(act.what, What::Finishes(..)));
                needs.room(act.at, end.map_or(END, |end| end.at), width(label, PLAIN) + 10);
            }
            What::Finishes(..) => {}
            What::Done => ticks(act.at, columns, needs),
            What::Waits(lines) | What::Tells(lines) => {
                let column = columns.iter().map(Column::first).find(|column| *column > act.at);
                let next = later.iter().find(below).map(|next| next.at);
                let end = column.into_iter().chain(next).min().unwrap_or(END);
                needs.room(act.at, end, widest(lines, PLAIN) + 10);
            }
        }
    }
}

/// Room between the rounds before and after a tick.
fn ticks(at: Place, columns: &[Column], needs: &mut Needs) {
    let after = columns.iter().map(Column::first).find(|column| *column > at);
    if let Some(after) = after {
        needs.between(after, TICKS);
    }
}

/// A lane that is being drawn: its upper edge, the height of its bars, the
/// axis, and the folds on it.
struct Drawing<'a> {
    y: Px,
    bars: Px,
    axis: &'a Axis,
    folds: Vec<&'a Fold>,
    out: Element,
}

/// The lane with its upper edge at y.
pub fn draw(node: usize, lane: &Lane, columns: &[Column], axis: &Axis, at: (Px, Px)) -> Element {
    let (y, bars) = at;
    let folds = columns.iter().filter_map(|column| match column {
        Column::Fold(fold) => Some(fold),
        Column::Round(_) => None,
    });
    let out = group("lane").with("data-node", node);
    let mut drawing = Drawing { y, bars, axis, folds: folds.collect(), out };
    drawing.out.add(text(16, y + ABOVE + 13, BOLD, &format!("controller {node}")));
    drawing.bars(lane);
    drawing.words(lane);
    for column in columns {
        drawing.cell(node, column);
    }
    drawing.out
}

impl Drawing<'_> {
    fn bars(&mut self, lane: &Lane) {
        let mut runs: Option<(Place, &str, u64)> = None;
        let mut waits: Option<Place> = None;
        for act in &lane.acts {
            match &act.what {
                What::Starts(label, task) => {
                    self.waited(waits.take(), self.axis.left(act.at));
                    if let Some((from, label, task)) = runs.replace((act.at, label, *task)) {
                        self.ran(self.axis.left(from), self.fold_after(from), label, task);
                    }
                }
                What::Finishes(label, task) => {
                    let from = runs.take().map(|(from, ..)| self.axis.left(from));
                    let from = from.unwrap_or_else(|| self.fold_before(act.at));
                    self.ran(from, self.axis.left(act.at), label, *task);
                }
                What::Waits(_) => {
                    waits.get_or_insert(act.at);
                }
                What::Done => self.done(act.at),
                What::Tells(_) => {}
            }
        }
        let end = lane.left_behind.map_or(self.axis.right, |at| self.axis.left(at));
        self.waited(waits, end);
        if let Some((from, label, task)) = runs {
            self.ran(self.axis.left(from), end.max(self.axis.left(from)), label, task);
        }
        if let Some(at) = lane.left_behind {
            let from = self.axis.left(at);
            self.out.add(framed(from, self.y + ABOVE, self.axis.right - from, BAR, LEFT));
        }
    }

    /// Where a bar ends whose end is folded away.
    fn fold_after(&self, from: Place) -> Px {
        let fold = self.folds.iter().find(|fold| fold.first > from);
        fold.map_or(self.axis.right, |fold| self.axis.left(fold.first))
    }

    /// Where a bar begins whose beginning is folded away.
    fn fold_before(&self, to: Place) -> Px {
        let fold = self.folds.iter().rev().find(|fold| fold.last < to);
        fold.map_or(self.axis.left(to), |fold| self.axis.right_of(fold.first))
    }

    fn ran(&mut self, from: Px, to: Px, label: &str, task: u64) {
        let mut bar = group("run");
        bar.add(framed(from, self.y + ABOVE, (to - from).max(1), BAR, fill(task)));
        bar.add(text(from + 5, self.y + ABOVE + 13, PLAIN, label));
        self.out.add(bar);
    }

    fn waited(&mut self, from: Option<Place>, to: Px) {
        let Some(from) = from.map(|from| self.axis.left(from)) else { return };
        let mut bar = group("wait");
        bar.add(framed(from, self.y + ABOVE, (to - from).max(1), BAR, WAITING));
        self.out.add(bar);
    }

    fn done(&mut self, at: Place) {
        let (x, y) = (self.axis.between(at), self.y + ABOVE);
        self.out.add(line((x, y), (x, y + BAR)).with("stroke", INK).with("stroke-width", 3));
    }

    /// Where a line of text below the bars has its foot.
    fn foot(&self, place: usize) -> Px {
        self.y + ABOVE + self.bars + LINE * (place as Px + 1)
    }

    fn words(&mut self, lane: &Lane) {
        for act in &lane.acts {
            if let What::Waits(lines) | What::Tells(lines) = &act.what {
                self.lines(self.axis.left(act.at) + 2, 0, lines);
            }
        }
    }

    fn lines(&mut self, x: Px, first: usize, lines: &[String]) {
        for (place, words) in lines.iter().enumerate() {
            self.out.add(text(x, self.foot(first + place), PLAIN, words));
        }
    }

    fn cell(&mut self, node: usize, column: &Column) {
        let x = self.axis.left(column.first()) + 8;
        match column {
            Column::Fold(fold) => self.lines(x, 0, &counts(fold, node)),
            Column::Round(round) => {
                let Some(cell) = &round.cells[node] else { return };
                if let Some(class) = cell.class {
                    let mut told = group("class").with("data-node", node).with("data-class", class);
                    badge(x, self.foot(0) - 12, class).into_iter().for_each(|part| told.add(part));
                    let name = CLASSES[usize::from(class)];
                    told.add(text(x + BADGE.0 + 5, self.foot(0), BOLD, name));
                    self.out.add(told);
                }
                self.lines(x, usize::from(cell.class.is_some()), &cell.lines);
            }
        }
    }
}
