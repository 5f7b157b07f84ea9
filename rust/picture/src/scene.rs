//! A scene: its head, the lanes of the nodes, the rounds across them, and the
//! order after each round below.

use cabinet::Task;

use crate::axis::{Axis, Needs};
use crate::draw::{MARGIN, TEXT_WIDE};
use crate::fold::FULL;
use crate::lane;
use crate::order;
use crate::story::{order_line, Column, Place, Round, Scene};
use crate::style::{faint, framed, BAND, INK};
use crate::svg::{group, rect, text, Element, Px};
use crate::text::{width, wrapped, BOLD, HEAD, LINE, PLAIN};

/// Where the axis begins: right of the lanes' names.
const AXIS: Px = 108;
/// The heads of the columns, above the lanes.
const COLUMN_HEAD: Px = 38;
/// Tasks of a longer table are not all listed.
const LISTED: usize = 8;

/// A scene that was drawn, and how far it reaches.
pub struct Drawn {
    /// The scene.
    pub element: Element,
    /// Its right end.
    pub right: Px,
    /// Its lower end.
    pub bottom: Px,
}

/// Where the parts of a scene stand.
struct Frame {
    /// The upper edge of the columns' heads.
    columns: Px,
    /// The upper edge of each lane, and the lower edge of the last.
    lanes: Vec<Px>,
    /// The height of the bars in them.
    bars: Px,
    /// The first line below the lanes.
    numbers: Px,
    /// The upper edge of the orders.
    orders: Px,
    axis: Axis,
}

/// The scene with its upper edge at y; `number` says which of how many it is.
pub fn draw(scene: &Scene, number: Option<(usize, usize)>, y: Px) -> Drawn {
    let mut element = group("scene").with("data-order", order_line(&scene.last));
    let mut drawn = Drawn { right: 0, bottom: head(scene, number, y, &mut element), element };
    if !scene.columns.is_empty() || scene.lanes.iter().any(|lane| !lane.acts.is_empty()) {
        played(scene, &mut drawn);
    }
    for note in &scene.notes {
        drawn.bottom += LINE;
        drawn.right = drawn.right.max(MARGIN + width(note, PLAIN));
        drawn.element.add(text(MARGIN, drawn.bottom, PLAIN, note));
    }
    drawn
}

/// What was played: lanes, rounds and orders.
fn played(scene: &Scene, drawn: &mut Drawn) {
    let (frame, moments) = frame(scene, drawn.bottom + 10);
    let (orders, bottom) = orders(scene, &frame);
    back(scene, &frame, &moments, bottom, &mut drawn.element);
    for column in &scene.columns {
        drawn.element.add(column_head(column, &frame, scene.plan.table.timeout()));
    }
    for (node, lane) in scene.lanes.iter().enumerate() {
        let at = (frame.lanes[node], frame.bars);
        drawn.element.add(lane::draw(node, lane, &scene.columns, &frame.axis, at));
    }
    drawn.element.add(orders);
    (drawn.right, drawn.bottom) = (frame.axis.right, bottom);
}

/// Title, caption and table; gives back its lower end.
fn head(scene: &Scene, number: Option<(usize, usize)>, y: Px, out: &mut Element) -> Px {
    let table = &scene.plan.table;
    let title = format!("{} controllers, timeout {}", table.nodes(), table.timeout());
    let title = match number {
        Some((which, of)) => format!("Part {which} of {of}: {title}"),
        None => title,
    };
    out.add(text(MARGIN, y + 16, HEAD, &title));
    let mut foot = y + 20;
    for line in wrapped(&scene.caption, PLAIN, TEXT_WIDE).iter().chain(&tasks(scene)) {
        foot += LINE;
        out.add(text(MARGIN, foot, PLAIN, line));
    }
    foot
}

/// The table's rows in plain words. Neighbours without names that have the same
/// numbers are one row; of many rows the middle ones are left out.
fn tasks(scene: &Scene) -> Vec<String> {
    let tasks = scene.plan.table.tasks();
    let names = &scene.plan.names;
    let mut rows: Vec<(usize, usize)> = Vec::new();
    for number in 0..tasks.len() {
        match rows.last_mut() {
            Some((_, last))
                if tasks[*last] == tasks[number] && names[*last].is_none() && names[number].is_none() =>
            {
                *last = number
            }
            _ => rows.push((number, number)),
        }
    }
    let row = |&(first, last): &(usize, usize)| {
        let name = match &names[first] {
            Some(name) => format!("task {first}, {name}"),
            None if first == last => format!("task {first}"),
            None => format!("tasks {first} to {last}, each"),
        };
        let Task { c, t, d, s } = tasks[first];
        format!(
            "{name}: takes at most {c} (C), comes at most every {t} (T), is due within {d} (D), bears to wait {s} (S)"
        )
    };
    if rows.len() <= LISTED {
        return rows.iter().map(row).collect();
    }
    let (head, tail) = (&rows[..LISTED - 3], &rows[rows.len() - 2..]);
    let left_out = format!("tasks {} to {} are not listed", head[head.len() - 1].1 + 1, tail[0].0 - 1);
    head.iter().map(row).chain([left_out]).chain(tail.iter().map(row)).collect()
}

fn rounds(scene: &Scene) -> impl Iterator<Item = &Round> {
    scene.columns.iter().filter_map(|column| match column {
        Column::Round(round) => Some(&**round),
        Column::Fold(_) => None,
    })
}

/// The places of all parts, and the moments that carry their time.
fn frame(scene: &Scene, y: Px) -> (Frame, Vec<Place>) {
    let bars = lane::bars(&scene.lanes);
    let mut lanes = vec![y + COLUMN_HEAD];
    for (node, lane) in scene.lanes.iter().enumerate() {
        lanes.push(lanes[node] + lane::high(node, lane, &scene.columns, bars));
    }
    let numbers = lanes[scene.lanes.len()] + 22;
    let most = scene.columns.iter().map(|column| below(scene, column).len()).max();
    let orders = numbers + LINE * most.unwrap_or(0) as Px + 4;
    let mut needs = Needs::default();
    for column in &scene.columns {
        needs.column(column.first(), column.last().time, column_wide(scene, column));
    }
    scene.lanes.iter().for_each(|lane| lane::needs(lane, &scene.columns, &mut needs));
    let moments = moments(scene, &mut needs);
    (Frame { columns: y, lanes, bars, numbers, orders, axis: needs.axis(AXIS) }, moments)
}

/// The moments whose time is written above the lanes, with room to write it.
fn moments(scene: &Scene, needs: &mut Needs) -> Vec<Place> {
    let places = needs.places();
    let is_column = |place: &Place| scene.columns.iter().any(|column| column.first() == *place);
    let mut moments = Vec::new();
    for (index, place) in places.iter().enumerate() {
        if place.step == 0 && !is_column(place) {
            moments.push(*place);
            if let Some(next) = places.get(index + 1) {
                needs.room(*place, *next, width(&place.time.to_string(), PLAIN) + 8);
            }
        }
    }
    moments
}

/// The lines of a column below the lanes.
fn below(scene: &Scene, column: &Column) -> Vec<String> {
    match column {
        Column::Round(round) => order::numbers(&scene.plan, round),
        Column::Fold(fold) => order::folded(fold),
    }
}

fn column_wide(scene: &Scene, column: &Column) -> Px {
    let lines = below(scene, column);
    let own = match column {
        Column::Round(round) => order::wide(&scene.plan, round),
        Column::Fold(_) => 0,
    };
    let heads = heads(column, scene.plan.table.timeout());
    let head = heads.iter().map(|line| width(line, BOLD)).max().unwrap_or(0);
    let lines = lines.iter().map(|line| width(line, PLAIN)).max().unwrap_or(0);
    own.max(lines).max(head).max(lane::wide(column, scene.lanes.len())) + 16
}

/// The two lines at the head of a column.
fn heads(column: &Column, timeout: u64) -> [String; 2] {
    match column {
        Column::Fold(fold) => ["folded".to_string(), format!("{} rounds", fold.rounds)],
        Column::Round(round) => {
            let head = match round.outcome {
                Ok(_) => format!("round {}", round.time),
                Err(number) => format!("refused {number}"),
            };
            let second = match (&round.outcome, round.alone) {
                (Err(_), _) => format!("record of {}", round.time),
                (Ok(_), Some(node)) => format!("for {node} alone"),
                (Ok(_), None) => format!("ends at {}", round.time + timeout),
            };
            [head, second]
        }
    }
}

/// What lies behind everything: the bands of the rounds, the lanes' edges, the
/// moments with their times.
fn back(scene: &Scene, frame: &Frame, moments: &[Place], bottom: Px, out: &mut Element) {
    let (top, foot) = (frame.lanes[0], frame.lanes[scene.lanes.len()]);
    for column in &scene.columns {
        let (left, right) = (frame.axis.left(column.first()), frame.axis.right_of(column.first()));
        out.add(rect(left, frame.columns, right - left, bottom - frame.columns).with("fill", BAND));
    }
    for moment in moments {
        let x = frame.axis.left(*moment);
        out.add(faint((x, top), (x, foot)));
        out.add(text(x, top - 5, PLAIN, &moment.time.to_string()).with("class", "time"));
    }
    for y in &frame.lanes {
        out.add(faint((MARGIN, *y), (frame.axis.right, *y)));
    }
    out.add(text(MARGIN, top - 5, PLAIN, "time"));
}

fn column_head(column: &Column, frame: &Frame, timeout: u64) -> Element {
    let (left, right) = (frame.axis.left(column.first()), frame.axis.right_of(column.first()));
    let mut head = match column {
        Column::Round(round) if round.alone.is_none() => group("round").with("data-line", round.line()),
        Column::Round(_) => group("round alone"),
        Column::Fold(_) => group("fold"),
    };
    let refused = matches!(column, Column::Round(round) if round.outcome.is_err());
    let (fill, ink) = if refused { (INK, "#ffffff") } else { ("#ffffff", INK) };
    head.add(framed(left, frame.columns, right - left, COLUMN_HEAD - 4, fill));
    let [first, second] = heads(column, timeout);
    head.add(text(left + 8, frame.columns + 14, BOLD, &first).with("fill", ink));
    head.add(text(left + 8, frame.columns + 28, PLAIN, &second).with("fill", ink));
    head
}

/// The numbers and orders below the lanes, and their lower end.
fn orders(scene: &Scene, frame: &Frame) -> (Element, Px) {
    let mut out = group("orders");
    let aligned = rounds(scene).all(|round| match &round.outcome {
        Ok(closed) => closed.after.length() <= FULL as u64,
        Err(_) => true,
    });
    for (place, words) in ["the order", "after each", "round"].into_iter().enumerate() {
        out.add(text(MARGIN, frame.numbers + LINE * place as Px, BOLD, words));
    }
    let mut bottom = frame.orders.max(frame.numbers + 3 * LINE);
    for column in &scene.columns {
        let x = frame.axis.left(column.first()) + 8;
        let mut set = group("set");
        order::lines(x, frame.numbers, &below(scene, column)).into_iter().for_each(|line| set.add(line));
        out.add(set);
        if let Column::Round(round) = column {
            let (stack, foot) = order::stack(&scene.plan, round, aligned, x, frame.orders + 8);
            bottom = bottom.max(foot);
            out.add(stack);
        }
    }
    (out, bottom + 8)
}
