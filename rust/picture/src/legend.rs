//! The legend, in plain words.

use crate::draw::{MARGIN, TEXT_WIDE};
use crate::story::{Source, CLASSES};
use crate::style::{badge, fill, framed, FIXED, FREE, INK, LEFT, WAITING};
use crate::svg::{group, line, text, Element, Px};
use crate::text::{wrapped, BOLD, LINE, PLAIN};

/// Width of a sign, and where the words begin right of it.
const SIGN: Px = 76;
const WORDS: Px = 92;
/// A column of the legend where two fit beside each other.
const HALF: Px = 600;

/// What each class means.
const MEANINGS: [&str; 6] = [
    "it counts: what it has begun is fixed, and the slowest of these sets the base",
    "no report came",
    "it claims what cannot be (no such job, a finish to come); it does not count",
    "it claims less than all that count have finished; it does not count",
    "it claims a job that nobody was allowed to begin; it does not count",
    "it takes longer than the table says; what it has begun is fixed, nobody waits",
];

/// How a sign is drawn, by its upper left corner.
type Sign = fn(Px, Px) -> Vec<Element>;

const DRILL: [(Sign, &str); 4] = [
    (runs, "the controller runs job 1, a gauge check; up to the right edge: it still runs"),
    (
        waits,
        "the controller waits: its start was refused, and the reason stands below. 3 short: if it began now, the \
         slowest controller might be busy for 3 longer than the task that is named bears to wait",
    ),
    (left, "left behind for good: the others have dropped jobs that it has not finished"),
    (says, "this report was typed in by hand: it is not what the controller's software sent"),
];

const SESSION: [(Sign, &str); 1] =
    [(done, "when the controller finished its last job, as its next report says")];

const ORDER: [(Sign, &str); 6] = [
    (fixed, "a fixed job: some controller may have begun it; nothing goes in before it"),
    (free, "a job that is not fixed: a more urgent one may still go ahead of it"),
    (new, "released in this round, at the place where it was put in"),
    (due, "when the slowest that counts has finished it, if all jobs take as long as they may"),
    (base, "base: all that count have finished what stands above; it is dropped from the order"),
    (offset, "offset: the end of the fixed part"),
];

const FIRST: &str = "Time runs from left to right, in microseconds. The numbers are exact; the distances are not to \
    scale. A grey column is a round: each controller reports at its time and closes it with the same record. In a \
    report, \"2 done at 10, run 1\" means: two jobs finished, the last one at 10, and one running or about to begin.";

/// A sign that was drawn, and its words.
struct Item {
    sign: Vec<Element>,
    words: String,
}

/// The legend with its upper edge at y in a picture of this width, and its
/// lower end.
pub fn draw(source: Source, y: Px, wide: Px) -> (Element, Px) {
    let mut legend = group("legend");
    legend.add(text(MARGIN, y + 12, BOLD, "How to read this"));
    let mut foot = y + 14;
    for words in wrapped(FIRST, PLAIN, TEXT_WIDE) {
        foot += LINE;
        legend.add(text(MARGIN, foot, PLAIN, &words));
    }
    foot += 6;
    let lanes = |x: Px, foot: Px, legend: &mut Element, column: Px| {
        let own: &[(Sign, &str)] = match source {
            Source::Drill => &DRILL,
            Source::Session => &SESSION,
        };
        let foot = put_all(own, x, foot, column, legend);
        classes(x, foot, column, legend)
    };
    if wide >= MARGIN + 2 * HALF {
        let left = lanes(MARGIN, foot, &mut legend, HALF);
        let right = put_all(&ORDER, MARGIN + HALF, foot, HALF, &mut legend);
        return (legend, left.max(right));
    }
    let foot = lanes(MARGIN, foot, &mut legend, TEXT_WIDE);
    let foot = put_all(&ORDER, MARGIN, foot, TEXT_WIDE, &mut legend);
    (legend, foot)
}

fn put_all(items: &[(Sign, &str)], x: Px, y: Px, wide: Px, legend: &mut Element) -> Px {
    items.iter().fold(y, |foot, (sign, words)| {
        let item = Item { sign: sign(x, foot + 4), words: words.to_string() };
        put(item, (x, foot), wide, legend)
    })
}

fn classes(x: Px, y: Px, wide: Px, legend: &mut Element) -> Px {
    CLASSES.iter().zip(MEANINGS).enumerate().fold(y, |foot, (class, (name, meaning))| {
        let sign = badge(x, foot + 6, class as u8).to_vec();
        put(Item { sign, words: format!("{name}: {meaning}") }, (x, foot), wide, legend)
    })
}

/// A sign with its words beside it; gives back its lower end.
fn put(item: Item, at: (Px, Px), wide: Px, legend: &mut Element) -> Px {
    item.sign.into_iter().for_each(|part| legend.add(part));
    let mut foot = at.1 + 4;
    for line in wrapped(&item.words, PLAIN, wide - WORDS - 24) {
        foot += LINE;
        legend.add(text(at.0 + WORDS, foot, PLAIN, &line));
    }
    foot.max(at.1 + 20) + 4
}

fn runs(x: Px, y: Px) -> Vec<Element> {
    vec![framed(x, y, SIGN, 18, fill(1)), text(x + 5, y + 13, PLAIN, "1:gauge")]
}

fn waits(x: Px, y: Px) -> Vec<Element> {
    vec![framed(x, y, SIGN, 18, WAITING)]
}

fn left(x: Px, y: Px) -> Vec<Element> {
    vec![framed(x, y, SIGN, 18, LEFT)]
}

fn says(x: Px, y: Px) -> Vec<Element> {
    vec![text(x, y + 13, PLAIN, "says ..")]
}

fn done(x: Px, y: Px) -> Vec<Element> {
    vec![line((x + 8, y), (x + 8, y + 18)).with("stroke", INK).with("stroke-width", 3)]
}

fn fixed(x: Px, y: Px) -> Vec<Element> {
    vec![framed(x, y, SIGN, 18, FIXED), text(x + 5, y + 13, PLAIN, "1:gauge")]
}

fn free(x: Px, y: Px) -> Vec<Element> {
    vec![framed(x, y, SIGN, 18, FREE), text(x + 5, y + 13, PLAIN, "3:solve")]
}

fn new(x: Px, y: Px) -> Vec<Element> {
    vec![text(x, y + 13, BOLD, "new")]
}

fn due(x: Px, y: Px) -> Vec<Element> {
    vec![text(x, y + 13, PLAIN, "by 52")]
}

fn base(x: Px, y: Px) -> Vec<Element> {
    [8, 11].map(|shift| line((x, y + shift), (x + SIGN, y + shift)).with("stroke", INK)).to_vec()
}

fn offset(x: Px, y: Px) -> Vec<Element> {
    vec![line((x, y + 9), (x + SIGN, y + 9)).with("stroke", INK).with("stroke-width", 4)]
}
