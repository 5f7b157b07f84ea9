//! A story as one SVG: the scenes below each other, and the legend.

use crate::legend;
use crate::scene;
use crate::story::Story;
use crate::style::{patterns, INK};
use crate::svg::{rect, Element, Px};
use crate::text::FAMILY;

/// Round the whole picture.
pub const MARGIN: Px = 16;
/// Captions and legend are broken at this width.
pub const TEXT_WIDE: Px = 900;
/// Between two scenes.
const BETWEEN: Px = 28;

/// The picture.
pub fn draw(story: &Story) -> String {
    let mut parts = Vec::new();
    let mut right = MARGIN + TEXT_WIDE;
    let mut y = MARGIN;
    for (index, scene) in story.scenes.iter().enumerate() {
        let number = (story.scenes.len() > 1).then_some((index + 1, story.scenes.len()));
        let drawn = scene::draw(scene, number, y);
        right = right.max(drawn.right);
        y = drawn.bottom + BETWEEN;
        parts.push(drawn.element);
    }
    let (legend, bottom) = legend::draw(story.source, y, right);
    parts.push(legend);
    let (wide, high) = (right + MARGIN, bottom + MARGIN);
    let mut top = Element::new("svg")
        .with("xmlns", "http://www.w3.org/2000/svg")
        .with("width", wide)
        .with("height", high)
        .with("viewBox", format!("0 0 {wide} {high}"))
        .with("font-family", FAMILY)
        .with("fill", INK);
    top.add(Element::new("title").saying("One order for every controller in the cabinet"));
    top.add(patterns());
    top.add(rect(0, 0, wide, high).with("fill", "#ffffff"));
    parts.into_iter().for_each(|part| top.add(part));
    top.written()
}
