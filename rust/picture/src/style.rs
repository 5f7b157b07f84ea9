//! How things look. Nothing is told by colour alone: jobs carry their names,
//! classes their numbers, and what waits or is left behind is hatched, so that
//! the picture survives a printer without colours.

use crate::svg::{centred, line, rect, Element, Px};
use crate::text::{Face, BOLD};

/// Text and frames.
pub const INK: &str = "#111111";
/// Lines that only guide the eye.
pub const FAINT: &str = "#d4d4d4";
/// Behind a round.
pub const BAND: &str = "#f1f1f1";
/// A job that is fixed.
pub const FIXED: &str = "#c8c8c8";
/// A job that is not.
pub const FREE: &str = "#ffffff";

/// Jobs of neighbouring tasks differ in lightness too.
const TASKS: [&str; 6] = ["#e8a87c", "#bfe0f2", "#fff2c4", "#c9b3e6", "#cdebb5", "#f7f7f7"];

/// The fill of a task's jobs.
pub fn fill(task: u64) -> &'static str {
    TASKS[(task % TASKS.len() as u64) as usize]
}

/// A framed rectangle.
pub fn framed(x: Px, y: Px, wide: Px, high: Px, fill: &str) -> Element {
    rect(x, y, wide, high).with("fill", fill).with("stroke", INK)
}

/// A line that only guides the eye.
pub fn faint(from: (Px, Px), to: (Px, Px)) -> Element {
    line(from, to).with("stroke", FAINT)
}

/// The fill of a node that waits.
pub const WAITING: &str = "url(#waiting)";
/// The fill of a node that is left behind.
pub const LEFT: &str = "url(#left-behind)";

/// The hatchings.
pub fn patterns() -> Element {
    let pattern = |id: &str, path: &str| {
        let mut pattern = Element::new("pattern")
            .with("id", id)
            .with("patternUnits", "userSpaceOnUse")
            .with("width", 6)
            .with("height", 6);
        pattern.add(Element::new("path").with("d", path).with("stroke", INK).with("fill", "none"));
        pattern
    };
    let mut defs = Element::new("defs");
    defs.add(pattern("waiting", "M-1 1L1 -1M0 6L6 0M5 7L7 5"));
    defs.add(pattern("left-behind", "M0 6L6 0M0 0L6 6"));
    defs
}

/// Size of a badge.
pub const BADGE: (Px, Px) = (16, 15);

/// The number of a class: good is white, late grey, missing dashed, and what
/// is not believed black.
pub fn badge(x: Px, y: Px, class: u8) -> [Element; 2] {
    let (fill, ink) = match class {
        0 | 1 => ("#ffffff", INK),
        5 => ("#b5b5b5", INK),
        _ => (INK, "#ffffff"),
    };
    let mut frame = framed(x, y, BADGE.0, BADGE.1, fill).with("rx", 3);
    if class == 1 {
        frame = frame.with("stroke-dasharray", "3 2");
    }
    let face = Face { size: 11, ..BOLD };
    let number = centred(x + BADGE.0 / 2, y + 12, face, &class.to_string()).with("fill", ink);
    [frame, number]
}
