//! The chapter of docs/GUIDE.md that is made from the refusals, between two
//! marks in the guide's text.

use crate::source::{refusals, Refusal};

/// The line of the guide before the chapter.
pub const BEGIN: &str = "<!-- refusals: written by `make guide` from rust/explain/refusals.txt -->";
/// The line of the guide after it.
pub const END: &str = "<!-- end of the refusals -->";

/// The chapter's text.
pub fn chapter() -> String {
    refusals().iter().map(entry).collect::<Vec<_>>().join("\n")
}

fn entry(refusal: &Refusal) -> String {
    let Refusal { number, name, at, cause, cure, stays } = refusal;
    format!(
        "### {number}: {name}\n\n- met at: {at}\n- cause: {cause}\n- cure: {cure}\n- what stayed: {stays}\n"
    )
}

/// The guide with the chapter as it should stand; or why it has no place for
/// it.
pub fn written(guide: &str) -> Result<String, String> {
    let (before, rest) = parted(guide, BEGIN)?;
    let (_, after) = parted(rest, END)?;
    Ok(format!("{before}{BEGIN}\n\n{}\n{END}\n{after}", chapter()))
}

/// What stands before and after a line that must stand there once.
fn parted<'a>(text: &'a str, mark: &str) -> Result<(&'a str, &'a str), String> {
    let line = format!("{mark}\n");
    match text.matches(&line).count() {
        1 => Ok(text.split_once(&line).expect("it is there")),
        count => Err(format!("the line '{mark}' must stand there once, not {count} times")),
    }
}
