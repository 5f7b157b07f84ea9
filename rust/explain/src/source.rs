//! refusals.txt, read as blocks.

/// The text, as it stood when this crate was built.
const SOURCE: &str = include_str!("../refusals.txt");

/// One refusal in the words of the field.
#[derive(Clone, Copy, Debug, PartialEq, Eq)]
pub struct Refusal {
    /// Document 01's 1 to 22, or the library's own 100 to 104.
    pub number: u64,
    /// In one line.
    pub name: &'static str,
    /// The calls that give it.
    pub at: &'static str,
    /// What has happened.
    pub cause: &'static str,
    /// What to do about it.
    pub cure: &'static str,
    /// What is as it was before.
    pub stays: &'static str,
}

/// All refusals, by growing number.
pub fn refusals() -> Vec<Refusal> {
    let told = |line: &&str| !line.starts_with('#');
    let lines: Vec<&'static str> = SOURCE.lines().filter(told).collect();
    lines.split(|line| line.is_empty()).filter(|block| !block.is_empty()).map(refusal).collect()
}

/// A block of five lines. The text is a part of the program, so one that is
/// written otherwise stops it; the tests read all of it.
fn refusal(block: &[&'static str]) -> Refusal {
    let [head, at, cause, cure, stays] = *block else { panic!("not five lines: {block:?}") };
    let (number, name) = head.split_once(' ').expect("a number and a name");
    Refusal {
        number: number.parse().expect("a refusal's number"),
        name,
        at: field(at, "at: "),
        cause: field(cause, "cause: "),
        cure: field(cure, "cure: "),
        stays: field(stays, "stays: "),
    }
}

fn field(line: &'static str, label: &str) -> &'static str {
    line.strip_prefix(label).unwrap_or_else(|| panic!("no '{label}' before '{line}'"))
}
