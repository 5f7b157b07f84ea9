//! Whether a reply holds the words that a script expects.

/// The words of a text. Commas, semicolons, brackets and a colon at a word's
/// end are for the eye.
pub(crate) fn words(text: &str) -> impl Iterator<Item = &str> {
    text.split(|letter: char| letter.is_whitespace() || ",;()".contains(letter))
        .map(|word| word.trim_end_matches(':'))
        .filter(|word| !word.is_empty())
}

/// Whether one of the lines holds the wanted words, one after another.
pub(crate) fn holds(lines: &[String], wanted: &str) -> bool {
    let wanted: Vec<&str> = words(wanted).collect();
    lines.iter().any(|line| {
        let line: Vec<&str> = words(line).collect();
        line.windows(wanted.len()).any(|stretch| stretch == wanted)
    })
}
