//! What each refusal number means to those who have the number and a log: its
//! cause, its cure, and what stayed as it was.
//!
//! The words stand in refusals.txt and nowhere else. `explain` prints them, and
//! `guide` makes the chapter of docs/GUIDE.md from them.

#![forbid(unsafe_code)]
#![warn(missing_docs)]

pub mod guide;
mod source;

pub use source::{refusals, Refusal};

impl Refusal {
    /// The four lines: the refusal, its cause, its cure, what stayed.
    pub fn lines(&self) -> [String; 4] {
        [
            format!("refused {}: {} ({})", self.number, self.name, self.at),
            format!("cause: {}", self.cause),
            format!("cure: {}", self.cure),
            format!("stays: {}", self.stays),
        ]
    }
}

/// The four lines for a number; none where no refusal has it.
pub fn explain(number: u64) -> Option<String> {
    let refusal = refusals().into_iter().find(|refusal| refusal.number == number)?;
    Some(refusal.lines().join("\n"))
}
