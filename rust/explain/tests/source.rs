//! The source of the explanations against what it stands for: every number has
//! a block, its name is the library's text, and it fits in four lines.

use std::fs;
use std::path::Path;

use explain::{explain, refusals};

fn read(path: &str) -> String {
    let path = Path::new(env!("CARGO_MANIFEST_DIR")).join(path);
    fs::read_to_string(&path).unwrap_or_else(|error| panic!("{}: {error}", path.display()))
}

#[test]
fn every_number_has_a_block_and_no_other_has() {
    let numbers: Vec<u64> = refusals().iter().map(|refusal| refusal.number).collect();
    let all: Vec<u64> = (1..=22).chain(100..=104).collect();
    assert_eq!(numbers, all);
    assert_eq!([0, 23, 99, 105].map(explain), [None, None, None, None]);
}

/// The numbers of the header's own refusals are those explained here.
#[test]
fn the_librarys_own_are_the_headers() {
    let header = read("../../include/cabinet.h");
    let own: Vec<u64> = header
        .lines()
        .skip_while(|line| !line.contains("Refusals of the doors themselves"))
        .filter_map(|line| line.strip_prefix("#define CABINET_")?.split_whitespace().nth(1)?.parse().ok())
        .take_while(|&number| number >= 100)
        .collect();
    let explained: Vec<u64> = refusals().iter().map(|refusal| refusal.number).filter(|n| *n >= 100).collect();
    assert_eq!(own, explained);
}

/// What the Rust wrapper prints with a refusal is the name given here, so that
/// a log and an explanation use the same words.
#[test]
fn the_names_are_the_wrappers() {
    let wrapper = read("../cabinet/src/refusal.rs");
    for refusal in refusals() {
        let line = format!("            {} => \"{}\",\n", refusal.number, refusal.name);
        assert!(wrapper.contains(&line), "the wrapper has another text than {line}");
    }
}

#[test]
fn an_explanation_has_four_lines_that_a_terminal_can_show() {
    for refusal in refusals() {
        let text = explain(refusal.number).expect("a number of the source");
        assert_eq!(text.lines().count(), 4, "{text}");
        for line in text.lines() {
            assert!(line.len() <= 110, "{} letters: {line}", line.len());
            assert!(!line.ends_with([' ', '.']) && line.is_ascii(), "{line}");
        }
    }
}

#[test]
fn the_lines_say_which_is_which() {
    let text = explain(7).expect("a refusal");
    assert_eq!(
        text,
        "refused 7: there is no further job (start)\n\
         cause: this controller has finished every job of the order\n\
         cure: nothing is wrong: ask again after a round that releases a job\n\
         stays: the controller is idle and up to date"
    );
}
