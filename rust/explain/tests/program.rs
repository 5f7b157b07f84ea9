//! The program `explain`: what it prints, and with which exit status.

use std::fs;
use std::path::Path;
use std::process::{Command, Output};

fn explain(words: &[&str]) -> Output {
    Command::new(env!("CARGO_BIN_EXE_explain")).args(words).output().expect("explain runs")
}

fn text(bytes: Vec<u8>) -> String {
    String::from_utf8(bytes).expect("text")
}

#[test]
fn a_number_gives_its_four_lines() {
    let output = explain(&["9"]);
    assert!(output.status.success());
    assert_eq!(text(output.stdout), explain::explain(9).expect("a refusal") + "\n");
}

#[test]
fn several_numbers_are_parted_by_a_blank_line() {
    let output = text(explain(&["7", "104"]).stdout);
    let blocks: Vec<&str> = output.trim_end().split("\n\n").collect();
    assert_eq!(blocks, [7, 104].map(|number| explain::explain(number).expect("a refusal")));
}

#[test]
fn all_and_list_have_every_number() {
    let all = text(explain(&["--all"]).stdout);
    let list = text(explain(&["--list"]).stdout);
    for refusal in explain::refusals() {
        assert!(all.contains(&refusal.lines().join("\n")));
        assert!(list.contains(&format!("{:>3}  {}\n", refusal.number, refusal.name)));
    }
    assert_eq!(all.lines().count(), 27 * 5 - 1);
    assert_eq!(list.lines().count(), 27);
}

#[test]
fn what_is_no_refusal_is_told_with_a_status() {
    let told = |words: &[&str]| {
        let output = explain(words);
        assert!(output.stdout.is_empty());
        (output.status.code(), text(output.stderr))
    };
    let (status, message) = told(&["23"]);
    assert_eq!(status, Some(1));
    assert!(message.contains("no refusal has the number 23"), "{message}");
    let (status, message) = told(&["9", "nine"]);
    assert_eq!(status, Some(2));
    assert!(message.contains("'nine' is no number"), "{message}");
    assert_eq!(told(&[]).0, Some(2));
}

/// In a folder of its own under cargo's.
fn file(name: &str, content: &str) -> String {
    let path = Path::new(env!("CARGO_TARGET_TMPDIR")).join(name);
    fs::write(&path, content).expect("the tests' folder can be written");
    path.to_string_lossy().into_owned()
}

#[test]
fn the_chapter_is_written_between_its_marks_and_nowhere_else() {
    let marks = format!("{}\nold words\n{}\n", explain::guide::BEGIN, explain::guide::END);
    let path = file("guide.md", &format!("# Guide\n{marks}the end\n"));
    assert!(explain(&["--guide", &path]).status.success());
    let written = fs::read_to_string(&path).expect("the guide");
    assert!(written.starts_with("# Guide\n") && written.ends_with("\nthe end\n"));
    assert!(written.contains(&explain::guide::chapter()) && !written.contains("old words"));
    assert_eq!(explain::guide::written(&written), Ok(written.clone()), "writing again changes nothing");
}

#[test]
fn a_guide_without_its_marks_is_left_alone() {
    let path = file("no-marks.md", "# Guide\n");
    let output = explain(&["--guide", &path]);
    assert_eq!(output.status.code(), Some(2));
    assert!(text(output.stderr).contains("must stand there once, not 0 times"));
    assert_eq!(fs::read_to_string(&path).expect("the guide"), "# Guide\n");
}
