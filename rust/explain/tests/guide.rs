//! docs/GUIDE.md against what it is made from and what it quotes: the chapter
//! on refusals is the source's, and every quoted line stands in the examples,
//! whose outputs the drill's own tests compare with what it prints.

use std::collections::BTreeSet;
use std::fs;
use std::path::Path;

use explain::{guide, refusals};

fn read(path: &str) -> String {
    let path = Path::new(env!("CARGO_MANIFEST_DIR")).join("../..").join(path);
    fs::read_to_string(&path).unwrap_or_else(|error| panic!("{}: {error}", path.display()))
}

#[test]
fn the_chapter_on_refusals_is_the_source() {
    let text = read("docs/GUIDE.md");
    assert_eq!(guide::written(&text).as_deref(), Ok(&*text), "run `make guide`");
}

/// A quoted block: the example that it is taken from, and its lines.
struct Quote<'a> {
    of: &'a str,
    lines: Vec<&'a str>,
}

fn quotes(text: &str) -> Vec<Quote<'_>> {
    let mut quotes = Vec::new();
    let mut lines = text.lines();
    while let Some(line) = lines.next() {
        if let Some(of) = line.strip_prefix("```") {
            quotes.push(Quote { of, lines: lines.by_ref().take_while(|line| *line != "```").collect() });
        }
    }
    quotes
}

/// Whether the lines stand in the text, in this order.
fn stand_in<'a>(text: &str, lines: impl Iterator<Item = &'a str>) -> Result<(), String> {
    let mut rest = text.lines();
    for line in lines {
        if !rest.any(|other| other == line) {
            return Err(line.to_string());
        }
    }
    Ok(())
}

/// A block called after a script has its commands, and its replies indented.
fn quoted(quote: &Quote) -> Result<(), String> {
    let example = |extension| read(&format!("examples/{}.{extension}", quote.of));
    if quote.of.ends_with(".txt") {
        return stand_in(&read(&format!("examples/{}", quote.of)), quote.lines.iter().copied());
    }
    let replies = quote.lines.iter().filter_map(|line| line.strip_prefix("    "));
    let commands = quote.lines.iter().copied().filter(|line| !line.starts_with(' '));
    stand_in(&example("out"), replies).and(stand_in(&example("drill"), commands))
}

#[test]
fn every_quoted_line_stands_in_the_examples() {
    let text = read("docs/GUIDE.md");
    let quotes = quotes(&text);
    for quote in &quotes {
        assert!(!quote.lines.is_empty());
        assert_eq!(quoted(quote), Ok(()), "this line does not stand in examples/{}", quote.of);
    }
    let quoted: BTreeSet<&str> = quotes.iter().map(|quote| quote.of).collect();
    for lesson in ["lesson-1-equal-jobs", "lesson-2-the-bound", "lesson-3-a-short-move", "worked-canal"] {
        assert!(quoted.contains(lesson), "nothing is quoted from {lesson}");
    }
}

#[test]
fn a_line_that_stands_nowhere_is_found() {
    let wrong = |of, lines| quoted(&Quote { of, lines });
    assert_eq!(wrong("worked-canal", vec!["0 start 4"]), Err("0 start 4".to_string()));
    let reply = "    at 4: 0 starts task 1 gauge (position 1)";
    assert_eq!(wrong("worked-canal", vec!["0 start 3", reply]), Err(reply.trim().to_string()));
    assert_eq!(wrong("worked-canal", vec!["1 start 5", "0 start 3"]), Err("0 start 3".to_string()));
}

/// The lines of the table whose head begins with these words.
fn table<'a>(text: &'a str, head: &str) -> Vec<Vec<&'a str>> {
    let rows = text.lines().skip_while(|line| !line.starts_with(head)).skip(2);
    let cells = |row: &'a str| row.trim_matches('|').split('|').map(str::trim).collect();
    rows.take_while(|line| line.starts_with('|')).map(cells).collect()
}

/// "First look at which kind it is": each number has one row.
#[test]
fn the_kinds_have_every_refusal_once() {
    let text = read("docs/GUIDE.md");
    let mut numbers: Vec<u64> = table(&text, "| numbers | kind |")
        .iter()
        .flat_map(|row| row[0].split(", "))
        .map(|number| number.parse().expect("a number"))
        .collect();
    numbers.sort_unstable();
    assert_eq!(numbers, refusals().iter().map(|refusal| refusal.number).collect::<Vec<_>>());
}

#[test]
fn the_contents_are_the_chapters() {
    let text = read("docs/GUIDE.md");
    let chapters: Vec<&str> = text.lines().filter_map(|line| line.strip_prefix("## ")).collect();
    let anchor = |chapter: &str| {
        let letters = chapter.to_lowercase().replace(' ', "-");
        letters.chars().filter(|letter| letter.is_alphanumeric() || *letter == '-').collect::<String>()
    };
    let contents: Vec<String> = chapters
        .iter()
        .map(|chapter| {
            let (number, name) = chapter.split_once(' ').expect("a numbered chapter");
            format!("{number} [{name}](#{})", anchor(chapter))
        })
        .collect();
    let listed: Vec<&str> = text.lines().filter(|line| line.contains("](#")).collect();
    assert_eq!(listed, contents);
}
