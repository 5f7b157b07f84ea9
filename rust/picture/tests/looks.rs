//! How every picture looks: it parses, needs nothing beside it, has no text over
//! another and none outside, and long ones are folded and counted right.

mod tree;

use std::collections::BTreeSet;

use picture::fold::Keep;
use picture::text::{width, Face};
use tree::{examples, long_session, packed, parse, printed, read, script, session, session_svg, Tree};

fn pictures() -> Vec<(String, Tree)> {
    let mut pictures = examples();
    pictures.push(("a long session".to_string(), session(&long_session(40))));
    pictures.push(("crowded.drill".to_string(), script(&format!("{TABLE}{CROWDED}"))));
    pictures
}

const TABLE: &str = "table 3 2 ; gate 10 100 100 40 ; gauge 20 200 200 50 ; solve 30 400 400 40\n";

/// Much at one time: steps that are refused again and again, jobs of no length,
/// records that are refused, and times that are none.
const CROWDED: &str = "\
0 finish 0\n0 start 0\n0 start 0\n0 report 0\n0 report 0\n0 start 0\n0 report 281474976710656\n1 start 0\n\
close 0 ; gate 1 ; = - -\nclose 0 ; gauge 0, solve 0 ; = - -\nclose 0 ; ; - - -\n\
0 start 2\n0 start 2\n0 finish 2\n0 start 2\n0 start 2\n0 finish 1\n0 report 4\n0 start 4\n0 finish 4\n";

#[test]
fn the_examples_are_there() {
    let names: Vec<String> = examples().into_iter().map(|(name, _)| name).collect();
    for name in ["full-order.txt", "lesson-1-equal-jobs.drill", "worked-canal.drill", "worked-canal.txt"] {
        assert!(names.contains(&name.to_string()), "{name} is missing from {names:?}");
    }
}

/// Left, right, upper and lower end of a text.
fn bounds(text: &Tree) -> [i64; 4] {
    let face = Face { size: text.number("font-size"), bold: text.get("font-weight") == Some("bold") };
    let (x, y) = (text.number("x"), text.number("y"));
    [x, x + width(&text.text, face), y - face.size * 3 / 4, y + face.size / 5]
}

#[test]
fn no_text_lies_over_another_and_none_outside() {
    for (name, picture) in pictures() {
        let (wide, high) = (picture.number("width"), picture.number("height"));
        let texts: Vec<&Tree> = picture.all().into_iter().filter(|tree| tree.name == "text").collect();
        assert!(texts.len() > 20, "{name}");
        for (index, text) in texts.iter().enumerate() {
            let [left, right, top, foot] = bounds(text);
            assert!(
                0 <= left && right <= wide && 0 <= top && foot <= high,
                "{name}: '{}' is outside",
                text.text
            );
            for other in &texts[index + 1..] {
                let [their_left, their_right, their_top, their_foot] = bounds(other);
                let apart =
                    right <= their_left || their_right <= left || foot <= their_top || their_foot <= top;
                assert!(apart, "{name}: '{}' and '{}'", text.text, other.text);
            }
        }
    }
}

#[test]
fn a_picture_needs_nothing_beside_it() {
    for (name, picture) in pictures() {
        assert_eq!(picture.name, "svg");
        assert_eq!(picture.get("xmlns"), Some("http://www.w3.org/2000/svg"));
        let all = picture.all();
        let ids: BTreeSet<&str> = all.iter().filter_map(|tree| tree.get("id")).collect();
        for tree in &all {
            assert!(!["image", "script", "style", "use", "a"].contains(&tree.name.as_str()), "{name}");
            for (attribute, value) in &tree.attributes {
                assert!(!attribute.contains("href") && !attribute.starts_with("on"), "{name}: {attribute}");
                if let Some(id) = value.strip_prefix("url(#").and_then(|rest| rest.strip_suffix(')')) {
                    assert!(ids.contains(id), "{name}: nothing is called {id}");
                } else {
                    assert!(!value.contains("url("), "{name}: {value}");
                }
            }
        }
    }
}

#[test]
fn every_picture_has_its_legend() {
    for (name, picture) in pictures() {
        let words = picture.groups("legend")[0].words().join(" ");
        for class in
            ["good:", "missing:", "malformed:", "behind:", "over bound:", "late:", "base:", "offset:"]
        {
            assert!(words.contains(class), "{name}: {class}");
        }
        assert_eq!(words.contains("the controller waits"), name.ends_with(".drill"), "{name}");
    }
}

#[test]
fn a_full_order_fits() {
    let text = read("examples/full-order.txt");
    let picture = session(&text);
    assert!(picture.number("width") <= 2000, "{} wide", picture.number("width"));
    assert_eq!(picture.groups("lane").len(), 15);
    let lines = printed(&packed(&text));
    let heads = picture.groups("round");
    let drawn: Vec<&str> = heads.iter().map(|head| head.get("data-line").expect("a line")).collect();
    let (order, rounds) = lines.split_last().expect("an order line");
    assert_eq!(drawn, rounds, "the refused record too");
    assert_eq!(picture.groups("scene")[0].get("data-order"), Some(order.as_str()));
    assert_eq!(order.split(' ').count(), 257);
    let seen: BTreeSet<&str> =
        picture.groups("class").iter().map(|told| told.get("data-class").expect("a class")).collect();
    assert_eq!(seen, BTreeSet::from(["0", "1", "2", "3", "4", "5"]));
}

/// `9` of `9:task 0`, and `11` and `260` of `11 to 260: tasks 2 to 63`.
fn positions(label: &str) -> (u64, u64) {
    let (positions, _) = label.split_once(':').expect("a label");
    let (first, last) = positions.split_once(" to ").unwrap_or((positions, positions));
    (first.parse().expect("a position"), last.parse().expect("a position"))
}

#[test]
fn a_folded_order_leaves_no_position_out() {
    let picture = session(&read("examples/full-order.txt"));
    let orders = picture.groups("order");
    let last = orders.iter().rev().find(|order| !order.groups("job").is_empty()).expect("an order");
    let jobs = last.groups("job");
    assert!(jobs.len() <= 14, "{} rows", jobs.len());
    let mut next = 7;
    for job in &jobs {
        let (first, last) = positions(job.words()[0]);
        assert_eq!(first, next);
        next = last + 1;
    }
    assert_eq!(next, 263);
    let new: u64 = jobs
        .iter()
        .flat_map(|job| job.words())
        .filter_map(|words| words.strip_suffix("new"))
        .map(|count| count.trim().parse().unwrap_or(1))
        .sum();
    assert_eq!(new, 6, "every release of the round is counted");
}

/// Nothing is put in before the end of the fixed part.
#[test]
fn new_jobs_are_never_fixed() {
    let mut new = 0;
    for (name, picture) in pictures() {
        for job in picture.groups("job") {
            let marked = job.words().iter().any(|words| words.ends_with("new"));
            assert!(!marked || job.get("class") == Some("job free"), "{name}: {}", job.words()[0]);
            new += usize::from(marked);
        }
    }
    assert!(new > 50, "only {new} jobs are marked as new");
}

/// `0 good: 28` as class and count.
fn count(words: &str) -> (usize, u64) {
    let (class, rest) = words.split_once(' ').expect("a class");
    (class.parse().expect("a class"), rest.rsplit_once(' ').expect("a count").1.parse().expect("a count"))
}

#[test]
fn folded_rounds_are_counted() {
    let text = long_session(40);
    let lines = printed(&packed(&text));
    let picture = session(&text);
    let drawn: Vec<&str> =
        picture.groups("round").iter().map(|head| head.get("data-line").unwrap()).collect();
    assert_eq!(drawn[..3], lines[..3]);
    assert_eq!(drawn[3..], lines[35..40]);
    let fold = picture.groups("fold");
    assert_eq!(fold.len(), 1);
    assert_eq!(fold[0].words(), ["folded", "32 rounds"]);
    for (node, lane) in picture.groups("lane").iter().enumerate() {
        let mut counted = [0; 6];
        let told = lane.words().into_iter().filter(|words| words.contains(": "));
        told.map(count).for_each(|(class, count)| counted[class] += count);
        let mut expected = [0; 6];
        for line in &lines[3..35] {
            let classes = line.rsplit_once(' ').expect("classes").1;
            expected[classes[node..=node].parse::<usize>().expect("a class")] += 1;
        }
        assert_eq!(counted, expected, "controller {node}");
    }
}

#[test]
fn chosen_rounds_are_drawn_in_full() {
    let text = long_session(40);
    let lines = printed(&packed(&text));
    let picture = parse(&session_svg(&packed(&text), Keep::Numbers(10, 12))).expect("a picture");
    let drawn: Vec<&str> =
        picture.groups("round").iter().map(|head| head.get("data-line").unwrap()).collect();
    assert_eq!(drawn, lines[9..12]);
    let folds: Vec<&str> = picture.groups("fold").iter().map(|fold| fold.words()[1]).collect();
    assert_eq!(folds, ["9 rounds", "28 rounds"]);
}

#[test]
fn a_node_that_is_left_behind_is_marked() {
    let picture = script(&read("examples/task-table.drill"));
    let behind = |lane: &Tree| lane.all().iter().any(|tree| tree.get("fill") == Some("url(#left-behind)"));
    let marked: Vec<bool> = picture.groups("scene")[1].groups("lane").into_iter().map(behind).collect();
    assert_eq!(marked, [false, false, true]);
    let words = picture.groups("scene")[1].groups("lane")[2].words().join(" ");
    assert!(words.contains("is left behind") && words.contains("finish refused 5:"), "{words}");
}

#[test]
fn two_records_for_one_round_are_two_columns() {
    let picture = script(&read("examples/lesson-1-equal-jobs.drill"));
    let scene = picture.groups("scene")[2];
    let heads: Vec<Vec<&str>> = scene.groups("round").iter().map(|head| head.words()).collect();
    assert_eq!(heads[1..], [["round 11", "for 2 alone"], ["round 11", "ends at 13"]]);
    let order = |index: usize| -> Vec<&str> {
        scene.groups("order")[index].groups("job").iter().map(|job| job.words()[0]).collect()
    };
    assert_eq!(order(1), ["1:gauge", "2:solve"]);
    assert_eq!(order(2), ["1:gauge", "2:gate", "3:solve"]);
    assert!(scene.groups("lane")[2].words().contains(&"closed another record"));
}

#[test]
fn refused_steps_and_records_are_told_where_they_stand() {
    let picture = script(&format!(
        "{TABLE}0 finish 1\n0 report 5\n0 start 5\nclose 5 ; solve 1 ; = - -\nclose 5 ; gauge 0 ; = - -\n0 report 9\n0 start 9\n0 report 9\n"
    ));
    let words = picture.groups("lane")[0].words().join("; ");
    for told in [
        "finish refused 10:; nothing runs",
        "start refused 7:; there is no further job",
        "round 9 is open:; 0 done, run 1",
        "report refused 11:; a round is open",
    ] {
        assert!(words.contains(told), "'{told}' is not in '{words}'");
    }
    let heads: Vec<Vec<&str>> = picture.groups("round").iter().map(|head| head.words()).collect();
    assert_eq!(heads, [["refused 15", "record of 5"], ["round 5", "ends at 7"]]);
    assert_eq!(picture.groups("lane")[0].groups("run").len(), 1);
}

/// At the time of a round, what came before a node's report stands left of the
/// round, and what came after it right.
#[test]
fn a_start_at_a_rounds_time_stands_on_its_side_of_the_report() {
    let begin = format!("{TABLE}0 report 0\n1 report 0\nclose 0 ; gauge 0 ; = = -\n");
    let picture =
        script(&format!("{begin}0 start 10\n0 report 10\n1 report 10\n1 start 10\nclose 10 ; ; = = -\n"));
    let column = &picture.groups("round")[1].children[0];
    let starts = |node: usize| picture.groups("lane")[node].groups("run")[0].children[0].number("x");
    assert!(starts(0) < column.number("x"));
    assert!(starts(1) > column.number("x") + column.number("width"));
}

#[test]
fn a_job_that_took_no_time_can_be_seen() {
    let picture = script(&read("examples/lesson-3-a-short-move.drill"));
    for bar in picture.groups("run") {
        assert!(bar.children[0].number("width") > 20, "{}", bar.words()[0]);
    }
}

#[test]
fn tables_that_were_refused_are_noted() {
    let picture = script(&format!("table 3 0 ; 1 1 1 0\n{TABLE}"));
    let words = picture.groups("scene")[0].words().join("; ");
    assert!(words.contains("line 1: table refused 1"), "{words}");
}

/// A script may hold anything that a line can hold; the picture is still one.
#[test]
fn letters_of_xml_do_no_harm() {
    let text = format!("# <b> & \"quotes\" ]]> \u{1} and \u{fc}\n{TABLE}0 report 0\nclose 0 ; ; = - -\n");
    let words = script(&text).groups("scene")[0].words().join("; ");
    assert!(words.contains("<b> & \"quotes\" ]]>"), "{words}");
}

#[test]
fn the_kept_pictures_are_what_is_drawn_now() {
    let canal = tree::script_svg(&read("examples/worked-canal.drill"), Keep::Ends);
    assert!(canal == read("docs/worked-canal.svg"), "run `make picture` for docs/worked-canal.svg");
    let full = session_svg(&packed(&read("examples/full-order.txt")), Keep::Ends);
    assert!(full == read("docs/full-order.svg"), "run `make picture` for docs/full-order.svg");
}
