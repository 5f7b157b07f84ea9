//! The worked canal's picture: lanes, rounds, classes, order and waiting as they
//! must be, and every number as the session program prints it.

mod tree;

use tree::{packed, printed, read, script, session, Tree};

/// The numbers of a line `round 10 ipo 1 base 0 length 3 toc 2 nodes 004`.
struct Line {
    r: String,
    ipo: String,
    base: String,
    length: String,
    toc: String,
    nodes: String,
}

fn line(text: &str) -> Line {
    let words: Vec<String> = text.split(' ').map(str::to_string).collect();
    let [_, r, _, ipo, _, base, _, length, _, toc, _, nodes] = &words[..] else { panic!("no round: {text}") };
    let all = [r, ipo, base, length, toc, nodes].map(String::clone);
    let [r, ipo, base, length, toc, nodes] = all;
    Line { r, ipo, base, length, toc, nodes }
}

/// Every drawn number of a picture against the lines of the session program.
fn agrees(picture: &Tree, lines: &[String]) {
    let (order, rounds) = lines.split_last().expect("an order line");
    let scenes = picture.groups("scene");
    assert_eq!(scenes.len(), 1);
    assert_eq!(scenes[0].get("data-order"), Some(order.as_str()));
    let (heads, sets) = (picture.groups("round"), picture.groups("set"));
    assert_eq!((heads.len(), sets.len()), (rounds.len(), rounds.len()));
    for (index, text) in rounds.iter().enumerate() {
        assert_eq!(heads[index].get("data-line"), Some(text.as_str()));
        let line = line(text);
        assert_eq!(heads[index].words()[0], format!("round {}", line.r));
        let set = sets[index].words();
        assert_eq!(set[0], format!("offset {}, base {}", line.ipo, line.base));
        assert_eq!(set[1], format!("length {}", line.length));
        assert_eq!(set[2], format!("next start {}", line.toc));
        for (lane, digit) in picture.groups("lane").iter().zip(line.nodes.chars()) {
            let told = lane.groups("class")[index];
            assert_eq!(told.get("data-class"), Some(digit.to_string().as_str()), "{text}");
            assert_eq!(told.words()[0], digit.to_string(), "{text}");
        }
    }
}

fn lines() -> Vec<String> {
    printed(&packed(&read("examples/worked-canal.txt")))
}

#[test]
fn the_sessions_picture_has_the_numbers_of_the_session_program() {
    let lines = lines();
    assert_eq!(lines[1], "round 10 ipo 1 base 0 length 3 toc 2 nodes 004");
    agrees(&session(&read("examples/worked-canal.txt")), &lines);
}

#[test]
fn the_drills_picture_has_the_same_numbers() {
    agrees(&script(&read("examples/worked-canal.drill")), &lines());
}

/// The comparison above is one that can fail.
#[test]
#[should_panic(expected = "round 10 ipo 2")]
fn a_number_that_differs_is_found() {
    let mut lines = lines();
    lines[1] = lines[1].replace("ipo 1", "ipo 2");
    agrees(&session(&read("examples/worked-canal.txt")), &lines);
}

#[test]
fn there_is_a_lane_for_each_controller_with_a_class_in_each_round() {
    for picture in [session(&read("examples/worked-canal.txt")), script(&read("examples/worked-canal.drill"))]
    {
        let lanes = picture.groups("lane");
        let names: Vec<&str> = lanes.iter().map(|lane| lane.words()[0]).collect();
        assert_eq!(names, ["controller 0", "controller 1", "controller 2"]);
        let classes: Vec<Vec<&str>> = lanes
            .iter()
            .map(|lane| lane.groups("class").iter().map(|told| told.words()[1]).collect())
            .collect();
        assert_eq!(
            classes,
            [vec!["good"; 3], vec!["good"; 3], vec!["good", "over bound", "missing"]],
            "each class has its name"
        );
    }
}

#[test]
fn the_reports_are_told_and_why_one_is_not_believed() {
    let picture = script(&read("examples/worked-canal.drill"));
    let lanes = picture.groups("lane");
    assert!(lanes[0].words().contains(&"1 done at 8, run 0"));
    assert!(lanes[1].words().contains(&"0 done, run 1"));
    assert!(lanes[2].words().contains(&"says 2 done at 10, run 0"));
    assert!(lanes[2].words().contains(&"2:solve is 2 short for gate"), "{:?}", lanes[2].words());
}

/// Label, whether it is fixed, and the mark left of it.
fn rows<'a>(order: &'a Tree) -> Vec<(&'a str, bool, bool)> {
    let row = |row: &&'a Tree| {
        let words = row.words();
        (words[0], row.get("class") == Some("job fixed"), words.contains(&"new"))
    };
    order.groups("job").iter().map(row).collect()
}

#[test]
fn the_order_grows_with_its_fixed_part_and_new_jobs_where_they_were_put_in() {
    let picture = script(&read("examples/worked-canal.drill"));
    let orders = picture.groups("order");
    assert_eq!(rows(orders[0]), [("1:gauge", false, true), ("2:solve", false, true)]);
    assert_eq!(
        rows(orders[1]),
        [("1:gauge", true, false), ("2:gate", false, true), ("3:solve", false, false)]
    );
    assert_eq!(rows(orders[2]), [("4:gate", false, true)]);
    assert!(orders[2].words().contains(&"1 to 3 finished"));
    let due: Vec<&str> = orders[0].groups("job").iter().map(|row| row.words()[1]).collect();
    assert_eq!(due, ["by 22", "by 52"]);
}

#[test]
fn a_wait_shows_the_task_and_how_much_is_missing() {
    let picture = script(&read("examples/worked-canal.drill"));
    let lanes = picture.groups("lane");
    assert_eq!(lanes.iter().map(|lane| lane.groups("wait").len()).collect::<Vec<_>>(), [1, 0, 0]);
    let words = lanes[0].words();
    for line in ["refused 9: 3 short", "2:solve may last to 52,", "gate bears 9 + 40 = 49"] {
        assert!(words.contains(&line), "'{line}' is not in {words:?}");
    }
}

#[test]
fn each_lane_has_what_the_controller_ran() {
    let picture = script(&read("examples/worked-canal.drill"));
    let ran: Vec<Vec<&str>> = picture
        .groups("lane")
        .iter()
        .map(|lane| lane.groups("run").iter().map(|bar| bar.words()[0]).collect())
        .collect();
    let all = vec!["1:gauge", "2:gate", "3:solve", "4:gate"];
    assert_eq!(ran, [all.clone(), all, vec![]]);
}

/// The wait lasts from the refused start to the next start, and every bar lies
/// where its times stand on the axis.
#[test]
fn bars_lie_between_their_times() {
    let picture = script(&read("examples/worked-canal.drill"));
    let times = picture.all().into_iter().filter(|tree| tree.get("class") == Some("time"));
    let times: Vec<(i64, i64)> = times.map(|time| (time.text.parse().unwrap(), time.number("x"))).collect();
    let x = |time: i64| times.iter().find(|(other, _)| *other == time).expect("a time on the axis").1;
    let bars = |lane: usize, class: &str| -> Vec<(i64, i64)> {
        let lane = picture.groups("lane")[lane];
        let frame = |bar: &&Tree| (bar.children[0].number("x"), bar.children[0].number("width"));
        lane.groups(class).iter().map(frame).map(|(left, wide)| (left, left + wide)).collect()
    };
    assert_eq!(bars(0, "wait"), [(x(9), x(12))]);
    assert_eq!(bars(0, "run")[..3], [(x(3), x(8)), (x(12), x(20)), (x(20), x(45))]);
    assert_eq!(bars(1, "run")[..3], [(x(5), x(25)), (x(25), x(34)), (x(34), x(60))]);
}

#[test]
fn time_runs_from_left_to_right() {
    for picture in [session(&read("examples/worked-canal.txt")), script(&read("examples/worked-canal.drill"))]
    {
        let head = |round: &Tree| {
            let time = round.words()[0].strip_prefix("round ").expect("a round").parse().unwrap();
            (round.children[0].number("x"), time)
        };
        let moment = |tree: &Tree| (tree.number("x"), tree.text.parse::<u64>().unwrap());
        let moments = picture.all().into_iter().filter(|tree| tree.get("class") == Some("time")).map(moment);
        let mut places: Vec<(i64, u64)> =
            picture.groups("round").into_iter().map(head).chain(moments).collect();
        places.sort_unstable();
        assert!(places.len() >= 3 && places.windows(2).all(|pair| pair[0].1 <= pair[1].1), "{places:?}");
    }
}
