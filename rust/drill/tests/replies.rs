//! What is asked of the library and how its replies are told.

mod scripts;

use drill::{explain, run, Command, Job, Reply, Short};
use scripts::{after, canal, last, refusals, said, ROUND_0, TABLE};

#[test]
fn a_start_names_the_job_or_says_what_is_missing() {
    assert_eq!(said("0 start 3"), ["at 3: 0 starts task 1 gauge (position 1)"]);
    let events = canal("0 start 3\n0 finish 8\n0 start 11");
    let short = Short {
        job: Job { position: 2, task: 2 },
        projection: 52,
        task: 0,
        earliest: 11,
        slack: 40,
        missing: 1,
        from: Some(12),
    };
    let Reply::Start(Err((refusal, Some(told)))) = &last(&events).reply else { panic!("{events:?}") };
    assert_eq!((refusal.number(), *told), (9, short));
    assert_eq!(
        last(&events).said,
        ["at 11: 0 refused 9: task 0 gate can be released at 11 and bears 40, which is 51; \
          task 2 solve (position 2) is projected at 52: 1 short; as things stand it may start from 12 on"]
    );
    assert_eq!(said("0 start 3\n0 finish 8\n0 start 12"), ["at 12: 0 starts task 2 solve (position 2)"]);
}

/// Two tasks hold the job back, and the one that is named does so for less long.
#[test]
fn the_time_to_start_from_is_good_for_every_task() {
    let table = "table 1 1 ; 5 99 99 50 ; 5 99 99 40 ; 30 400 400 30 ; 30 400 400 0";
    let begun = format!("{table}\n0 report 0\nclose 0 ; 2 0, 3 0 ; =\n0 start 1\n0 finish 1\n");
    let events = run(&format!("{begun}0 start 1")).unwrap();
    let Reply::Start(Err((_, Some(short)))) = &last(&events).reply else { panic!("{events:?}") };
    assert_eq!((short.projection, short.task, short.missing, short.from), (61, 0, 10, Some(21)));
    let refused = run(&format!("{begun}0 start 20")).unwrap();
    assert_eq!(refusals(&last(&refused).reply), [9]);
    let started = run(&format!("{begun}0 start 21")).unwrap();
    assert_eq!(last(&started).said, ["at 21: 0 starts task 3 (position 2)"]);
}

#[test]
fn a_finish_names_the_job_and_a_report_what_is_sent() {
    assert_eq!(said("0 start 3\n0 finish 8"), ["at 8: 0 finishes task 1 gauge (position 1)"]);
    assert_eq!(said("0 start 3\n0 report 8"), ["at 8: 0 reports progress 0, completed 0, run 1; lock 1"]);
}

/// Every refusal of document 01 that a step or a record can meet, by the
/// shortest script. The text is the library wrapper's, and `explain` begins with
/// it too.
#[test]
fn every_refusal_is_told_with_its_number_and_text() {
    let many = "gate 0, ".repeat(65);
    for (number, lines) in [
        (1, "table 16 2 ; 10 100 100 40".to_string()),
        (2, "table 3 2 ; 10 100 100 91".to_string()),
        (3, "0 start 281474976710656".to_string()),
        (4, "0 start 1".to_string()),
        (5, format!("{LEFT_BEHIND}2 start 90")),
        (6, "0 start 3\n0 start 4".to_string()),
        (7, "0 start 3\n0 finish 4\n0 start 12\n0 finish 13\n0 start 14".to_string()),
        (8, "0 start 3\n0 finish 4\n0 report 5\n0 start 12".to_string()),
        (10, "0 finish 3".to_string()),
        (11, "0 report 10\n0 report 11".to_string()),
        (12, "0 report 10\n0 close 11 ; ; 0 0 0, -, -".to_string()),
        (13, "0 report 10\n0 close 10 ; ; - - -".to_string()),
        (14, "close 1 ; ; - - -".to_string()),
        (15, format!("close 10 ; {many} ; - - -")),
        (16, "close 10 ; gauge 0 ; - - -".to_string()),
    ] {
        let events = canal(&lines);
        assert_eq!(refusals(&last(&events).reply), [number], "{lines}");
        let explained = explain(number).unwrap();
        let text = explained.split(" (").next().unwrap();
        assert!(last(&events).said[0].contains(text), "{:?} and not {text}", last(&events).said);
    }
}

/// Node 2 never starts. In round 60 it is late, the others have done two jobs.
const LEFT_BEHIND: &str = "\
0 start 3\n1 start 3\n0 finish 8\n1 finish 9\n0 report 10\n1 report 10\n2 report 10\nclose 10 ; ; = = =\n\
0 start 12\n1 start 12\n0 finish 30\n1 finish 31\n0 report 60\n1 report 60\n2 report 60\nclose 60 ; gate 0 ; = = =\n";

#[test]
fn a_full_order_is_refused_17() {
    let mut script = "table 1 1 ; 1 1 1 0\n".to_string();
    for time in 0..257 {
        script.push_str(&format!("close {time} ; 0 0 ; -\n"));
    }
    let events = run(&script).unwrap();
    let (full, before) = (last(&events), &events[events.len() - 2]);
    assert_eq!((refusals(&before.reply), refusals(&full.reply)), (vec![], vec![17]));
    assert_eq!(after(full), after(before));
    assert!(full.said[0].starts_with("round 256 refused 17: more than 256 jobs would be kept"));
}

#[test]
fn a_close_tells_who_is_left_behind() {
    let events = canal(LEFT_BEHIND);
    assert_eq!(
        last(&events).said,
        ["round 60: classes 0 0 5, back-runner 0, majority; offset 2, base 2, length 3, next start 62; \
          order | 3:gate; closed by 0 1 2; left behind 2"]
    );
    let events = canal(&format!("{LEFT_BEHIND}0 report 70\n1 report 70\nclose 70 ; ; = = -"));
    assert!(last(&events).said[0].ends_with("closed by 0 1; left behind 2"), "{:?}", last(&events).said);
    let node = &canal(&format!("{LEFT_BEHIND}node 2"));
    assert!(last(node).said[0].ends_with("; left behind"), "{:?}", last(node).said);
}

#[test]
fn a_node_that_answers_otherwise_has_a_line_of_its_own() {
    let reported = "0 report 10\n1 report 10\n2 report 10\n";
    let lie = canal(&format!("{reported}close 10 ; gate 0 ; = = 2 10 0"));
    assert_eq!(
        last(&lie).said,
        [
            "round 10: classes 0 0 4, back-runner 0, majority; offset 1, base 0, length 3, next start 2; \
             order 1:gauge | 2:gate 3:solve; closed by 0 1",
            "round 10 by 2 refused 13: the node's own entry is absent or not as sent",
        ]
    );
    let late = canal("0 report 10\n1 report 10\n2 report 11\nclose 10 ; ; = = -");
    assert_eq!(refusals(&last(&late).reply), [12]);
    let other = canal(&format!(
        "{reported}2 close 10 ; ; = = =\nclose 10 ; gate 0 ; = = =\n\
         0 report 20\n1 report 20\n2 report 20\nclose 20 ; ; = = ="
    ));
    assert_eq!(last(&other).said.len(), 2);
    assert!(last(&other).said[0].contains("1:gauge | 2:gate 3:solve; closed by 0 1"));
    assert!(last(&other).said[1].starts_with("round 20 by 2: classes"));
    assert!(last(&other).said[1].contains("order 1:gauge | 2:solve"));
}

#[test]
fn a_node_that_refuses_for_another_reason_says_so() {
    let events = canal("0 report 10\n1 report 10\n2 report 10\nclose 10 ; gauge 0 ; = = 2 10 0");
    assert_eq!(refusals(&last(&events).reply), [16, 16, 16, 13]);
    let said = &last(&events).said;
    assert!(said[0].ends_with("the station and 0 1 are as they stood"), "{said:?}");
    assert_eq!(said[1..], ["round 10 by 2 refused 13: the node's own entry is absent or not as sent"]);
}

/// Node 0 closes alone, with or without the gate move, and starts a second job;
/// then the others do it the other way.
#[test]
fn two_orders_are_told_whichever_node_comes_first() {
    let parted = |first: &str, second: &str| {
        said(&format!(
            "0 start 3\n1 start 3\n0 finish 8\n1 finish 8\n0 report 10\n1 report 10\n\
             0 close 10 ; {first} ; = = -\nclose 10 ; {second} ; = = -\n0 start 12\n1 start 12\nstarted"
        ))[3]
            .clone()
    };
    let gate = "task 0 gate";
    let solve = "task 2 solve";
    assert_eq!(parted("gate 0", ""), format!("two orders: position 2 is {gate} on 0 and {solve} on 1"));
    assert_eq!(parted("", "gate 0"), format!("two orders: position 2 is {solve} on 0 and {gate} on 1"));
    assert_eq!(parted("gate 0", "gate 0"), "one order");
}

#[test]
fn a_refused_record_leaves_the_round_open_for_another() {
    let events =
        canal("0 report 10\n1 report 10\n2 report 10\nclose 10 ; gauge 0 ; = = =\nclose 10 ; gate 0 ; = = =");
    let [.., refused, closed] = &events[..] else { panic!("{events:?}") };
    assert_eq!(refusals(&refused.reply), [16, 16, 16, 16]);
    assert_eq!(
        refused.said,
        ["round 10 refused 16: a release comes before its task's earliest; the station and 0 1 2 are as they stood"]
    );
    assert_eq!(refusals(&closed.reply), []);
    assert!(closed.said[0].ends_with("closed by 0 1 2"));
}

#[test]
fn a_record_of_another_length_is_the_librarys_to_refuse() {
    assert_eq!(refusals(&last(&canal("close 10 ; ; - -")).reply), [15]);
    assert_eq!(refusals(&last(&canal("close 10 ; ; - - - -")).reply), [15]);
    assert_eq!(refusals(&last(&canal("close 10 ; 3 0 ; - - -")).reply), [15]);
    let largest = u64::MAX;
    let lie = canal(&format!("close 10 ; ; {largest} {largest} {largest}, - -"));
    assert!(last(&lie).said[0].starts_with("round 10: classes 2 1 1, no back-runner, no majority;"));
}

#[test]
fn a_table_begins_again_and_a_refused_one_does_not() {
    let refused = canal("0 start 3\ntable 3 2 ; 10 100 100 40 ; 20 200 200 181");
    let [started, table] = &refused[..] else { panic!("{refused:?}") };
    assert_eq!(table.said, ["table refused 2: a table rule is broken (task 1)"]);
    assert_eq!(table.after, started.after);
    let fresh = canal("0 start 3\ntable 2 1 ; 10 100 100 40");
    assert_eq!(last(&fresh).said, ["table: 2 nodes, timeout 1, task 0"]);
    let state = after(last(&fresh));
    assert_eq!((state.seats.len(), state.station.length(), state.seats[0].started.len()), (2, 0, 0));
}

#[test]
fn fifteen_nodes_take_part() {
    let mut script = "table 15 1 ; 1 9 9 0\n".to_string();
    (0..15).for_each(|node| script.push_str(&format!("{node} report 0\n")));
    script.push_str(&format!("close 0 ; 0 0 ; {}\n14 start 1\n", "= ".repeat(15)));
    let events = run(&script).unwrap();
    let [.., closed, started] = &events[..] else { panic!("{events:?}") };
    assert!(closed.said[0].ends_with("closed by 0 1 2 3 4 5 6 7 8 9 10 11 12 13 14"));
    assert_eq!(started.said, ["at 1: 14 starts task 0 (position 1)"]);
}

#[test]
fn the_questions_tell_the_state_and_change_nothing() {
    let lines = "0 start 3\n0 report 10\nshow\nnode 0\norder\nprojection\nstarted\nexplain 9\nhelp";
    let events = canal(lines);
    let said: Vec<&[String]> = events[2..].iter().map(|event| &event.said[..]).collect();
    assert_eq!(
        said[0],
        [
            "station: last round 0; offset 0, base 0, length 2, next start 2; order | 1:gauge 2:solve; \
             earliest gate 0, gauge 200, solve 401",
            "node 0: progress 0, completed 0, runs 1:gauge, latest 10, round 10 open, lock 1; \
             common record as the station's",
            "node 1: progress 0, completed 0, runs nothing, latest 2, no round open; \
             common record as the station's",
            "node 2: progress 0, completed 0, runs nothing, latest 2, no round open; \
             common record as the station's",
        ]
    );
    assert_eq!(said[1], [said[0][1].as_str()]);
    assert_eq!(said[2], ["order | 1:gauge 2:solve"]);
    assert_eq!(said[3], ["projection base 0 at 2, 1:gauge at 22, 2:solve at 52"]);
    assert_eq!(
        said[4],
        ["0 has started 1:gauge", "1 has started nothing", "2 has started nothing", "one order"]
    );
    assert_eq!(said[5], explain(9).unwrap().lines().collect::<Vec<_>>());
    assert_eq!(said[6].join("\n") + "\n", drill::COMMANDS);
    assert!(events[2..].iter().all(|event| event.reply == Reply::Question && event.after == events[1].after));
}

#[test]
fn a_node_with_another_record_shows_it() {
    let events = canal("0 report 10\n0 close 10 ; gate 0 ; = - -\nnode 0\norder");
    let [.., node, order] = &events[..] else { panic!("{events:?}") };
    assert!(
        node.said[0].ends_with("length 3, next start 2; order 1:gauge | 2:gate 3:solve"),
        "{:?}",
        node.said
    );
    assert_eq!(order.said, ["order | 1:gauge 2:solve"]);
}

#[test]
fn an_event_holds_the_line_the_command_and_the_state_after() {
    let events = run(&format!("# canal\n{TABLE}\n{ROUND_0}\n\n1 start 3 # gauge")).unwrap();
    let event = last(&events);
    assert_eq!((event.line, event.typed.as_str()), (8, "1 start 3 # gauge"));
    assert_eq!(event.command, Command::Start { node: 1, time: 3 });
    assert_eq!(event.reply, Reply::Start(Ok(Job { position: 1, task: 1 })));
    let before = after(&events[events.len() - 2]);
    assert!(after(event).seats[1].node.running() && !before.seats[1].node.running());
    assert_eq!((&after(event).seats[0], &after(event).station), (&before.seats[0], &before.station));
}

#[test]
fn explain_gives_the_four_lines() {
    let lines = said("explain 9");
    assert_eq!(lines.join("\n"), explain(9).unwrap());
    let labels: Vec<&str> = lines.iter().map(|line| line.split(':').next().unwrap()).collect();
    assert_eq!(labels, ["refused 9", "cause", "cure", "stays"]);
}

#[test]
fn every_refusal_has_a_text_and_nothing_else_has() {
    let known: Vec<u64> = (0..1000).filter(|&number| explain(number).is_some()).collect();
    assert_eq!(known, (1..=22).chain(100..=104).collect::<Vec<u64>>());
}
