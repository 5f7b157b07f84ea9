//! The ready scripts: each prints what is kept beside it, each expectation in
//! them can fail, and the worked canal is document 01's.

mod scripts;

use std::process::Command as Program;

use drill::{run, Command, Event, Reply, Trouble};
use scripts::{after, all, examples, last, read, refusals, refused_by_all};

#[test]
fn the_lessons_and_the_worked_canal_are_there() {
    let names: Vec<String> =
        all().iter().map(|path| path.file_stem().unwrap().to_string_lossy().into_owned()).collect();
    for name in ["lesson-1-equal-jobs", "lesson-2-the-bound", "lesson-3-a-short-move", "worked-canal"] {
        assert!(names.contains(&name.to_string()), "{name} is missing from {names:?}");
    }
}

#[test]
fn each_script_prints_what_is_kept_beside_it() {
    for script in all() {
        let ended = Program::new(env!("CARGO_BIN_EXE_drill")).arg(&script).output().unwrap();
        let (printed, told) = (String::from_utf8(ended.stdout), String::from_utf8(ended.stderr));
        assert_eq!((ended.status.code(), told.as_deref()), (Some(0), Ok("")), "{}", script.display());
        assert_eq!(printed.unwrap(), read(&script.with_extension("out")), "{}", script.display());
    }
}

#[test]
fn the_events_of_a_script_say_what_the_program_prints() {
    for script in all() {
        let events = run(&read(&script)).unwrap();
        let said: String =
            events.iter().flat_map(|event| &event.said).map(|line| format!("{line}\n")).collect();
        assert_eq!(said, read(&script.with_extension("out")), "{}", script.display());
    }
}

/// An expectation with its last digit changed, or with a word more.
fn changed(line: &str) -> String {
    match line.rfind(|letter: char| letter.is_ascii_digit()) {
        Some(place) => {
            let other = if &line[place..=place] == "7" { "8" } else { "7" };
            format!("{}{other}{}", &line[..place], &line[place + 1..])
        }
        None => format!("{line} otherwise"),
    }
}

#[test]
fn each_expectation_can_fail() {
    for script in all() {
        let text = read(&script);
        let lines: Vec<&str> = text.lines().collect();
        let expectations: Vec<usize> =
            (0..lines.len()).filter(|&place| lines[place].starts_with("expect ")).collect();
        assert!(expectations.len() >= 5, "{} expects too little", script.display());
        for place in expectations {
            let wrong = changed(lines[place]);
            let mut other = lines.clone();
            other[place] = &wrong;
            match run(&other.join("\n")) {
                Err(Trouble::Unmet { line, .. }) => assert_eq!(line, place + 1, "{wrong}"),
                ended => panic!("{}: '{wrong}' gave {ended:?}", script.display()),
            }
        }
    }
}

#[test]
fn a_refusal_leaves_the_cabinet_as_it_stood() {
    let mut seen = 0;
    for script in all() {
        let events = run(&read(&script)).unwrap();
        for pair in events.windows(2).filter(|pair| refused_by_all(&pair[1].reply)) {
            assert_eq!(pair[0].after, pair[1].after, "{}: {}", script.display(), pair[1].typed);
            seen += 1;
        }
    }
    assert!(seen >= 8, "only {seen} refusals in the scripts");
}

/// What the session program prints for a closed round.
fn round_line(event: &Event) -> Option<String> {
    let Reply::Close(close) = &event.reply else { return None };
    let told = close.station.as_ref()?.as_ref().ok()?;
    let common = &after(event).station;
    let classes: String = told.classes[..close.record.entries.len()].iter().map(u8::to_string).collect();
    Some(format!(
        "round {} ipo {} base {} length {} toc {} nodes {classes}",
        close.record.time,
        common.offset(),
        common.base(),
        common.length(),
        common.next_start()
    ))
}

#[test]
fn the_worked_canal_gives_document_01s_lines() {
    let events = run(&read(&examples().join("worked-canal.drill"))).unwrap();
    let lines: Vec<String> = events.iter().filter_map(round_line).collect();
    assert_eq!(
        lines,
        [
            "round 0 ipo 0 base 0 length 2 toc 2 nodes 000",
            "round 10 ipo 1 base 0 length 3 toc 2 nodes 004",
            "round 120 ipo 3 base 3 length 4 toc 122 nodes 001",
        ]
    );
    let station = &after(last(&events)).station;
    assert_eq!((station.base(), station.order()), (3, &[0][..]));
}

/// A session's numbers as `pack` takes them, from the table and the records.
fn numbers(events: &[Event]) -> Vec<u64> {
    let mut numbers = Vec::new();
    for event in events {
        match (&event.command, &event.reply) {
            (Command::Table { nodes, timeout, tasks }, _) => {
                numbers.extend([*nodes, *timeout, tasks.len() as u64]);
                numbers.extend(tasks.iter().flat_map(|(_, task)| [task.c, task.t, task.d, task.s]));
            }
            (_, Reply::Close(close)) => {
                let record = &close.record;
                numbers.extend([record.time, record.releases.len() as u64]);
                numbers.extend(record.releases.iter().flat_map(|release| [release.task, release.delay]));
                numbers.push(record.entries.len() as u64);
                numbers.extend(record.entries.iter().flat_map(|entry| match entry {
                    Some(report) => vec![1, report.progress, report.completed, report.run],
                    None => vec![0],
                }));
            }
            _ => {}
        }
    }
    numbers
}

#[test]
fn the_worked_canal_closes_the_records_of_the_session_text() {
    let text = read(&examples().join("worked-canal.txt"));
    let words = text.lines().flat_map(|line| line.split('#').next().unwrap_or("").split_whitespace());
    let session: Vec<u64> = words.map(|word| word.parse().unwrap()).collect();
    let events = run(&read(&examples().join("worked-canal.drill"))).unwrap();
    assert_eq!(numbers(&events), session);
}

/// The honest ones of lessons and canal: what each has started is one order,
/// and only the lesson on two different records parts them.
#[test]
fn only_the_lesson_on_two_records_ends_with_two_orders() {
    for script in all() {
        let events = run(&read(&script)).unwrap();
        let parted = events.iter().filter_map(|event| event.after.as_ref()?.parted()).count();
        let lesson_1 = script.ends_with("lesson-1-equal-jobs.drill");
        assert_eq!(parted > 0, lesson_1, "{}", script.display());
    }
}

#[test]
fn no_report_that_a_node_sent_is_malformed_behind_or_over_the_bound() {
    for script in all() {
        for event in run(&read(&script)).unwrap() {
            let (Command::Close { entries, .. }, Reply::Close(close)) = (&event.command, &event.reply) else {
                continue;
            };
            let Some(Ok(told)) = &close.station else { continue };
            for (entry, class) in entries.iter().zip(told.classes) {
                if matches!(entry, drill::Typed::Sent(_)) {
                    assert!(class == 0 || class == 5, "{}: {}", script.display(), event.typed);
                }
            }
        }
    }
}

#[test]
fn lesson_2_shows_the_lie_and_the_order_that_stands() {
    let events = run(&read(&examples().join("lesson-2-the-bound.drill"))).unwrap();
    let closes: Vec<(u8, &[u64])> = events
        .iter()
        .filter_map(|event| match &event.reply {
            Reply::Close(close) if close.record.time > 0 => {
                let told = close.station.as_ref()?.as_ref().ok()?;
                Some((told.classes[2], after(event).station.order()))
            }
            _ => None,
        })
        .collect();
    let (gate_second, gate_third) = (&[1, 0, 2, 3][..], &[1, 2, 0, 3][..]);
    assert_eq!(closes, [(4, gate_second), (0, gate_second), (4, gate_second), (0, gate_third)]);
    assert_eq!(events.iter().flat_map(|event| refusals(&event.reply)).collect::<Vec<_>>(), [9, 9]);
}
