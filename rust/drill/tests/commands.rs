//! A bad command says where and why, and changes nothing.

mod scripts;

use drill::{run, Drill, Trouble};
use scripts::{ROUND_0, TABLE};

/// A drill after the worked canal's round 0; node 0 has reported for round 10.
fn begun() -> Drill {
    let mut drill = Drill::new();
    for line in format!("{TABLE}\n{ROUND_0}\n0 report 10").lines() {
        drill.line(line).unwrap();
    }
    drill
}

/// Column and reason of a line that must be bad.
fn bad(drill: &mut Drill, line: &str) -> (usize, String) {
    let before = drill.state().cloned();
    let ended = drill.line(line);
    assert_eq!(drill.state(), before.as_ref(), "'{line}' has changed the cabinet");
    match ended {
        Err(Trouble::Bad { column, why, .. }) => (column, why),
        ended => panic!("'{line}' gave {ended:?}"),
    }
}

#[test]
fn a_bad_command_says_where_and_why() {
    for (line, column, why) in [
        ("begin", 1, "'begin' is no command; `help` lists them"),
        ("  show all", 8, "'all' is too much: the command ends before it"),
        ("0", 2, "start, finish, report or close is missing"),
        ("0 stop 11", 3, "a node can start, finish, report or close; it cannot 'stop'"),
        ("0 start", 8, "the time is missing"),
        ("0 start soon", 9, "the time must be a number, not 'soon'"),
        ("0 start -1", 9, "the time must be a number, not '-1'"),
        ("0 start 18446744073709551616", 9, "the time is above 2^64 - 1"),
        ("0 start 11 12", 12, "'12' is too much: the command ends before it"),
        ("3 start 11", 1, "there is no node 3; the table's last one is 2"),
        ("node 3", 6, "there is no node 3; the table's last one is 2"),
        ("node", 5, "the node's number is missing"),
        ("close 10", 9, "the semicolon before the releases is missing"),
        ("close 10 ; gate 0", 18, "the semicolon before the entries is missing"),
        ("close 10 gate 0", 10, "the semicolon before the releases is missing here, before 'gate'"),
        ("close 10 ; gate ; = - -", 12, "the release of 'gate' has no delay"),
        ("close 10 ; weir 0 ; = - -", 12, "no task is called 'weir'"),
        ("close 10 ; gate now ; = - -", 17, "a release's delay must be a number, not 'now'"),
        ("close 10 ; ; = = -", 16, "node 1 has sent no report for round 10"),
        ("close 11 ; ; = - -", 14, "node 0 has sent no report for round 11"),
        ("close 10 ; ; = - - =", 20, "'=' stands at place 3, and there is no node 3"),
        ("close 10 ; ; = 1 8", 16, "an entry is =, - or three numbers: progress, completion time, run"),
        ("close 10 ; ; = 1 8 -", 20, "an entry's run must be a number, not '-'"),
        ("close 10 ; ; = - - ; 5", 20, "';' is too much: the command ends before it"),
        ("explain", 8, "the refusal's number is missing"),
        ("explain 23", 9, "no refusal has the number 23"),
        ("expect", 1, "say what the last reply must hold, such as: expect refused 9"),
        ("expect # refused 9", 1, "say what the last reply must hold, such as: expect refused 9"),
        ("table 3", 8, "the timeout is missing"),
        ("table 3 2 10 100 100 40", 11, "the semicolon before the next task is missing here, before '10'"),
        ("table 3 2 ; gate 10 100 100", 28, "S, its slack, is missing"),
        ("table 3 2 ; gate 10 100 100 ; 1 2 3 4", 29, "S, its slack, must be a number, not ';'"),
        ("table 3 2 ; gate! 10 100 100 40", 13, "'gate!' is neither C nor a name"),
        ("table 3 2 ; a 9 9 9 0 ; a 9 9 9 0", 25, "two tasks are called a"),
        ("größe 3", 1, "'größe' is no command; `help` lists them"),
        ("0 start größe 3", 9, "the time must be a number, not 'größe'"),
        ("show größe weir", 6, "'größe' is too much: the command ends before it"),
    ] {
        assert_eq!(bad(&mut begun(), line), (column, why.to_string()), "{line}");
    }
}

/// A blank that editors put in unasked is a blank here too, and longer than a
/// byte.
#[test]
fn columns_count_letters_and_not_bytes() {
    assert_eq!(bad(&mut begun(), "0\u{a0}start\u{a0}soon").0, 9);
    assert_eq!(bad(&mut begun(), "0\u{a0}start\u{a0}").0, 8);
}

#[test]
fn before_the_table_only_table_help_and_explain_are_answered() {
    for line in ["0 start 3", "close 0 ; ; - - -", "show", "order", "projection", "started", "node 0"] {
        let (column, why) = bad(&mut Drill::new(), line);
        assert_eq!((column, why.as_str()), (1, "there is no table yet; begin with `table`"), "{line}");
    }
    for line in ["help", "explain 9", TABLE] {
        assert!(matches!(Drill::new().line(line), Ok(Some(_))), "{line}");
    }
}

#[test]
fn the_line_is_counted_over_blanks_and_comments() {
    let trouble = run("# a canal\n\n  # and a blank\nbegin\n").unwrap_err();
    assert_eq!(trouble.to_string(), "line 4, column 1: 'begin' is no command; `help` lists them");
}

#[test]
fn blanks_commas_comments_and_a_leading_mark_change_nothing() {
    let plain = run(&format!("{TABLE}\n{ROUND_0}")).unwrap();
    let other = format!(
        "\u{feff}{TABLE} # the table\n\n0 report 0\r\n 1  report\t0\n2 report 0#\nclose 0;gauge 0 solve 1;=,=,="
    );
    let other = run(&other).unwrap();
    let replies = |events: &[drill::Event]| -> Vec<_> {
        events.iter().map(|event| (event.command.clone(), event.reply.clone(), event.after.clone())).collect()
    };
    assert_eq!(replies(&plain), replies(&other));
}

#[test]
fn a_bad_command_ends_a_whole_run_with_no_events() {
    assert!(matches!(run(&format!("{TABLE}\nbegin\nshow")), Err(Trouble::Bad { line: 2, .. })));
}

#[test]
fn an_expectation_looks_at_the_last_reply_and_at_no_older_one() {
    let mut drill = begun();
    drill.line("expect 0 reports progress 0").unwrap();
    drill.line("expect run 1; lock 1").unwrap();
    let unmet = drill.clone().line("expect run 0").unwrap_err();
    assert_eq!(
        unmet.to_string(),
        "line 9: expected 'run 0', but the reply was 'at 10: 0 reports progress 0, completed 0, run 1; lock 1'"
    );
    drill.line("order").unwrap();
    assert!(matches!(drill.clone().line("expect run 1"), Err(Trouble::Unmet { reply: Some(_), .. })));
    drill.line("begin").unwrap_err();
    let unmet = drill.line("expect order").unwrap_err();
    assert_eq!(unmet.to_string(), "line 11: expected 'order', and there is no reply before it");
}

#[test]
fn an_expectation_is_met_by_whole_words_in_one_line() {
    let met = |wanted: &str| {
        let mut drill = begun();
        drill.line("show").unwrap();
        drill.line(&format!("expect {wanted}")).is_ok()
    };
    assert!(met("length 2, next start 2") && met("length 2 next start 2") && met("node 1"));
    assert!(met("order | 1:gauge 2:solve"));
    assert!(!met("length 22") && !met("ength 2") && !met("next start 2 length 2"));
    assert!(!met("order 1:gauge 2:solve"), "the bar counts");
    assert!(!met("node 0 node 1"), "not over two lines");
}
