//! `drill` as a program: where it reads, what it prints and how it ends.

mod scripts;

use std::fs::File;
use std::io::{Read, Write};
use std::process::{Child, Command, Output, Stdio};

use scripts::{examples, ROUND_0, TABLE};

fn start(arguments: &[&str]) -> Child {
    Command::new(env!("CARGO_BIN_EXE_drill"))
        .args(arguments)
        .stdin(Stdio::piped())
        .stdout(Stdio::piped())
        .stderr(Stdio::piped())
        .spawn()
        .expect("drill starts")
}

fn run(arguments: &[&str], input: &[u8]) -> Output {
    let mut child = start(arguments);
    // A drill that has ended early reads no more.
    let _ = child.stdin.take().unwrap().write_all(input);
    child.wait_with_output().expect("drill ends")
}

/// Status, standard output and standard error.
fn ended(output: Output) -> (i32, String, String) {
    let text = |bytes| String::from_utf8(bytes).unwrap();
    (output.status.code().expect("no signal"), text(output.stdout), text(output.stderr))
}

#[test]
fn a_script_may_be_a_file_or_standard_input() {
    let path = examples().join("worked-canal.drill");
    let (by_file, by_input) =
        (run(&[path.to_str().unwrap()], b""), run(&[], scripts::read(&path).as_bytes()));
    assert!(!by_file.stdout.is_empty());
    assert_eq!(by_file, by_input);
}

#[test]
fn a_bad_command_is_told_and_the_script_goes_on_to_status_1() {
    let script = format!("{TABLE}\n{ROUND_0}\n0 begin 3\n0 start 3\n");
    let (status, printed, told) = ended(run(&[], script.as_bytes()));
    assert_eq!(status, 1);
    assert_eq!(printed.lines().count(), 6);
    assert!(printed.ends_with("\nat 3: 0 starts task 1 gauge (position 1)\n"));
    assert_eq!(
        told,
        "drill: line 6, column 3: a node can start, finish, report or close; it cannot 'begin'\n"
    );
}

#[test]
fn an_unmet_expectation_ends_the_drill_with_status_1() {
    let script = format!("{TABLE}\n{ROUND_0}\n0 start 3\nexpect refused 9\n1 start 3\n");
    let (status, printed, told) = ended(run(&[], script.as_bytes()));
    assert_eq!(status, 1);
    assert!(printed.ends_with("\nat 3: 0 starts task 1 gauge (position 1)\n"), "{printed}");
    assert_eq!(
        told,
        "drill: line 7: expected 'refused 9', but the reply was 'at 3: 0 starts task 1 gauge (position 1)'\n"
    );
}

#[test]
fn a_refusal_is_a_reply_and_no_failure() {
    let script = format!("{TABLE}\n{ROUND_0}\n0 start 1");
    let (status, printed, told) = ended(run(&[], script.as_bytes()));
    assert_eq!((status, told.as_str()), (0, ""));
    assert!(printed.ends_with("\nat 1: 0 refused 4: the time is before the node's latest\n"), "{printed}");
}

#[test]
fn echo_prints_the_script_with_each_reply_below() {
    let script = format!("# A canal.\n{TABLE}\n\norder # none\nexpect order\n");
    let (status, printed, _) = ended(run(&["--echo"], script.as_bytes()));
    assert_eq!(status, 0);
    assert_eq!(
        printed,
        format!(
            "# A canal.\n{TABLE}\n    table: 3 nodes, timeout 2, task 0 gate, task 1 gauge, task 2 solve\n\n\
             order # none\n    order |\nexpect order\n"
        )
    );
}

#[test]
fn each_reply_comes_at_once() {
    let mut child = start(&[]);
    let (mut input, mut output) = (child.stdin.take().unwrap(), child.stdout.take().unwrap());
    input.write_all(format!("{TABLE}\n").as_bytes()).unwrap();
    let mut begun = [0; 6];
    output.read_exact(&mut begun).unwrap();
    assert_eq!(&begun, b"table:");
    drop(input);
    assert!(child.wait().unwrap().success());
}

#[test]
fn what_is_no_text_is_told_with_its_place() {
    let (status, printed, told) = ended(run(&[], b"# fine\n# gr\xc3\xb6\xff\nhelp\n"));
    assert_eq!((status, told.as_str()), (1, "drill: line 2, column 6: this is no text in UTF-8\n"));
    assert_eq!(printed, drill::COMMANDS);
}

#[test]
fn help_names_every_command_and_the_exit_statuses() {
    for option in ["--help", "-h"] {
        let (status, printed, told) = ended(run(&[option], b""));
        assert_eq!((status, told.as_str()), (0, ""));
        assert!(printed.starts_with("drill [--echo] [FILE]\n") && printed.ends_with(drill::COMMANDS));
        assert!(printed.contains("Exit status 0"));
    }
    for command in [
        "table",
        "N start",
        "N finish",
        "N report",
        "close",
        "N close",
        "show",
        "node",
        "order",
        "projection",
    ] {
        assert!(drill::COMMANDS.lines().any(|line| line.starts_with(command)), "{command}");
    }
    for command in ["started", "explain", "expect", "help"] {
        assert!(drill::COMMANDS.lines().any(|line| line.starts_with(command)), "{command}");
    }
}

#[test]
fn wrong_usage_and_unreadable_files_have_status_2() {
    for (arguments, why) in [
        (&["--nonsense"][..], "drill: unknown option --nonsense; `drill --help` says more\n"),
        (&["a", "b"], "drill: more than one file; `drill --help` says more\n"),
        (&["no-such-file"], "drill: no-such-file: No such file or directory (os error 2)\n"),
        (&["/"], "drill: /: Is a directory (os error 21)\n"),
    ] {
        assert_eq!(ended(run(arguments, b"")), (2, String::new(), why.to_string()), "{arguments:?}");
    }
    let folder = File::open(env!("CARGO_MANIFEST_DIR")).unwrap();
    let output = Command::new(env!("CARGO_BIN_EXE_drill")).stdin(folder).output().unwrap();
    let (status, _, told) = ended(output);
    assert_eq!((status, told.as_str()), (2, "drill: standard input: Is a directory (os error 21)\n"));
}

#[test]
fn an_output_that_is_full_is_told_with_status_2() {
    let full = File::options().write(true).open("/dev/full").unwrap();
    let child =
        Command::new(env!("CARGO_BIN_EXE_drill")).arg("--help").stdout(full).stderr(Stdio::piped()).spawn();
    let (status, _, told) = ended(child.unwrap().wait_with_output().unwrap());
    assert_eq!(status, 2);
    assert_eq!(told, "drill: standard output: No space left on device (os error 28)\n");
}

#[test]
fn a_reader_that_goes_away_is_no_failure() {
    for (bad, expected) in [("", 0), ("begin\n", 1)] {
        let mut child = start(&[]);
        drop(child.stdout.take());
        let mut input = child.stdin.take().unwrap();
        input.write_all(format!("{bad}{TABLE}\n").as_bytes()).unwrap();
        let _ = input.write_all("order\n".repeat(100_000).as_bytes());
        drop(input);
        let (status, _, told) = ended(child.wait_with_output().unwrap());
        assert_eq!((status, told.contains("Broken pipe")), (expected, false), "{told}");
    }
}
