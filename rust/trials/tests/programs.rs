//! How the trials treat programs that are not session programs at all.

use std::fs;
use std::os::unix::fs::PermissionsExt;
use std::path::{Path, PathBuf};

use trials::child::run;
use trials::trial::{trial, Limits};

/// A program that is one line of shell.
fn shell(name: &str, line: &str) -> PathBuf {
    let path = Path::new(env!("CARGO_TARGET_TMPDIR")).join(name);
    fs::write(&path, format!("#!/bin/sh\n{line}\n")).unwrap();
    fs::set_permissions(&path, fs::Permissions::from_mode(0o755)).unwrap();
    path
}

#[test]
fn what_a_program_prints_is_compared_with_its_status() {
    let echo = shell("echo", "cat");
    for piece in [1, 3, 100] {
        let answer = run(&echo, b"order\n", piece, 1000).unwrap();
        assert!(answer.agrees(b"order\n"), "{answer:?}");
        assert!(!answer.agrees(b"order"));
    }
    let failing = run(&shell("failing", "cat; exit 3"), b"order\n", 100, 1000).unwrap();
    assert_eq!(failing.printed, b"order\n");
    assert!(failing.trouble.as_ref().is_some_and(|trouble| trouble.contains('3')), "{failing:?}");
    assert!(!failing.agrees(b"order\n"));
}

#[test]
fn a_program_that_prints_without_end_is_stopped() {
    let answer = run(&shell("endless", "exec yes"), &[0; 10], 10, 5000).unwrap();
    assert_eq!((answer.printed.len(), answer.trouble.as_deref()), (5000, Some("printed without end")));
}

#[test]
fn a_program_that_reads_nothing_is_no_trouble() {
    let answer = run(&shell("deaf", "echo order"), &vec![0; 1 << 20], 1 << 20, 1000).unwrap();
    assert!(answer.agrees(b"order\n"), "{answer:?}");
}

#[test]
fn a_program_that_does_not_start_is_an_error() {
    assert!(run(Path::new("no-such-program"), &[], 1, 1000).is_err());
}

#[test]
fn a_program_that_always_prints_the_same_is_told_and_its_session_made_small() {
    let constant = shell("constant", "cat > /dev/null; echo refused 18");
    let outcome = trial(&constant, 1, Limits { sessions: 100, time: None }).unwrap();
    let difference = outcome.difference.expect("a difference");
    let smaller = difference.smaller(&constant).unwrap();
    assert!(smaller.session.len() <= difference.session.len());
    assert_ne!(smaller.expected, smaller.answer.printed);
}
