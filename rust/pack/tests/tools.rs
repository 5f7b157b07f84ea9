//! `pack` and `unpack` as programs: the worked canal goes there and back, and a
//! bad input is told with its place.

use std::fs::File;
use std::io::Write;
use std::path::{Path, PathBuf};
use std::process::{Command, Output, Stdio};

const PACK: &str = env!("CARGO_BIN_EXE_pack");
const UNPACK: &str = env!("CARGO_BIN_EXE_unpack");

fn worked_canal() -> PathBuf {
    Path::new(env!("CARGO_MANIFEST_DIR")).join("../../examples/worked-canal.txt")
}

/// Runs a tool over these bytes on its standard input.
fn run(tool: &str, input: &[u8]) -> Output {
    let mut child = Command::new(tool)
        .stdin(Stdio::piped())
        .stdout(Stdio::piped())
        .stderr(Stdio::piped())
        .spawn()
        .expect("the tool starts");
    child.stdin.take().unwrap().write_all(input).expect("the tool reads");
    child.wait_with_output().expect("the tool ends")
}

fn good(tool: &str, input: &[u8]) -> Vec<u8> {
    let ended = run(tool, input);
    assert!(ended.status.success() && ended.stderr.is_empty(), "{ended:?}");
    ended.stdout
}

/// What a failing tool wrote, and its one line of complaint.
fn bad(tool: &str, input: &[u8]) -> (Vec<u8>, String) {
    let ended = run(tool, input);
    assert_eq!(ended.status.code(), Some(1), "{ended:?}");
    (ended.stdout, String::from_utf8(ended.stderr).unwrap())
}

#[test]
fn the_worked_canal_prints_the_papers_lines() {
    let packed = Command::new(PACK).arg(worked_canal()).output().unwrap();
    assert!(packed.status.success());
    assert_eq!(
        String::from_utf8(reference::session::run_bytes(&packed.stdout)).unwrap(),
        "round 0 ipo 0 base 0 length 2 toc 2 nodes 000\n\
         round 10 ipo 1 base 0 length 3 toc 2 nodes 004\n\
         round 120 ipo 3 base 3 length 4 toc 122 nodes 001\n\
         order 4:0\n"
    );
}

#[test]
fn the_worked_canal_goes_there_and_back() {
    let packed = Command::new(PACK).arg(worked_canal()).output().unwrap().stdout;
    let lines = good(UNPACK, &packed);
    assert_eq!(
        String::from_utf8(lines.clone()).unwrap(),
        "3 2 3\n10 100 100 40\n20 200 200 50\n30 400 400 40\n\
         0 2 1 0 2 1 3 1 0 0 0 1 0 0 0 1 0 0 0\n\
         10 1 0 0 3 1 1 8 0 1 0 0 1 1 2 10 0\n\
         120 1 0 0 3 1 3 45 0 1 3 60 0 0\n"
    );
    assert_eq!(good(PACK, &lines), packed);
}

#[test]
fn numbers_are_parted_by_blanks_line_ends_and_comments() {
    assert_eq!(good(PACK, b""), b"");
    assert_eq!(good(PACK, b"# 1 2 3"), b"");
    assert_eq!(good(PACK, b"127\t128\r\n400"), [0x7f, 0x80, 1, 0x90, 3]);
    assert_eq!(good(PACK, b"1#2\n3 # 4 # 5\n#\n 6"), [1, 3, 6]);
    assert_eq!(good(PACK, b"9223372036854775807"), [0xff, 0xff, 0xff, 0xff, 0xff, 0xff, 0xff, 0xff, 0x7f]);
}

#[test]
fn pack_says_where_a_bad_number_stands() {
    let (written, why) = bad(PACK, b"1 2\n# 3\n  4 5x6 7\n");
    assert_eq!(written, [1, 2, 4]);
    assert_eq!(why, "pack: line 3, column 5: 'x' is no decimal digit\n");
    let (_, why) = bad(PACK, b"\n-1");
    assert_eq!(why, "pack: line 2, column 1: '-' is no decimal digit\n");
    for large in
        ["9223372036854775808", "18446744073709551616", "99999999999999999999999999999999999999999999"]
    {
        let (_, why) = bad(PACK, format!("0 {large}").as_bytes());
        assert_eq!(why, "pack: line 1, column 3: the number is 2^63 or more (refusal 22)\n");
    }
    let (_, why) = bad(PACK, b"1 \xff");
    assert_eq!(why, "pack: line 1, column 3: '\\xff' is no decimal digit\n");
}

#[test]
fn unpack_says_which_byte_is_refused() {
    let table = [1, 1, 1, 1, 9, 9, 0];
    let after = |bytes: &[u8]| bad(UNPACK, &[&table[..], bytes].concat());
    let lines = b"1 1 1\n1 9 9 0\n";
    let (written, why) = after(&[5, 0x80]);
    assert_eq!(written, lines);
    assert_eq!(why, "unpack: byte 9: refused 18 (the bytes end early)\n");
    assert_eq!(after(&[0x80, 0x80, 0]).1, "unpack: byte 9: refused 19 (the last of several groups is 0)\n");
    assert_eq!(after(&[0xff; 10]).1, "unpack: byte 15: refused 19 (a ninth group with its top bit set)\n");
    assert_eq!(after(&[5, 65, 0]).1, "unpack: byte 8: refused 15 (more than 64 releases)\n");
    assert_eq!(after(&[5, 0, 16, 0]).1, "unpack: byte 9: refused 15 (more than 15 entries)\n");
    assert_eq!(after(&[5, 0, 1, 0x80, 1]).1, "unpack: byte 10: refused 20 (a presence mark above 1)\n");
    assert_eq!(bad(UNPACK, &[]).1, "unpack: byte 0: refused 18 (the bytes end early)\n");
    assert_eq!(bad(UNPACK, &[1, 1]).1, "unpack: byte 2: refused 18 (the bytes end early)\n");
    let (written, why) = bad(UNPACK, &[1, 1, 65, 0, 0]);
    assert_eq!(written, b"1 1 65\n");
    assert_eq!(why, "unpack: byte 2: refused 1 (the number of tasks is not 1 to 64)\n");
}

#[test]
fn unpack_leaves_the_judging_to_the_session() {
    // Every rule of the table and of a round is broken, yet each byte reads.
    let bytes = [15, 9, 1, 0, 0, 9, 9, 0, 1, 7, 7, 0];
    assert_eq!(good(UNPACK, &bytes), b"15 9 1\n0 0 9 9\n0 1 7 7 0\n");
}

#[test]
fn help_is_given_and_other_arguments_are_refused() {
    for tool in [PACK, UNPACK] {
        let help = Command::new(tool).arg("--help").output().unwrap();
        assert!(help.status.success() && help.stdout.len() > 200);
        for wrong in [vec!["--nonsense"], vec!["a", "b"], vec!["no-such-file"]] {
            let ended = Command::new(tool).args(&wrong).stdin(Stdio::null()).output().unwrap();
            assert_eq!(ended.status.code(), Some(1), "{wrong:?}");
            assert!(ended.stdout.is_empty() && !ended.stderr.is_empty());
        }
    }
}

#[test]
fn an_input_that_cannot_be_read_is_told() {
    for tool in [PACK, UNPACK] {
        let directory = File::open(env!("CARGO_MANIFEST_DIR")).unwrap();
        let ended = Command::new(tool).stdin(directory).output().unwrap();
        assert_eq!((ended.status.code(), ended.stdout.len()), (Some(1), 0));
        assert!(String::from_utf8(ended.stderr).unwrap().contains("input"));
    }
}
