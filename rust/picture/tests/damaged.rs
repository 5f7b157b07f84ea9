//! Damaged input: a clear message with its place, and no picture, not even half
//! of one.

mod tree;

use std::fs;
use std::io::Write;
use std::path::{Path, PathBuf};
use std::process::{Command, Output, Stdio};

use picture::fold::Keep;
use picture::session;
use tree::{long_session, packed, parse, read, top};

fn canal() -> Vec<u8> {
    packed(&read("examples/worked-canal.txt"))
}

fn trouble(bytes: &[u8]) -> Option<String> {
    session::story(bytes, Keep::Ends, &mut |_, _| {}).err().map(|trouble| trouble.to_string())
}

/// Where the table and each record of the worked canal end, in bytes.
const ENDS: [usize; 4] = [19, 38, 55, 69];

#[test]
fn a_session_that_is_cut_says_where() {
    let bytes = canal();
    assert_eq!(bytes.len(), ENDS[3]);
    for cut in 0..bytes.len() {
        let told = trouble(&bytes[..cut]);
        if ENDS.contains(&cut) {
            assert_eq!(told, None, "cut at {cut}");
            continue;
        }
        let within = match ENDS.iter().filter(|end| **end < cut).count() {
            0 => "the task table".to_string(),
            record => format!("record {record}, which begins at byte {}", ENDS[record - 1]),
        };
        let expected = format!("byte {cut}: refused 18, the bytes end early (in {within})");
        assert_eq!(told, Some(expected), "cut at {cut}");
    }
}

#[test]
fn a_damaged_byte_says_where() {
    let damaged = |place: usize, bytes: &[u8]| {
        let mut all = canal();
        all.splice(place..=place, bytes.iter().copied());
        trouble(&all).expect("damaged")
    };
    let second = "(in record 2, which begins at byte 38)";
    assert_eq!(
        damaged(39, &[0x80, 0x00]),
        format!("byte 40: refused 19, a number is too long or not in its shortest form {second}")
    );
    assert_eq!(damaged(43, &[2]), format!("byte 43: refused 20, a presence mark is above 1 {second}"));
    assert!(damaged(39, &[65]).starts_with("byte 39: refused 15, "));
    assert!(
        damaged(0, &[16]).starts_with("byte 2: refused 1, ")
            && damaged(0, &[16]).ends_with("(in the task table)")
    );
    assert_eq!(damaged(3, &[0]), "task 0: refused 2, a table rule is broken (in the task table)");
}

/// A record that is refused is no damage: it is drawn, and nothing behind it.
#[test]
fn a_refused_record_is_drawn_and_ends_the_session() {
    let text = read("examples/worked-canal.txt").replace("\n120\n", "\n11\n");
    let mut bytes = packed(&text);
    bytes.push(0xff);
    let picture = parse(&tree::session_svg(&bytes, Keep::Ends)).expect("a picture");
    let lines: Vec<&str> =
        picture.groups("round").iter().map(|head| head.get("data-line").unwrap()).collect();
    assert_eq!(lines.len(), 3);
    assert_eq!(lines[2], "refused 14");
    let words = picture.groups("set")[2].words().join(" ");
    assert_eq!(words, "the round comes before last round + timeout nothing has changed");
}

fn picture(words: &[&str], input: &[u8]) -> Output {
    let mut child = Command::new(env!("CARGO_BIN_EXE_picture"))
        .args(words)
        .stdin(Stdio::piped())
        .stdout(Stdio::piped())
        .stderr(Stdio::piped())
        .spawn()
        .expect("picture runs");
    // A program that stops at a fault need not read the rest.
    let _ = child.stdin.take().expect("its input").write_all(input);
    child.wait_with_output().expect("picture ends")
}

fn text(bytes: &[u8]) -> String {
    String::from_utf8(bytes.to_vec()).expect("text")
}

/// A fresh folder for a test.
fn folder(name: &str) -> PathBuf {
    let path = Path::new(env!("CARGO_TARGET_TMPDIR")).join(name);
    let _ = fs::remove_dir_all(&path);
    fs::create_dir_all(&path).expect("the tests' folder can be written");
    path
}

#[test]
fn the_program_draws_bytes_text_and_scripts() {
    let examples = top().join("examples");
    let by_name = |name: &str| picture(&[examples.join(name).to_str().expect("a path")], b"");
    let script = by_name("worked-canal.drill");
    assert_eq!((script.status.code(), text(&script.stderr).as_str()), (Some(0), ""));
    assert_eq!(text(&script.stdout), tree::script_svg(&read("examples/worked-canal.drill"), Keep::Ends));
    let session = tree::session_svg(&canal(), Keep::Ends);
    assert_eq!(text(&by_name("worked-canal.txt").stdout), session);
    assert_eq!(text(&picture(&[], &canal()).stdout), session);
    let numbers = read("examples/worked-canal.txt");
    assert_eq!(text(&picture(&["--text"], numbers.as_bytes()).stdout), session);
}

#[test]
fn damaged_input_gives_a_message_and_no_picture() {
    let cases: [(&[&str], Vec<u8>, &str); 6] = [
        (&[], canal()[..50].to_vec(), "standard input: byte 50: refused 18, the bytes end early"),
        (&[], Vec::new(), "byte 0: refused 18"),
        (&["--text"], b"3 2\n3 ten".to_vec(), "line 2, column 3: 't' is no decimal digit"),
        (
            &["--drill"],
            b"table 1 1 ; 1 1 1 0\n0 start x\n".to_vec(),
            "line 2, column 9: the time must be a number",
        ),
        (&["--drill"], b"# no table\n".to_vec(), "nothing to draw"),
        (&["--drill"], b"# a\n# \xff\n".to_vec(), "line 2: this is no text in UTF-8"),
    ];
    for (words, input, message) in cases {
        let output = picture(words, &input);
        assert_eq!(output.status.code(), Some(1), "{message}");
        assert!(output.stdout.is_empty(), "{message}");
        assert!(text(&output.stderr).contains(message), "'{message}' is not in '{}'", text(&output.stderr));
    }
}

#[test]
fn an_unmet_expectation_gives_no_picture() {
    let output = picture(&["--drill"], b"table 1 1 ; 1 1 1 0\norder\nexpect order | 1:0\n");
    assert_eq!(output.status.code(), Some(1));
    assert!(output.stdout.is_empty());
    assert!(text(&output.stderr).contains("line 3: expected 'order | 1:0'"), "{}", text(&output.stderr));
}

#[test]
fn a_file_is_replaced_whole_or_not_at_all() {
    let folder = folder("to");
    let to = folder.join("canal.svg");
    let name = to.to_str().expect("a path");
    let files = || -> Vec<String> {
        let entries = fs::read_dir(&folder).expect("the folder");
        entries.map(|entry| entry.expect("a file").file_name().to_string_lossy().into_owned()).collect()
    };
    assert_eq!(picture(&["--to", name], &canal()[..50]).status.code(), Some(1));
    assert!(files().is_empty(), "a damaged session leaves no file");
    assert_eq!(picture(&["--to", name], &canal()).status.code(), Some(0));
    let whole = fs::read_to_string(&to).expect("the picture");
    assert!(parse(&whole).is_ok());
    assert_eq!(picture(&["--to", name], &canal()[..50]).status.code(), Some(1));
    assert_eq!(fs::read_to_string(&to).expect("the picture"), whole);
    assert_eq!(files(), ["canal.svg"]);
}

/// Where the new picture cannot be written, the old one is not begun.
#[test]
fn a_picture_that_cannot_be_written_leaves_the_old_one() {
    let folder = folder("kept");
    let to = folder.join("canal.svg");
    fs::write(&to, "the old one").expect("the tests' folder can be written");
    fs::create_dir(folder.join("canal.svg.part")).expect("the tests' folder can be written");
    let output = picture(&["--to", to.to_str().expect("a path")], &canal());
    assert_eq!(output.status.code(), Some(2));
    assert!(text(&output.stderr).contains("canal.svg: "), "{}", text(&output.stderr));
    assert_eq!(fs::read_to_string(&to).expect("the old one"), "the old one");
}

#[test]
fn wrong_usage_and_missing_files_are_2() {
    for words in
        [&["--rounds", "5"][..], &["--rounds", "4-2"], &["--bend"], &["a", "b"], &["--to"], &["no-such"]]
    {
        let output = picture(words, b"");
        assert_eq!(output.status.code(), Some(2), "{words:?}");
        assert!(output.stdout.is_empty() && !output.stderr.is_empty(), "{words:?}");
    }
}

/// Progress is for terminals; a long session into a file says nothing.
#[test]
fn a_long_session_is_quiet_where_nobody_watches() {
    let output = picture(&[], &packed(&long_session(5000)));
    assert_eq!((output.status.code(), text(&output.stderr).as_str()), (Some(0), ""));
    assert!(parse(&text(&output.stdout)).is_ok());
}
