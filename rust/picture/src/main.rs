//! `picture`: a session or a drill's script in, an SVG out. The picture is made
//! whole before its first byte is written, so that damaged input leaves none.

mod progress;

use std::env;
use std::ffi::OsString;
use std::fs::{self, File};
use std::io::{self, BufRead, BufReader, ErrorKind, Read, Write};
use std::path::{Path, PathBuf};
use std::process::ExitCode;

use picture::fold::Keep;
use picture::story::Story;
use picture::{draw, script, session};
use progress::Progress;
use reference::stdio;

const USAGE: &str = "\
picture [--drill | --text | --bytes] [--rounds FIRST-LAST] [--to FILE] [FILE]

Draws a session or a drill as one SVG that needs nothing beside it: time from
left to right, a lane for each controller, the rounds across them, and the common
order after each round.

Reads FILE, or standard input. A name that ends in .drill is a drill's script,
one that ends in .txt a session as decimal numbers, anything else a session's
bytes; the options say so where the name does not:

  --drill   a drill's script
  --text    a session as decimal numbers
  --bytes   a session's bytes

  --rounds FIRST-LAST   draw these rounds in full, counted from 1, and fold the
                        others; without it the first and the last ones
  --to FILE             write there and not to standard output; FILE is replaced
                        when the picture is whole, and else left alone

Damaged input is told on standard error with its place, with exit status 1, and
nothing is drawn; 2 is for wrong usage, and where a file cannot be read or
written. A record that is refused is not damaged input: it is drawn, and ends a
session as it ends the session program.
";

/// Why there is no picture, and the exit status for it.
type Failure = (u8, String);

fn main() -> ExitCode {
    match asked(env::args_os().skip(1)).and_then(carry_out) {
        Ok(()) => ExitCode::SUCCESS,
        Err((status, message)) => {
            // Standard error may be closed; then nobody wants to be told.
            let _ = writeln!(io::stderr(), "picture: {message}");
            ExitCode::from(status)
        }
    }
}

#[derive(Clone, Copy)]
enum Kind {
    Drill,
    Text,
    Bytes,
}

enum Ask {
    Help,
    Draw { kind: Option<Kind>, keep: Keep, from: Option<PathBuf>, to: Option<PathBuf> },
}

fn usage(why: impl Into<String>) -> Failure {
    (2, format!("{}; `picture --help` says more", why.into()))
}

fn asked(mut words: impl Iterator<Item = OsString>) -> Result<Ask, Failure> {
    let (mut kind, mut keep, mut from, mut to) = (None, Keep::Ends, None, None);
    while let Some(word) = words.next() {
        match word.to_str() {
            Some("--help" | "-h") => return Ok(Ask::Help),
            Some("--drill") => kind = Some(Kind::Drill),
            Some("--text") => kind = Some(Kind::Text),
            Some("--bytes") => kind = Some(Kind::Bytes),
            Some("--rounds") => keep = rounds(words.next())?,
            Some("--to") => to = Some(words.next().ok_or_else(|| usage("--to needs a file"))?.into()),
            Some(option) if option.starts_with('-') => return Err(usage(format!("unknown option {option}"))),
            _ if from.is_some() => return Err(usage("more than one file")),
            _ => from = Some(PathBuf::from(word)),
        }
    }
    Ok(Ask::Draw { kind, keep, from, to })
}

fn rounds(word: Option<OsString>) -> Result<Keep, Failure> {
    let wrong = || usage("--rounds needs two numbers, such as 10-14");
    let word = word.and_then(|word| word.into_string().ok()).ok_or_else(wrong)?;
    let (first, last) = word.split_once('-').ok_or_else(wrong)?;
    match (first.parse(), last.parse()) {
        (Ok(first), Ok(last)) if 1 <= first && first <= last => Ok(Keep::Numbers(first, last)),
        _ => Err(wrong()),
    }
}

fn carry_out(ask: Ask) -> Result<(), Failure> {
    match ask {
        Ask::Help => put(USAGE, None),
        Ask::Draw { kind, keep, from, to } => put(&draw(&story(kind, keep, from.as_deref())?), to.as_deref()),
    }
}

fn story(kind: Option<Kind>, keep: Keep, from: Option<&Path>) -> Result<Story, Failure> {
    let name = from.map_or("standard input".to_string(), |path| path.display().to_string());
    let unread = |error: io::Error| (2, format!("{name}: {error}"));
    let damaged = |why: String| (1, format!("{name}: {why}"));
    let file = match from {
        Some(path) => File::open(path).map_err(unread)?,
        None => stdio::input().map_err(unread)?,
    };
    let whole = file.metadata().ok().filter(|data| data.is_file()).map(|data| data.len());
    let input = BufReader::new(file);
    match kind.unwrap_or_else(|| by_name(from)) {
        Kind::Bytes => of_session(input, keep, whole).map_err(|trouble| match trouble {
            session::Trouble::Damaged(why) => damaged(why),
            session::Trouble::Input(error) => unread(error),
        }),
        Kind::Text => {
            let mut packed = Vec::new();
            pack::text::pack(input, &mut packed).map_err(|trouble| match trouble {
                pack::text::Trouble::Input(error) => unread(error),
                bad => damaged(bad.to_string()),
            })?;
            let whole = Some(packed.len() as u64);
            of_session(&packed[..], keep, whole).map_err(|trouble| damaged(format!("packed, {trouble}")))
        }
        Kind::Drill => of_script(input, keep, whole).map_err(|trouble| match trouble {
            Unscripted::Damaged(why) => damaged(why),
            Unscripted::Input(error) => unread(error),
        }),
    }
}

fn by_name(from: Option<&Path>) -> Kind {
    match from.and_then(Path::extension).and_then(|ending| ending.to_str()) {
        Some("drill") => Kind::Drill,
        Some("txt") => Kind::Text,
        _ => Kind::Bytes,
    }
}

fn of_session(input: impl BufRead, keep: Keep, whole: Option<u64>) -> Result<Story, session::Trouble> {
    let mut progress = Progress::new("rounds", whole);
    session::story(input, keep, &mut |rounds, bytes| progress.at(rounds, bytes))
}

enum Unscripted {
    Damaged(String),
    Input(io::Error),
}

fn of_script(mut input: impl Read, keep: Keep, whole: Option<u64>) -> Result<Story, Unscripted> {
    let mut bytes = Vec::new();
    input.read_to_end(&mut bytes).map_err(Unscripted::Input)?;
    let text = std::str::from_utf8(&bytes).map_err(|error| {
        let line = bytes[..error.valid_up_to()].iter().filter(|byte| **byte == b'\n').count() + 1;
        Unscripted::Damaged(format!("line {line}: this is no text in UTF-8"))
    })?;
    let mut progress = Progress::new("lines", whole);
    let story = script::story(text, keep, &mut |lines, bytes| progress.at(lines, bytes));
    let story = story.map_err(|trouble| Unscripted::Damaged(trouble.to_string()))?;
    if story.scenes.is_empty() {
        return Err(Unscripted::Damaged(
            "there is no table that was accepted, and so nothing to draw".to_string(),
        ));
    }
    Ok(story)
}

/// Writes a text out whole. A reader that went away is no failure.
fn put(text: &str, to: Option<&Path>) -> Result<(), Failure> {
    let Some(path) = to else {
        let written = stdio::output().and_then(|mut out| out.write_all(text.as_bytes()));
        return match written {
            Err(error) if error.kind() != ErrorKind::BrokenPipe => {
                Err((2, format!("standard output: {error}")))
            }
            _ => Ok(()),
        };
    };
    let mut part = path.as_os_str().to_owned();
    part.push(".part");
    fs::write(&part, text).and_then(|()| fs::rename(&part, path)).map_err(|error| {
        let _ = fs::remove_file(&part);
        (2, format!("{}: {error}", path.display()))
    })
}
