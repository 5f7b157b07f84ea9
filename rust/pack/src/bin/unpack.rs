//! `unpack`: a session's bytes to readable lines.

use std::process::ExitCode;

const HELP: &str = "\
unpack [FILE]

Writes a session's bytes as lines of decimal numbers: `m timeout count`, one
line a task (C T D S), then one line a record: r, the number of releases, task
and delay of each, the number of entries, and for each entry 0, or 1 with
progress, completion time and run. `unpack FILE | pack` gives back the bytes.

Reads FILE, or standard input, one record at a time.

Bytes that no session can be read from are told on standard error with the byte
at which they fail (counted from 0) and the refusal number, with exit status 1;
the lines before it have been written. Only reading is refused: 1, 18, 19, 20,
and 15 for a count. Tables and rounds are judged by the session program.
";

fn main() -> ExitCode {
    pack::tool::run("unpack", HELP, pack::lines::unpack)
}
