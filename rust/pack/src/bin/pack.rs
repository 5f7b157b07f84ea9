//! `pack`: decimal numbers in text to seven-bit-group bytes.

use std::process::ExitCode;

const HELP: &str = "\
pack [FILE]

Packs decimal numbers into groups of seven bits, lowest first, the top bit set
on all groups but the last: 127 is 7F, 128 is 80 01, 400 is 90 03.

Reads the text FILE, or standard input. Numbers are parted by blanks or line
ends; # starts a comment that runs to the end of its line. The bytes go to
standard output, where the session program can read them:

    pack examples/worked-canal.txt | reference-session

A word that is no number, or a number of 2^63 or more, is told on standard
error with its line and column (in bytes), with exit status 1; the bytes of the
numbers before it have been written.
";

fn main() -> ExitCode {
    pack::tool::run("pack", HELP, pack::text::pack)
}
