//! Decimal numbers in text, packed into document 01's seven-bit groups. The
//! text is read byte by byte, so its lines may be of any length.

use std::fmt;
use std::io::{self, BufRead, ErrorKind, Write};

use reference::written::push_number;

/// Why a word of the text is no number that can be written.
#[derive(Clone, Copy, Debug, PartialEq, Eq)]
pub enum Why {
    /// The word has this byte in it.
    NotADigit(u8),
    /// Refusal 22: 2^63 or more.
    TooLarge,
}

#[derive(Debug)]
pub enum Trouble {
    /// The word that begins there; line and column count from 1, the column in
    /// bytes.
    BadNumber {
        line: u64,
        column: u64,
        why: Why,
    },
    Input(io::Error),
    Output(io::Error),
}

impl fmt::Display for Trouble {
    fn fmt(&self, out: &mut fmt::Formatter) -> fmt::Result {
        match self {
            Trouble::BadNumber { line, column, why } => write!(out, "line {line}, column {column}: {why}"),
            Trouble::Input(error) => write!(out, "input: {error}"),
            Trouble::Output(error) => write!(out, "output: {error}"),
        }
    }
}

impl fmt::Display for Why {
    fn fmt(&self, out: &mut fmt::Formatter) -> fmt::Result {
        match self {
            Why::NotADigit(byte) => write!(out, "'{}' is no decimal digit", byte.escape_ascii()),
            Why::TooLarge => write!(out, "the number is 2^63 or more (refusal 22)"),
        }
    }
}

/// Where the reader stands in the text, and the word that it is in.
struct Reader {
    line: u64,
    column: u64,
    comment: bool,
    word: Option<Word>,
}

struct Word {
    line: u64,
    column: u64,
    value: u64,
}

/// Packs a whole text. What stands before a bad number is already written.
pub fn pack<S: BufRead, W: Write>(mut text: S, output: &mut W) -> Result<(), Trouble> {
    let mut reader = Reader { line: 1, column: 1, comment: false, word: None };
    while let Some(byte) = next(&mut text).map_err(Trouble::Input)? {
        if let Some(value) = reader.step(byte)? {
            write_number(value, output)?;
        }
    }
    if let Some(word) = reader.word {
        write_number(word.value, output)?;
    }
    output.flush().map_err(Trouble::Output)
}

impl Reader {
    /// Takes one byte; gives the number that it ends, if it ends one.
    fn step(&mut self, byte: u8) -> Result<Option<u64>, Trouble> {
        let mut ended = None;
        if byte == b'#' || byte.is_ascii_whitespace() {
            ended = self.word.take().map(|word| word.value);
            self.comment = byte != b'\n' && (self.comment || byte == b'#');
        } else if !self.comment {
            self.digit(byte)?;
        }
        if byte == b'\n' {
            self.line += 1;
            self.column = 0;
        }
        self.column += 1;
        Ok(ended)
    }

    fn digit(&mut self, byte: u8) -> Result<(), Trouble> {
        let (line, column) = (self.line, self.column);
        let word = self.word.get_or_insert(Word { line, column, value: 0 });
        let bad = |why| Trouble::BadNumber { line: word.line, column: word.column, why };
        if !byte.is_ascii_digit() {
            return Err(bad(Why::NotADigit(byte)));
        }
        let value = u128::from(word.value) * 10 + u128::from(byte - b'0');
        if value >= 1 << 63 {
            return Err(bad(Why::TooLarge));
        }
        word.value = value as u64;
        Ok(())
    }
}

fn next<S: BufRead>(text: &mut S) -> io::Result<Option<u8>> {
    loop {
        match text.fill_buf() {
            Ok([]) => return Ok(None),
            Ok(&[byte, ..]) => {
                text.consume(1);
                return Ok(Some(byte));
            }
            Err(error) if error.kind() == ErrorKind::Interrupted => {}
            Err(error) => return Err(error),
        }
    }
}

fn write_number<W: Write>(value: u64, output: &mut W) -> Result<(), Trouble> {
    let mut bytes = Vec::with_capacity(9);
    push_number(value, &mut bytes).expect("a number below 2^63");
    output.write_all(&bytes).map_err(Trouble::Output)
}
