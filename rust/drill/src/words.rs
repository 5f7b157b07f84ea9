//! A line as words, each with the place where it stands.

/// Why a line is no command, and the column at which it goes wrong, in
/// characters from 1.
#[derive(Clone, Debug, PartialEq, Eq)]
pub(crate) struct Fault {
    pub column: usize,
    pub why: String,
}

#[derive(Clone, Copy, Debug, PartialEq, Eq)]
pub(crate) struct Word<'a> {
    pub text: &'a str,
    pub column: usize,
}

impl Word<'_> {
    pub fn fault(self, why: impl Into<String>) -> Fault {
        Fault { column: self.column, why: why.into() }
    }

    pub fn is_number(self) -> bool {
        self.text.bytes().all(|byte| byte.is_ascii_digit())
    }

    /// The word as a number; `what` says what stands here.
    pub fn number(self, what: &str) -> Result<u64, Fault> {
        if !self.is_number() {
            return Err(self.fault(format!("{what} must be a number, not '{}'", self.text)));
        }
        self.text.parse().map_err(|_| self.fault(format!("{what} is above 2^64 - 1")))
    }
}

/// The words of a line that are still to be read.
pub(crate) struct Words<'a> {
    words: std::vec::IntoIter<Word<'a>>,
    end: usize,
}

/// What stands before the comment, if the line has one.
pub(crate) fn without_comment(line: &str) -> &str {
    line.split('#').next().unwrap_or(line).trim_end()
}

impl<'a> Words<'a> {
    /// Words are parted by blanks and commas; a semicolon is a word of its own.
    pub fn of(line: &'a str) -> Words<'a> {
        let line = without_comment(line);
        let mut words = Vec::new();
        let mut begun: Option<(usize, usize)> = None;
        let mut end = 1;
        for (place, letter) in line.char_indices() {
            let parts = letter.is_whitespace() || letter == ',' || letter == ';';
            if !parts {
                begun.get_or_insert((place, end));
            } else if let Some((from, column)) = begun.take() {
                words.push(Word { text: &line[from..place], column });
            }
            if letter == ';' {
                words.push(Word { text: ";", column: end });
            }
            end += 1;
        }
        if let Some((from, column)) = begun {
            words.push(Word { text: &line[from..], column });
        }
        Words { words: words.into_iter(), end }
    }

    pub fn peek(&self) -> Option<Word<'a>> {
        self.words.as_slice().first().copied()
    }

    /// The next word; `what` says what is missing where the line ends.
    pub fn word(&mut self, what: &str) -> Result<Word<'a>, Fault> {
        let end = self.end;
        self.words.next().ok_or_else(|| Fault { column: end, why: format!("{what} is missing") })
    }

    pub fn number(&mut self, what: &str) -> Result<u64, Fault> {
        self.word(what)?.number(what)
    }

    /// The semicolon before a further part of the command.
    pub fn semicolon(&mut self, before: &str) -> Result<(), Fault> {
        let what = format!("the semicolon before {before}");
        let word = self.word(&what)?;
        match word.text {
            ";" => Ok(()),
            other => Err(word.fault(format!("{what} is missing here, before '{other}'"))),
        }
    }

    /// The words up to the next semicolon or the end of the line.
    pub fn part(&mut self) -> Vec<Word<'a>> {
        let mut part = Vec::new();
        while let Some(word) = self.peek().filter(|word| word.text != ";") {
            part.push(word);
            self.words.next();
        }
        part
    }

    /// Nothing may follow.
    pub fn end(&mut self) -> Result<(), Fault> {
        match self.words.next() {
            None => Ok(()),
            Some(word) => Err(word.fault(format!("'{}' is too much: the command ends before it", word.text))),
        }
    }
}
