//! A line of a plan as words, and as strings between quotes with the escapes of the text form.

use plain::{Place, TextError};

use crate::names::shown;

pub type Parsed<T> = Result<T, TextError>;

/// An error at a place.
pub fn error((line, column): Place, message: impl Into<String>) -> TextError {
    TextError { line, column, message: message.into() }
}

/// A word, or a string.
#[derive(Clone)]
pub struct Token {
    pub place: Place,
    pub quoted: bool,
    pub bytes: Vec<u8>,
}

impl Token {
    /// What it is, unless it is a string.
    pub fn word(&self) -> Option<&str> {
        std::str::from_utf8(&self.bytes).ok().filter(|_| !self.quoted)
    }

    pub fn number(&self) -> Option<u32> {
        self.word().and_then(plain::number)
    }

    /// As a listing shows it.
    pub fn shown(&self) -> String {
        match self.quoted {
            true => plain::text::quoted(&self.bytes),
            false => shown(&self.bytes),
        }
    }

    /// As a message shows it.
    fn told(&self) -> String {
        match self.word() {
            Some(word) => format!("'{}'", word.escape_debug()),
            None => format!("the string {}", plain::text::quoted(&self.bytes)),
        }
    }
}

/// The tokens of a line that are left, the next one last.
pub struct Line {
    tokens: Vec<Token>,
    /// The place behind the last of them.
    end: Place,
}

impl Line {
    /// The line of this number. `#` starts a comment.
    pub fn new(number: usize, text: &str) -> Parsed<Self> {
        let mut line = Line { tokens: Vec::new(), end: (number, 1) };
        let (mut rest, mut column) = (text, 1);
        while let Some(first) = rest.chars().next().filter(|first| *first != '#') {
            let (place, from) = ((number, column), rest);
            if first.is_whitespace() {
                rest = &rest[first.len_utf8()..];
            } else if first == '"' {
                let (bytes, behind) = plain::string(place, rest)?;
                line.tokens.push(Token { place, quoted: true, bytes });
                rest = behind;
            } else {
                let ends = |c: char| c.is_whitespace() || c == '#' || c == '"';
                let (word, behind) = rest.split_at(rest.find(ends).unwrap_or(rest.len()));
                line.tokens.push(Token { place, quoted: false, bytes: word.as_bytes().to_vec() });
                rest = behind;
            }
            column += from[..from.len() - rest.len()].chars().count();
            if !first.is_whitespace() {
                line.end = (number, column);
            }
        }
        line.tokens.reverse();
        Ok(line)
    }

    pub fn is_empty(&self) -> bool {
        self.tokens.is_empty()
    }

    /// The tokens that are left, as a listing shows them.
    pub fn shown(&self) -> String {
        self.tokens.iter().rev().map(Token::shown).collect::<Vec<_>>().join(" ")
    }

    /// The error that something else was expected than the next token.
    pub fn expects(&self, expected: &str) -> TextError {
        let (place, found) = match self.tokens.last() {
            Some(token) => (token.place, token.told()),
            None => (self.end, "the end of the line".to_owned()),
        };
        error(place, format!("expected {expected}, found {found}"))
    }

    /// The next token, which is to be this.
    pub fn next(&mut self, expected: &str) -> Parsed<Token> {
        let error = self.expects(expected);
        self.tokens.pop().ok_or(error)
    }

    pub fn number(&mut self, expected: &str) -> Parsed<u32> {
        let error = self.expects(&format!("{expected}, below 4294967296"));
        self.tokens.pop().and_then(|token| token.number()).ok_or(error)
    }

    pub fn keyword(&mut self, word: &str) -> Parsed<()> {
        let error = self.expects(&format!("'{word}'"));
        self.tokens.pop().filter(|token| token.word() == Some(word)).map(|_| ()).ok_or(error)
    }

    pub fn end(&self) -> Parsed<()> {
        match self.is_empty() {
            true => Ok(()),
            false => Err(self.expects("the end of the line")),
        }
    }
}
