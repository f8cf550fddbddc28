//! A file's bytes as text, read character by character with the place of each.

use super::error::{ParseError, Place};
use super::LARGEST_FILE;
use std::str;

/// The bytes as text that TOML allows: not too long, UTF-8, no control characters; without a byte order mark at its start.
pub(super) fn text(bytes: &[u8]) -> Result<&str, ParseError> {
    if bytes.len() > LARGEST_FILE {
        return Err(ParseError::of_file(
            "it has more than 65,536 bytes; a profile has far fewer",
        ));
    }
    let text = str::from_utf8(bytes).map_err(|error| no_utf8(bytes, error.valid_up_to()))?;
    let text = without_mark(text);
    match text.char_indices().find(|(at, _)| is_forbidden(text, *at)) {
        None => Ok(text),
        Some((at, character)) => Err(forbidden(&text[..at], character)),
    }
}

fn without_mark(text: &str) -> &str {
    text.strip_prefix('\u{FEFF}').unwrap_or(text)
}

fn no_utf8(bytes: &[u8], at: usize) -> ParseError {
    let before = str::from_utf8(&bytes[..at]).expect("UTF-8 up to there");
    ParseError::at(
        behind(without_mark(before)),
        format!("byte {} is no UTF-8: {:02X}h", at + 1, bytes[at]),
    )
}

/// TOML forbids these everywhere, in comments and in quotes too.
fn is_forbidden(text: &str, at: usize) -> bool {
    match text.as_bytes()[at] {
        b'\t' | b'\n' => false,
        b'\r' => !text[at..].starts_with("\r\n"),
        byte => byte.is_ascii_control(),
    }
}

fn forbidden(before: &str, character: char) -> ParseError {
    let message = match character {
        '\r' => "a carriage return without a line feed behind it".to_string(),
        other => format!(
            "a control character, U+{:04X}; in double quotes it is written \\u{0:04X}",
            u32::from(other)
        ),
    };
    ParseError::at(behind(before), message)
}

/// The place behind a text.
fn behind(text: &str) -> Place {
    let mut cursor = Cursor::new(text);
    while cursor.next().is_some() {}
    cursor.place
}

/// What is left of a text, and its place.
pub(super) struct Cursor<'a> {
    rest: &'a str,
    place: Place,
}

impl<'a> Cursor<'a> {
    pub fn new(text: &'a str) -> Cursor<'a> {
        Cursor {
            rest: text,
            place: Place { line: 1, column: 1 },
        }
    }

    pub fn place(&self) -> Place {
        self.place
    }

    /// The next character; a line's end is LF, however it is written.
    pub fn peek(&self) -> Option<char> {
        match self.rest.chars().next() {
            Some('\r') => Some('\n'),
            other => other,
        }
    }

    pub fn next(&mut self) -> Option<char> {
        let character = self.peek()?;
        if character == '\n' {
            let end = self.rest.find('\n').map_or(self.rest.len(), |at| at + 1);
            self.rest = &self.rest[end..];
            self.place.line += 1;
            self.place.column = 1;
        } else {
            self.rest = &self.rest[character.len_utf8()..];
            self.place.column += 1;
        }
        Some(character)
    }

    /// Goes past these characters, none of them a line's end, if they are next.
    pub fn eat(&mut self, wanted: &str) -> bool {
        let found = self.rest.starts_with(wanted);
        if found {
            self.rest = &self.rest[wanted.len()..];
            self.place.column += wanted.chars().count();
        }
        found
    }

    /// Goes past all characters of this kind; never past a line's end.
    pub fn take_while(&mut self, kind: impl Fn(char) -> bool) -> &'a str {
        let is_end = |character: char| matches!(character, '\r' | '\n') || !kind(character);
        let end = self.rest.find(is_end).unwrap_or(self.rest.len());
        let (taken, rest) = self.rest.split_at(end);
        self.rest = rest;
        self.place.column += taken.chars().count();
        taken
    }

    pub fn skip_blanks(&mut self) {
        self.take_while(is_blank);
    }

    pub fn skip_comment(&mut self) {
        if self.peek() == Some('#') {
            self.take_while(|_| true);
        }
    }

    /// Blanks, comments and line ends.
    pub fn skip_lines(&mut self) {
        loop {
            self.skip_blanks();
            self.skip_comment();
            if self.peek() != Some('\n') {
                return;
            }
            self.next();
        }
    }

    /// The next word, to be named in an error: up to a blank or the line's end.
    pub fn word(&self) -> &'a str {
        let is_end = |character: char| is_blank(character) || matches!(character, '\r' | '\n');
        &self.rest[..self.rest.find(is_end).unwrap_or(self.rest.len())]
    }
}

fn is_blank(character: char) -> bool {
    matches!(character, ' ' | '\t')
}
