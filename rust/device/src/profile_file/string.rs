//! Text in quotes, of TOML's four kinds.

use super::cursor::Cursor;
use super::error::{ParseError, Place};
use super::shown::quoted;

/// How a text is quoted, and where it starts.
struct Quotes {
    mark: char,
    /// Three marks: line ends may stand in it.
    long: bool,
    from: Place,
}

/// A text as a value.
pub(super) fn value(cursor: &mut Cursor) -> Result<String, ParseError> {
    let from = cursor.place();
    let mark = if cursor.peek() == Some('\'') {
        '\''
    } else {
        '"'
    };
    let long = cursor.eat(if mark == '"' { "\"\"\"" } else { "'''" });
    if !long {
        cursor.next();
    } else if cursor.peek() == Some('\n') {
        cursor.next(); // a line's end right behind the quotes is not part of the text
    }
    body(cursor, &Quotes { mark, long, from })
}

/// A text as a key: it stands on one line.
pub(super) fn key(cursor: &mut Cursor, mark: char) -> Result<String, ParseError> {
    let from = cursor.place();
    cursor.next();
    let long = false;
    body(cursor, &Quotes { mark, long, from })
}

fn body(cursor: &mut Cursor, quotes: &Quotes) -> Result<String, ParseError> {
    let mut text = String::new();
    loop {
        let place = cursor.place();
        match cursor.next() {
            None => return Err(unclosed(quotes)),
            Some('\n') if !quotes.long => return Err(unclosed(quotes)),
            Some('\\') if quotes.mark == '"' => escape(cursor, quotes, place, &mut text)?,
            Some(mark) if mark == quotes.mark => {
                if closes(cursor, quotes, &mut text) {
                    return Ok(text);
                }
            }
            Some(character) => text.push(character),
        }
    }
}

fn unclosed(quotes: &Quotes) -> ParseError {
    let message = if quotes.long {
        "the text that starts here has no closing quotes"
    } else {
        "the text that starts here has no closing quote on its line"
    };
    ParseError::at(quotes.from, message)
}

/// Whether the mark just passed ends the text. One or two marks may stand in a long text, right before its end too.
fn closes(cursor: &mut Cursor, quotes: &Quotes, text: &mut String) -> bool {
    if !quotes.long {
        return true;
    }
    let mut marks = 1;
    while marks < 5 && cursor.peek() == Some(quotes.mark) {
        cursor.next();
        marks += 1;
    }
    let ends = marks >= 3;
    let own = if ends { marks - 3 } else { marks };
    text.extend(std::iter::repeat(quotes.mark).take(own));
    ends
}

/// What follows a backslash at `place`.
fn escape(
    cursor: &mut Cursor,
    quotes: &Quotes,
    place: Place,
    text: &mut String,
) -> Result<(), ParseError> {
    let letter = cursor.peek();
    if quotes.long && matches!(letter, Some(' ' | '\t' | '\n')) {
        return joined_line(cursor, place);
    }
    text.push(match letter {
        Some('b') => '\u{8}',
        Some('t') => '\t',
        Some('n') => '\n',
        Some('f') => '\u{C}',
        Some('r') => '\r',
        Some('"') => '"',
        Some('\\') => '\\',
        Some('u') => return numbered(cursor, place, 4, text),
        Some('U') => return numbered(cursor, place, 8, text),
        None | Some('\n') => return Err(unclosed(quotes)),
        Some(other) => return Err(no_escape(place, other)),
    });
    cursor.next();
    Ok(())
}

fn no_escape(place: Place, letter: char) -> ParseError {
    let written = quoted(&format!("\\{}", letter));
    let message = format!("{} is no escape; a backslash is written \\\\", written);
    ParseError::at(place, message)
}

/// A backslash at a line's end takes the line's end and what is blank behind it out of the text.
fn joined_line(cursor: &mut Cursor, place: Place) -> Result<(), ParseError> {
    cursor.skip_blanks();
    if cursor.peek() != Some('\n') {
        return Err(no_escape(place, ' '));
    }
    while matches!(cursor.peek(), Some(' ' | '\t' | '\n')) {
        cursor.next();
    }
    Ok(())
}

/// `\u` or `\U`, with so many digits.
fn numbered(
    cursor: &mut Cursor,
    place: Place,
    digits: usize,
    text: &mut String,
) -> Result<(), ParseError> {
    let mut written = String::from("\\");
    written.extend(cursor.next());
    let mut number = 0;
    for _ in 0..digits {
        let digit = cursor.peek().and_then(|digit| digit.to_digit(16));
        let digit = digit.ok_or_else(|| {
            let message = format!("{} needs {} hexadecimal digits", quoted(&written), digits);
            ParseError::at(place, message)
        })?;
        written.extend(cursor.next());
        number = number * 16 + digit;
    }
    let message = || format!("{} is no character", quoted(&written));
    text.push(char::from_u32(number).ok_or_else(|| ParseError::at(place, message()))?);
    Ok(())
}
