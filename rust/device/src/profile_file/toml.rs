//! TOML 1.0, as far as a profile needs it: a document's tables, with the place of every key and value.
//!
//! All of the grammar is read, except that booleans, floating-point numbers and dates are refused where they stand.

use super::cursor::Cursor;
use super::error::{ParseError, Place};
use super::shown::quoted;
use super::tree::{Content, Key, Origin, Table, Value};
use super::{number, string, DEEPEST};

/// The top table of a document.
pub(super) fn document(text: &str) -> Result<Table, ParseError> {
    let mut cursor = Cursor::new(text);
    let mut root = Table::new(cursor.place(), Origin::Header);
    let mut table = &mut root;
    let mut depth = 0;
    loop {
        cursor.skip_lines();
        match cursor.peek() {
            None => return Ok(root),
            Some('[') => {
                let header = header(&mut cursor)?;
                depth = header.path.len();
                table = if header.next {
                    root.open_next(&header.path, header.place)?
                } else {
                    root.open(&header.path, header.place)?
                };
            }
            Some(_) => {
                let (path, value) = entry(&mut cursor, depth)?;
                table.add(&path, value)?;
            }
        }
        end_line(&mut cursor)?;
    }
}

struct Header {
    place: Place,
    path: Vec<Key>,
    /// In double brackets: the next one of a list.
    next: bool,
}

fn header(cursor: &mut Cursor) -> Result<Header, ParseError> {
    let place = cursor.place();
    let next = cursor.eat("[[");
    if !next {
        cursor.next();
    }
    let path = path(cursor, 0)?;
    let end = if next { "]]" } else { "]" };
    if !cursor.eat(end) {
        return Err(missing(cursor, &format!("`{}`", end)));
    }
    Ok(Header { place, path, next })
}

fn missing(cursor: &Cursor, what: &str) -> ParseError {
    ParseError::at(cursor.place(), format!("{} is missing here", what))
}

/// Nothing but a comment up to the line's end.
fn end_line(cursor: &mut Cursor) -> Result<(), ParseError> {
    cursor.skip_blanks();
    cursor.skip_comment();
    if matches!(cursor.peek(), None | Some('\n')) {
        return Ok(());
    }
    let message = format!(
        "{} is too much: only a comment may follow on this line",
        quoted(cursor.word())
    );
    Err(ParseError::at(cursor.place(), message))
}

/// A key and its value, `depth` levels down.
fn entry(cursor: &mut Cursor, depth: usize) -> Result<(Vec<Key>, Value), ParseError> {
    let path = path(cursor, depth)?;
    if !cursor.eat("=") {
        return Err(missing(cursor, "`=`"));
    }
    cursor.skip_blanks();
    let value = value(cursor, depth + path.len())?;
    Ok((path, value))
}

/// One level further down.
fn deeper(depth: usize, place: Place) -> Result<usize, ParseError> {
    if depth < DEEPEST {
        return Ok(depth + 1);
    }
    let message = format!("more than {} levels of keys and lists", DEEPEST);
    Err(ParseError::at(place, message))
}

/// A key with its parts between dots, and the blanks around them.
fn path(cursor: &mut Cursor, depth: usize) -> Result<Vec<Key>, ParseError> {
    let mut parts = Vec::new();
    loop {
        cursor.skip_blanks();
        deeper(depth + parts.len(), cursor.place())?;
        parts.push(key(cursor)?);
        cursor.skip_blanks();
        if !cursor.eat(".") {
            return Ok(parts);
        }
    }
}

fn key(cursor: &mut Cursor) -> Result<Key, ParseError> {
    let place = cursor.place();
    let text = match cursor.peek() {
        Some(mark @ ('"' | '\'')) => string::key(cursor, mark)?,
        _ => cursor
            .take_while(|c| c.is_ascii_alphanumeric() || matches!(c, '_' | '-'))
            .to_string(),
    };
    if text.is_empty() && place == cursor.place() {
        return Err(no_key(cursor));
    }
    Ok(Key { text, place })
}

fn no_key(cursor: &Cursor) -> ParseError {
    match cursor.peek() {
        Some(character) if !character.is_ascii() => {
            let character = quoted(&character.to_string());
            let message = format!("{} stands in a key only in quotes", character);
            ParseError::at(cursor.place(), message)
        }
        _ => missing(cursor, "a key"),
    }
}

fn value(cursor: &mut Cursor, depth: usize) -> Result<Value, ParseError> {
    let place = cursor.place();
    let content = match cursor.peek() {
        None | Some('\n' | '#' | ',' | ']' | '}' | '=') => return Err(missing(cursor, "a value")),
        Some('"' | '\'') => Content::Text(string::value(cursor)?),
        Some('[') => Content::List(list(cursor, depth)?),
        Some('{') => Content::Table(inline_table(cursor, depth)?),
        Some(_) => number::value(cursor)?,
    };
    Ok(Value { place, content })
}

fn list(cursor: &mut Cursor, depth: usize) -> Result<Vec<Value>, ParseError> {
    let from = cursor.place();
    let depth = deeper(depth, from)?;
    cursor.next();
    let mut values = Vec::new();
    loop {
        cursor.skip_lines();
        if cursor.eat("]") {
            return Ok(values);
        }
        if cursor.peek().is_none() {
            return Err(ParseError::at(from, "the list that starts here has no `]`"));
        }
        values.push(value(cursor, depth)?);
        cursor.skip_lines();
        if !cursor.eat(",") && !matches!(cursor.peek(), None | Some(']')) {
            let what = format!("`,` or `]` of the list from {}", from);
            return Err(missing(cursor, &what));
        }
    }
}

/// A table in braces: on one line, and without a comma at its end.
fn inline_table(cursor: &mut Cursor, depth: usize) -> Result<Table, ParseError> {
    let mut table = Table::new(cursor.place(), Origin::Inline);
    cursor.next();
    cursor.skip_blanks();
    if cursor.eat("}") {
        return Ok(table);
    }
    loop {
        let (path, value) = entry(cursor, depth)?;
        table.add(&path, value)?;
        cursor.skip_blanks();
        if cursor.eat("}") {
            return Ok(table);
        }
        if !cursor.eat(",") {
            return Err(missing(cursor, "`,` or `}` on the same line"));
        }
    }
}
