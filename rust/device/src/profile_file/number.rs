//! Whole numbers, and what else may stand without quotes.

use super::cursor::Cursor;
use super::error::{ParseError, Place};
use super::shown::quoted;
use super::tree::Content;

/// A number as a value. A boolean, a floating-point number or a date is recognised just well enough to say that a profile has none.
pub(super) fn value(cursor: &mut Cursor) -> Result<Content, ParseError> {
    let place = cursor.place();
    let written = cursor.take_while(|c| c.is_ascii_alphanumeric() || "_+-.:".contains(c));
    if written.is_empty() {
        return Err(no_number(cursor.word(), place));
    }
    if let Some(kind) = other_kind(written) {
        let message = format!(
            "{} stands here, and a profile has only numbers and text",
            kind
        );
        return Err(ParseError::at(place, message));
    }
    let number = whole(written, place)?;
    let written = written.to_string();
    Ok(Content::Number { number, written })
}

fn no_number(written: &str, place: Place) -> ParseError {
    let message = format!(
        "{} is no number, and text stands in quotes",
        quoted(written)
    );
    ParseError::at(place, message)
}

fn unsigned(written: &str) -> &str {
    written.strip_prefix(&['+', '-'][..]).unwrap_or(written)
}

fn other_kind(written: &str) -> Option<&'static str> {
    let number = unsigned(written);
    if matches!(written, "true" | "false") {
        return Some("a boolean");
    }
    if matches!(number, "inf" | "nan") {
        return Some("a floating-point number");
    }
    let digits = number.find(|c: char| !c.is_ascii_digit() && c != '_')?;
    let mut behind = number[digits..].chars();
    match (digits, behind.next(), behind.next()) {
        (0, ..) => None,
        (_, Some('.'), _) => Some("a floating-point number"),
        (_, Some('e' | 'E'), Some('+' | '-' | '0'..='9')) => Some("a floating-point number"),
        (4, Some('-'), Some('0'..='9')) => Some("a date"),
        (2, Some(':'), Some('0'..='9')) => Some("a time"),
        _ => None,
    }
}

fn whole(written: &str, place: Place) -> Result<i64, ParseError> {
    let wrong = |message: String| ParseError::at(place, message);
    let number = unsigned(written);
    let (radix, digits) = match number.get(..2) {
        Some("0x") => (16, &number[2..]),
        Some("0o") => (8, &number[2..]),
        Some("0b") => (2, &number[2..]),
        _ => (10, number),
    };
    let signed = number.len() < written.len();
    if radix == 10 && !number.starts_with(|c: char| c.is_ascii_digit()) {
        return Err(no_number(written, place));
    }
    check_digits(written, written.len() - digits.len(), radix, place)?;
    if radix != 10 && signed {
        let message = format!("{} has a sign; only decimal numbers may", quoted(written));
        return Err(wrong(message));
    }
    if radix == 10 && digits.len() > 1 && digits.starts_with('0') {
        let message = format!("{} starts with a 0 too many", quoted(written));
        return Err(wrong(message));
    }
    let sign = if written.starts_with('-') { "-" } else { "" };
    let plain = format!("{}{}", sign, digits.replace('_', ""));
    let message = || format!("{} does not fit in 64 bits", quoted(written));
    i64::from_str_radix(&plain, radix).map_err(|_| wrong(message()))
}

/// Digits from `start` on, at least one, and underscores only between two of them.
fn check_digits(written: &str, start: usize, radix: u32, place: Place) -> Result<(), ParseError> {
    let digits = written.as_bytes();
    let is_digit = |at: usize| {
        let digit = digits.get(at).filter(|_| at >= start);
        digit.map_or(false, |digit| char::from(*digit).is_digit(radix))
    };
    let wrong = |at: usize, message: String| {
        let column = place.column + at;
        Err(ParseError::at(Place { column, ..place }, message))
    };
    if digits.len() == start {
        return wrong(0, format!("{} has no digits", quoted(written)));
    }
    for at in start..digits.len() {
        if digits[at] == b'_' {
            if at == 0 || !is_digit(at - 1) || !is_digit(at + 1) {
                let message = "an underscore stands only between two digits";
                return wrong(at, message.to_string());
            }
        } else if !is_digit(at) {
            let digit = quoted(&written[at..at + 1]);
            return wrong(at, format!("{} is no digit {}", digit, of_a(radix)));
        }
    }
    Ok(())
}

fn of_a(radix: u32) -> &'static str {
    match radix {
        16 => "of a hexadecimal number",
        10 => "of a decimal number",
        8 => "of an octal number",
        _ => "of a binary number",
    }
}
