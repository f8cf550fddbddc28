//! The entries of a profile file: which there are, and what each holds.

use super::error::{ParseError, Place};
use super::nearest::nearest;
use super::shown::quoted;
use super::tree::{Content, Table, Value};
use super::{Named, LONGEST_NAME};
use crate::profile::{Area, Kind, Profile};
use std::convert::TryFrom;
use std::mem::size_of;

/// A table of the file.
struct Section<'a> {
    table: &'a Table,
    /// How errors call it.
    title: &'static str,
    /// Where it starts; `None` for the whole file.
    place: Option<Place>,
}

/// Five entries, then the tables.
const TOP: [&str; 7] = ["name", "typ", "bfv", "sci", "rmb", "window", "area"];
const WINDOW: [&str; 2] = ["low", "high"];
const AREA: [&str; 5] = ["kind", "sad", "ead", "eau", "wau"];
const KINDS: [(&str, Kind); 3] = [
    ("user", Kind::User),
    ("data", Kind::Data),
    ("config", Kind::Config),
];

pub(super) fn named(root: &Table) -> Result<Named, ParseError> {
    let top = Section {
        table: root,
        title: "a profile",
        place: None,
    };
    top.check_keys(&TOP)?;
    let name = name(&top)?;
    let typ = top.number("typ")?;
    let bfv = top.number("bfv")?;
    let sci = top.number("sci")?;
    let rmb = top.number("rmb")?;
    let (low, high) = window(root)?;
    let areas = areas(root)?;
    let profile = Profile {
        areas,
        sci,
        rmb,
        typ,
        bfv,
        low,
        high,
    };
    Ok(Named { name, profile })
}

fn name(top: &Section) -> Result<String, ParseError> {
    let (name, place) = top.text("name")?;
    let length = name.chars().count();
    if length > LONGEST_NAME {
        let message = format!(
            "a name has at most {} characters, and this one {}",
            LONGEST_NAME, length
        );
        return Err(ParseError::at(place, message));
    }
    if name.trim().is_empty() {
        return Err(ParseError::at(place, "the name is empty"));
    }
    Ok(name.to_string())
}

/// Without a window there is no limit, which equal numbers say.
fn window(root: &Table) -> Result<(u32, u32), ParseError> {
    let value = match root.entries.get("window") {
        Some(entry) => &entry.value,
        None => return Ok((0, 0)),
    };
    let section = match &value.content {
        Content::Table(table) => Section {
            table,
            title: "[window]",
            place: Some(table.place),
        },
        _ => return Err(wanted(value, "`window` is one table, [window]")),
    };
    section.check_keys(&WINDOW)?;
    Ok((section.number("low")?, section.number("high")?))
}

fn areas(root: &Table) -> Result<Vec<Area>, ParseError> {
    let value = match root.entries.get("area") {
        Some(entry) => &entry.value,
        None => return Ok(Vec::new()),
    };
    match &value.content {
        Content::Tables(tables) => tables.iter().map(area).collect(),
        Content::List(values) => values
            .iter()
            .map(|value| match &value.content {
                Content::Table(table) => area(table),
                _ => Err(wanted(value, "an area is a table")),
            })
            .collect(),
        _ => Err(wanted(value, "`area` is a list of tables, each [[area]]")),
    }
}

fn area(table: &Table) -> Result<Area, ParseError> {
    let section = Section {
        table,
        title: "[[area]]",
        place: Some(table.place),
    };
    section.check_keys(&AREA)?;
    Ok(Area {
        kind: kind(&section)?,
        sad: section.number("sad")?,
        ead: section.number("ead")?,
        eau: section.number("eau")?,
        wau: section.number("wau")?,
    })
}

fn kind(section: &Section) -> Result<Kind, ParseError> {
    let (word, place) = section.text("kind")?;
    let known = KINDS.iter().find(|(name, _)| *name == word);
    known.map(|(_, kind)| *kind).ok_or_else(|| {
        let names = KINDS.map(|(name, _)| name);
        let message = format!(
            "{} is no kind of area; there are {}",
            quoted(word),
            all(&names)
        );
        ParseError::at(place, message)
    })
}

/// The error of a value of the wrong type.
fn wanted(value: &Value, wanted: &str) -> ParseError {
    let message = format!("{} stands here, and {}", value.kind(), wanted);
    ParseError::at(value.place, message)
}

/// Words in quotes, with commas between them.
fn all(words: &[&str]) -> String {
    let quoted: Vec<String> = words.iter().map(|word| format!("`{}`", word)).collect();
    quoted.join(", ")
}

impl<'a> Section<'a> {
    /// Refuses the first key in the file that is not among these.
    fn check_keys(&self, known: &[&str]) -> Result<(), ParseError> {
        let entries = self.table.entries.iter();
        let unknown = entries.filter(|(key, _)| !known.contains(&key.as_str()));
        match unknown.min_by_key(|(_, entry)| entry.key) {
            None => Ok(()),
            Some((key, entry)) => Err(ParseError::at(entry.key, self.unknown(key, known))),
        }
    }

    fn unknown(&self, key: &str, known: &[&str]) -> String {
        let near = all(&nearest(key, known)).replace(", ", " or ");
        let hint = if !near.is_empty() {
            format!("; did you mean {}?", near)
        } else if TOP[..5].contains(&key) {
            "; it belongs above the first table".to_string()
        } else {
            String::new()
        };
        let (key, known) = (quoted(key), all(known));
        format!("unknown key {}; {} has {}{}", key, self.title, known, hint)
    }

    fn value(&self, key: &str) -> Result<&'a Value, ParseError> {
        let entry = self.table.entries.get(key);
        entry
            .map(|entry| &entry.value)
            .ok_or_else(|| match self.place {
                Some(place) => {
                    ParseError::at(place, format!("this {} has no `{}`", self.title, key))
                }
                None => ParseError::of_file(format!("it has no `{}`", key)),
            })
    }

    fn text(&self, key: &str) -> Result<(&'a str, Place), ParseError> {
        let value = self.value(key)?;
        match &value.content {
            Content::Text(text) => Ok((text, value.place)),
            _ => Err(wanted(value, &format!("`{}` is text in quotes", key))),
        }
    }

    /// A number of as many bytes as `T` has.
    fn number<T: TryFrom<i64>>(&self, key: &str) -> Result<T, ParseError> {
        let limits = match size_of::<T>() {
            1 => "number of one byte, 0 to 0xFF",
            2 => "number of two bytes, 0 to 0xFFFF",
            _ => "number of four bytes, 0 to 0xFFFF_FFFF",
        };
        let value = self.value(key)?;
        match &value.content {
            Content::Number { number, written } => T::try_from(*number).map_err(|_| {
                let message = format!("{} is no {}", quoted(written), limits);
                ParseError::at(value.place, message)
            }),
            _ => Err(wanted(value, &format!("`{}` is a {}", key, limits))),
        }
    }
}
