//! Tables and what they hold; what may be added to a table, and what was given already.

use super::error::{ParseError, Place};
use super::shown::quoted;
use std::collections::btree_map::{BTreeMap, Entry as Slot};

/// One part of a key, and where it stands.
pub(super) struct Key {
    pub text: String,
    pub place: Place,
}

pub(super) enum Content {
    Number {
        number: i64,
        /// As the file has it.
        written: String,
    },
    Text(String),
    List(Vec<Value>),
    Table(Table),
    /// What `[[..]]` adds to.
    Tables(Vec<Table>),
}

pub(super) struct Value {
    pub place: Place,
    pub content: Content,
}

impl Value {
    /// What stands there, in words.
    pub fn kind(&self) -> &'static str {
        match self.content {
            Content::Number { .. } => "a number",
            Content::Text(_) => "text",
            Content::List(_) => "a list",
            Content::Table(_) => "a table",
            Content::Tables(_) => "a list of tables",
        }
    }
}

/// How a table came to be: it decides what may still be added.
#[derive(Clone, Copy, PartialEq)]
pub(super) enum Origin {
    /// By its own header.
    Header,
    /// On the way to a table deeper down, by that one's header: its own may still come.
    Passed,
    /// By a key with dots.
    Dotted,
    /// In braces, whole: nothing may be added.
    Inline,
}

pub(super) struct Entry {
    /// Where its key stands.
    pub key: Place,
    pub value: Value,
}

pub(super) struct Table {
    pub place: Place,
    pub entries: BTreeMap<String, Entry>,
    origin: Origin,
}

impl Table {
    pub fn new(place: Place, origin: Origin) -> Table {
        let entries = BTreeMap::new();
        Table {
            place,
            entries,
            origin,
        }
    }

    /// The table of a header `[path]` that stands at `place`.
    pub fn open(&mut self, path: &[Key], place: Place) -> Result<&mut Table, ParseError> {
        let (last, table) = self.walk(path, Origin::Passed)?;
        let entry = table.entry(last, || {
            Content::Table(Table::new(place, Origin::Passed)) // its own header is this one
        });
        match &mut entry.value.content {
            Content::Table(table) if table.origin == Origin::Passed => {
                table.origin = Origin::Header;
                table.place = place;
                Ok(table)
            }
            _ => Err(twice(last, entry.key)),
        }
    }

    /// The new table of a header `[[path]]` that stands at `place`.
    pub fn open_next(&mut self, path: &[Key], place: Place) -> Result<&mut Table, ParseError> {
        let (last, table) = self.walk(path, Origin::Passed)?;
        let entry = table.entry(last, || Content::Tables(Vec::new()));
        match &mut entry.value.content {
            Content::Tables(tables) => {
                tables.push(Table::new(place, Origin::Header));
                Ok(tables.last_mut().expect("the table just added"))
            }
            _ => Err(twice(last, entry.key)),
        }
    }

    /// Adds an entry.
    pub fn add(&mut self, path: &[Key], value: Value) -> Result<(), ParseError> {
        let (last, table) = self.walk(path, Origin::Dotted)?;
        match table.entries.entry(last.text.clone()) {
            Slot::Occupied(first) => Err(twice(last, first.get().key)),
            Slot::Vacant(slot) => {
                let key = last.place;
                slot.insert(Entry { key, value });
                Ok(())
            }
        }
    }

    /// The last part of a path, and the table that the parts before it lead to; where none is, it is made.
    fn walk<'a>(
        &mut self,
        path: &'a [Key],
        origin: Origin,
    ) -> Result<(&'a Key, &mut Table), ParseError> {
        let (last, before) = path.split_last().expect("a key has a part");
        let mut table = self;
        for key in before {
            table = table.step(key, origin)?;
        }
        Ok((last, table))
    }

    fn entry(&mut self, key: &Key, content: impl FnOnce() -> Content) -> &mut Entry {
        let place = key.place;
        self.entries
            .entry(key.text.clone())
            .or_insert_with(|| Entry {
                key: place,
                value: Value {
                    place,
                    content: content(),
                },
            })
    }

    /// Into the table of a key, which a header or a key with dots passes.
    fn step(&mut self, key: &Key, origin: Origin) -> Result<&mut Table, ParseError> {
        let place = key.place;
        let entry = self.entry(key, || Content::Table(Table::new(place, origin)));
        let kind = entry.value.kind();
        let first = entry.key;
        let closed = |words: &str| {
            let message = format!("{} {}, at {}", quoted(&key.text), words, first);
            ParseError::at(place, message)
        };
        match &mut entry.value.content {
            Content::Table(table) => match (table.origin, origin) {
                (Origin::Inline, _) => Err(closed("was given whole")),
                (Origin::Header, Origin::Dotted) => Err(closed("has a header of its own")),
                (Origin::Passed, Origin::Dotted) => {
                    table.origin = Origin::Dotted;
                    Ok(table)
                }
                _ => Ok(table),
            },
            Content::Tables(tables) if origin == Origin::Passed => {
                Ok(tables.last_mut().expect("a header makes the first"))
            }
            Content::Tables(_) => Err(closed("has headers of its own")),
            _ => Err(closed(&format!("is {} and has no keys", kind))),
        }
    }
}

fn twice(key: &Key, first: Place) -> ParseError {
    let message = format!("{} is given twice, first at {}", quoted(&key.text), first);
    ParseError::at(key.place, message)
}
