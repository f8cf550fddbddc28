//! What is wrong with a profile file, and where.

use std::error::Error;
use std::fmt;
use std::io;

/// A place in a file: line and column, both from 1, columns in characters.
#[derive(Clone, Copy, Debug, PartialEq, Eq, PartialOrd, Ord)]
pub struct Place {
    /// The line; lines end with LF, or with CR and LF.
    pub line: usize,
    /// The column; a tab is one, a byte order mark none.
    pub column: usize,
}

impl fmt::Display for Place {
    fn fmt(&self, f: &mut fmt::Formatter) -> fmt::Result {
        write!(f, "line {}, column {}", self.line, self.column)
    }
}

/// Something that is wrong with a text, so that it is no profile file. There may be more.
#[derive(Clone, PartialEq, Eq)]
pub struct ParseError {
    place: Option<Place>,
    message: String,
}

impl ParseError {
    pub(super) fn at(place: Place, message: impl Into<String>) -> ParseError {
        ParseError {
            place: Some(place),
            message: message.into(),
        }
    }

    /// For what is wrong with the file as a whole.
    pub(super) fn of_file(message: impl Into<String>) -> ParseError {
        ParseError {
            place: None,
            message: message.into(),
        }
    }

    /// Where it is wrong; `None` if that is no one place: an entry is missing, or the file is too large.
    pub fn place(&self) -> Option<Place> {
        self.place
    }

    /// The line of [`place`](ParseError::place).
    pub fn line(&self) -> Option<usize> {
        self.place.map(|place| place.line)
    }

    /// The column of [`place`](ParseError::place).
    pub fn column(&self) -> Option<usize> {
        self.place.map(|place| place.column)
    }

    /// What is wrong, in words and without the place. It has no control characters, whatever the file has.
    pub fn message(&self) -> &str {
        &self.message
    }
}

impl fmt::Display for ParseError {
    fn fmt(&self, f: &mut fmt::Formatter) -> fmt::Result {
        if let Some(place) = self.place {
            write!(f, "{}: ", place)?;
        }
        f.write_str(&self.message)
    }
}

impl fmt::Debug for ParseError {
    fn fmt(&self, f: &mut fmt::Formatter) -> fmt::Result {
        write!(f, "ParseError({})", self)
    }
}

impl Error for ParseError {}

/// Why a profile file was not read.
pub enum ReadError {
    /// The system's error on opening or reading the file.
    System(io::Error),
    /// The file was read, and is no profile file.
    Parse(ParseError),
}

impl fmt::Display for ReadError {
    fn fmt(&self, f: &mut fmt::Formatter) -> fmt::Result {
        match self {
            ReadError::System(error) => error.fmt(f),
            ReadError::Parse(error) => error.fmt(f),
        }
    }
}

impl fmt::Debug for ReadError {
    fn fmt(&self, f: &mut fmt::Formatter) -> fmt::Result {
        write!(f, "ReadError({})", self)
    }
}

// Display says all that the error inside says, so that one is not its source: only what lies behind it is.
impl Error for ReadError {
    fn source(&self) -> Option<&(dyn Error + 'static)> {
        match self {
            ReadError::System(error) => error.source(),
            ReadError::Parse(error) => error.source(),
        }
    }
}

impl From<io::Error> for ReadError {
    fn from(error: io::Error) -> ReadError {
        ReadError::System(error)
    }
}

impl From<ParseError> for ReadError {
    fn from(error: ParseError) -> ReadError {
        ReadError::Parse(error)
    }
}
