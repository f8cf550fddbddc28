//! Profile files: TOML that a person writes, read with the place of whatever is wrong.
//!
//! ```
//! use indraveck::profile_file;
//!
//! let error = profile_file::parse(b"name = \"mine\"\ntyp 0x01\n").unwrap_err();
//! assert_eq!(error.to_string(), "line 2, column 5: `=` is missing here");
//! ```
//!
//! A file says what a device is; whether that is acceptable is another question, which
//! [`Profile::broken_rules`](crate::Profile::broken_rules) answers.

mod cursor;
mod entries;
mod error;
mod nearest;
mod number;
mod shown;
mod string;
mod toml;
mod tree;

use crate::profile::Profile;
use std::fs::File;
use std::io::Read;
use std::path::Path;

pub use error::{ParseError, Place, ReadError};
pub use shown::shown;

/// A file may have so many bytes. Those of real devices have less than 3,000.
pub const LARGEST_FILE: usize = 65_536;

/// A value may lie so deep: parts of keys and of headers, and brackets of lists.
pub const DEEPEST: usize = 16;

/// A name may have so many characters.
pub const LONGEST_NAME: usize = 64;

/// A profile with the name that its file gives it.
#[derive(Clone, Debug, PartialEq, Eq)]
pub struct Named {
    /// The name as it was given, any characters in it. [`shown`] makes it safe to print.
    pub name: String,
    /// What the file says, acceptable or not.
    pub profile: Profile,
}

/// Reads a profile file. No more of it is read than [`LARGEST_FILE`] and a byte; a pipe is read to its end.
pub fn read(path: impl AsRef<Path>) -> Result<Named, ReadError> {
    let mut bytes = Vec::new();
    let most = LARGEST_FILE as u64 + 1;
    File::open(path)?.take(most).read_to_end(&mut bytes)?;
    Ok(parse(&bytes)?)
}

/// The profile that a file's bytes say.
pub fn parse(text: &[u8]) -> Result<Named, ParseError> {
    let text = cursor::text(text)?;
    entries::named(&toml::document(text)?)
}
