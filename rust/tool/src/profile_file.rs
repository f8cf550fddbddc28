//! Profile files, read for a command: an acceptable profile, or what to do about it.

use crate::failure::{Failure, Outcome};
use crate::text::shown;
use indraveck::profile_file::{self, ReadError};
use std::path::Path;

pub use indraveck::profile_file::Named;

/// How many broken rules a person is told at once.
const MOST_RULES: usize = 24;

/// What the file says, acceptable or not. The name is only printed from here on, so it is made safe to print.
fn read(path: &Path) -> Outcome<Named> {
    match profile_file::read(path) {
        Ok(Named { name, profile }) => Ok(Named {
            name: shown(name),
            profile,
        }),
        Err(ReadError::System(error)) => Err(Failure::new(
            format!("the profile {} cannot be read: {}", shown(path), error),
            "give the path of a profile file; the folder profiles/ has some",
        )),
        Err(ReadError::Parse(error)) => Err(Failure::new(
            format!(
                "the profile {} is not written as one: {}",
                shown(path),
                error
            ),
            "mend the file; profiles/bench.toml shows every entry",
        )),
    }
}

/// An acceptable profile; otherwise the rules that it breaks, in words.
pub fn accepted(path: &Path) -> Outcome<Named> {
    let named = read(path)?;
    let broken = named.profile.broken_rules();
    if broken.is_empty() {
        return Ok(named);
    }
    let mut lines: Vec<String> = broken
        .iter()
        .take(MOST_RULES)
        .map(|rule| format!("\n  - {}", rule))
        .collect();
    if broken.len() > MOST_RULES {
        lines.push(format!("\n  - and {} more", broken.len() - MOST_RULES));
    }
    Err(Failure::new(
        format!(
            "the profile {} is not acceptable:{}",
            shown(path),
            lines.concat()
        ),
        "mend these entries of the file",
    ))
}
