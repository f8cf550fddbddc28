//! What a command prints for whoever asked.

use crate::failure::{Failure, Outcome};
use std::io::{self, Write};

/// All of a text on standard output. A reader who closes the pipe has what was wanted; any other failure is one.
pub fn all(text: &str) -> Outcome<()> {
    let mut out = io::stdout();
    match out.write_all(text.as_bytes()).and_then(|()| out.flush()) {
        Err(error) if error.kind() != io::ErrorKind::BrokenPipe => Err(Failure::new(
            format!("standard output cannot be written: {}", error),
            "give it a place with room",
        )),
        _ => Ok(()),
    }
}
