//! What went wrong, and what to do about it: there is no error here without advice.

use std::fmt;

#[derive(Debug)]
pub struct Failure {
    wrong: String,
    advice: String,
    told: bool,
}

pub type Outcome<T> = Result<T, Failure>;

impl Failure {
    pub fn new(wrong: impl Into<String>, advice: impl Into<String>) -> Failure {
        Failure {
            wrong: wrong.into(),
            advice: advice.into(),
            told: false,
        }
    }

    pub fn wrong(&self) -> &str {
        &self.wrong
    }

    pub fn advice(&self) -> &str {
        &self.advice
    }

    /// It stands in a log on standard error already.
    pub fn told(self) -> Failure {
        Failure { told: true, ..self }
    }

    pub fn is_told(&self) -> bool {
        self.told
    }
}

impl fmt::Display for Failure {
    fn fmt(&self, f: &mut fmt::Formatter) -> fmt::Result {
        write!(
            f,
            "indraveck: {}\n  what to do: {}",
            self.wrong, self.advice
        )
    }
}

/// Adds to the error of a system call what was being done and what to do.
pub trait Explain<T> {
    fn explain(self, doing: impl FnOnce() -> String, advice: &str) -> Outcome<T>;
}

impl<T, E: fmt::Display> Explain<T> for Result<T, E> {
    fn explain(self, doing: impl FnOnce() -> String, advice: &str) -> Outcome<T> {
        self.map_err(|error| Failure::new(format!("{}: {}", doing(), error), advice))
    }
}
