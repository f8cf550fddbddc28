//! The log: what happened, with its time, in words or as one JSON object a line.

use crate::cli::Logging;
use crate::failure::{Explain, Failure, Outcome};
use crate::files;
use crate::number::counted;
use crate::output::Output;
use crate::text;
use nix::errno::Errno;
use nix::fcntl::{fcntl, flock, FcntlArg, FlockArg, OFlag};
use nix::libc;
use std::fs::{File, OpenOptions};
use std::io;
use std::os::unix::fs::OpenOptionsExt;
use std::os::unix::io::{AsRawFd, RawFd};
use std::path::Path;
use std::time::{SystemTime, UNIX_EPOCH};

/// Something that happened: in words, and as fields for a program.
pub struct Event {
    kind: &'static str,
    words: String,
    fields: Vec<(&'static str, Field)>,
}

enum Field {
    Number(u64),
    Text(String),
}

impl Event {
    pub fn new(kind: &'static str, words: impl Into<String>) -> Event {
        Event {
            kind,
            words: words.into(),
            fields: Vec::new(),
        }
    }

    pub fn number(mut self, name: &'static str, number: u64) -> Event {
        self.fields.push((name, Field::Number(number)));
        self
    }

    pub fn text(mut self, name: &'static str, text: impl Into<String>) -> Event {
        self.fields.push((name, Field::Text(text.into())));
        self
    }

    fn as_words(&self) -> String {
        format!("{}  {}", now(), self.words)
    }

    fn as_json(&self) -> String {
        let mut line = format!(
            "{{\"time\":{},\"event\":{},\"text\":{}",
            text::json(&now()),
            text::json(self.kind),
            text::json(&self.words)
        );
        for (name, field) in &self.fields {
            let value = match field {
                Field::Number(number) => number.to_string(),
                Field::Text(words) => text::json(words),
            };
            line += &format!(",{}:{}", text::json(name), value);
        }
        line + "}"
    }
}

fn lost(count: u64) -> Event {
    let words = format!(
        "{} of this log could not be written",
        counted(count, "line")
    );
    Event::new("lost", words).number("lines", count)
}

/// Where events go, and what people see of them on standard error.
#[derive(Clone)]
pub struct Log {
    events: Option<Output>,
    json: bool,
    /// What people are told without a log on standard error.
    people: Option<Output>,
    fd: Option<RawFd>,
}

impl Log {
    /// A log that is none of the other files of the command. One that is a file is not opened before that is seen.
    pub fn open_apart(wanted: &Logging, others: &[(&str, Option<&Path>)]) -> Outcome<Log> {
        let file = wanted.place().flatten();
        let apart = files::apart(&[others, &[("log", file)]].concat());
        if file.is_some() {
            apart?;
            return Log::open(wanted);
        }
        let log = Log::open(wanted)?;
        match apart {
            Ok(()) => Ok(log),
            Err(failure) => Err(log.failed(failure)),
        }
    }

    fn open(wanted: &Logging) -> Outcome<Log> {
        let json = wanted.log_json;
        let lost_line = if json {
            |count| lost(count).as_json()
        } else {
            |count| lost(count).as_words()
        };
        let standard = |lost_line| {
            Output::to_standard(2, lost_line).explain(
                || "standard error cannot be used".to_string(),
                "let the tool open more files",
            )
        };
        let mut fd = None;
        let (events, people) = match wanted.place() {
            None => (None, Some(standard(|_| String::new())?)),
            Some(None) => (Some(standard(lost_line)?), None),
            Some(Some(path)) => {
                let file = open_file(path).explain(
                    || format!("the log {} cannot be opened", text::shown(path)),
                    "give a file that may be written, or --log alone for standard error",
                )?;
                fd = Some(file.as_raw_fd());
                let people = standard(|_| String::new())?;
                (Some(Output::to(file, lost_line)), Some(people))
            }
        };
        Ok(Log {
            events,
            json,
            people,
            fd,
        })
    }

    /// The log's file, for whoever cannot go by way of it; none for standard error.
    pub fn fd(&self) -> Option<RawFd> {
        self.fd
    }

    pub fn is_json(&self) -> bool {
        self.json
    }

    pub fn tell(&self, event: &Event) {
        if let Some(events) = &self.events {
            events.say(&if self.json {
                event.as_json()
            } else {
                event.as_words()
            });
        }
    }

    /// What people should see without asking for a log, too.
    pub fn announce(&self, event: &Event) {
        self.tell(event);
        if let Some(people) = &self.people {
            people.say(&event.words);
        }
    }

    /// Puts a failure into the log; the caller still has to tell it, unless it stands on standard error already.
    pub fn failed(&self, failure: Failure) -> Failure {
        self.tell(&Event::new("failed", failure.wrong()).text("advice", failure.advice()));
        self.finish();
        match (&self.events, &self.people, self.json) {
            (Some(_), None, true) => failure.told(),
            _ => failure,
        }
    }

    /// How many lines could not be written.
    pub fn lost(&self) -> u64 {
        self.events.as_ref().map_or(0, Output::lost)
    }

    pub fn finish(&self) {
        for output in [&self.events, &self.people].into_iter().flatten() {
            output.finish();
        }
    }
}

/// A file to add to. A named pipe that nobody reads is an error here, instead of a start that waits for its reader.
fn open_file(path: &Path) -> io::Result<File> {
    let file = OpenOptions::new()
        .append(true)
        .create(true)
        .custom_flags(libc::O_NONBLOCK)
        .open(path)?;
    // the thread that writes may wait
    fcntl(file.as_raw_fd(), FcntlArg::F_SETFL(OFlag::O_APPEND))?;
    // a file that a stand-in has locked is its image
    if flock(file.as_raw_fd(), FlockArg::LockSharedNonblock) == Err(Errno::EWOULDBLOCK) {
        return Err(io::Error::new(
            io::ErrorKind::WouldBlock,
            "it is in use as an image by another stand-in",
        ));
    }
    let _ = flock(file.as_raw_fd(), FlockArg::Unlock);
    Ok(file)
}

/// The time of day, as 2026-11-15T20:15:00.123Z.
pub fn now() -> String {
    let since = SystemTime::now()
        .duration_since(UNIX_EPOCH)
        .unwrap_or_default();
    stamp(since.as_secs(), since.subsec_millis())
}

fn stamp(seconds: u64, millis: u32) -> String {
    let (year, month, day) = date(seconds / 86_400);
    let of_day = seconds % 86_400;
    format!(
        "{:04}-{:02}-{:02}T{:02}:{:02}:{:02}.{:03}Z",
        year,
        month,
        day,
        of_day / 3600,
        of_day / 60 % 60,
        of_day % 60,
        millis
    )
}

/// The day so many days after 1 January 1970. A year is counted from 1 March, so that the leap day is its last.
fn date(days: u64) -> (u64, u64, u64) {
    let days = days + 719_468; // from 1 March of the year 0
    let era = days / 146_097; // 400 years
    let of_era = days % 146_097;
    let year = (of_era - of_era / 1_460 + of_era / 36_524 - of_era / 146_096) / 365;
    let of_year = of_era - (365 * year + year / 4 - year / 100);
    let month = (5 * of_year + 2) / 153; // from March
    let day = of_year - (153 * month + 2) / 5 + 1;
    let month = if month < 10 { month + 3 } else { month - 9 };
    let year = 400 * era + year + u64::from(month <= 2);
    (year, month, day)
}

#[cfg(test)]
mod tests {
    use super::*;

    #[test]
    fn times_are_those_of_the_calendar() {
        for (seconds, expected) in [
            (0, "1970-01-01T00:00:00.007Z"),
            (951_782_399, "2000-02-28T23:59:59.007Z"),
            (951_782_400, "2000-02-29T00:00:00.007Z"),
            (951_868_800, "2000-03-01T00:00:00.007Z"),
            (1_709_251_199, "2024-02-29T23:59:59.007Z"),
            (1_794_773_700, "2026-11-15T20:15:00.007Z"),
            (4_107_542_400, "2100-03-01T00:00:00.007Z"),
        ] {
            assert_eq!(stamp(seconds, 7), expected);
        }
    }

    #[test]
    fn an_event_is_one_json_object() {
        let event = Event::new("skipped", "a \"b\"\n\u{1b}")
            .number("count", 3)
            .text("first", "AA");
        let line = event.as_json();
        let rest = line.strip_prefix("{\"time\":\"").expect("a time");
        assert_eq!(
            &rest[24..],
            "\",\"event\":\"skipped\",\"text\":\"a \\\"b\\\"\\n\\u001b\",\"count\":3,\"first\":\"AA\"}"
        );
    }
}
