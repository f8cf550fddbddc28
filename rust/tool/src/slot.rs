//! `indraveck reset`, `status` and `stop`: a running stand-in told what to do, by the name of its slot.

use crate::cli::Status;
use crate::control::{Ask, DONE};
use crate::failure::{Failure, Outcome};
use crate::print;
use crate::registry::{self, Registry};
use crate::text::shown;
use std::fs;
use std::io::{self, Read, Write};
use std::os::unix::net::UnixStream;
use std::path::{Path, PathBuf};
use std::thread::sleep;
use std::time::{Duration, Instant};

/// How long a stand-in may take: it may have an image of 16 MB to bring to the disk.
const PATIENCE: Duration = Duration::from_secs(30);
/// How long one that is starting is waited for.
const STARTING: Duration = Duration::from_secs(10);

pub fn run(slot: &Path, ask: Ask) -> Outcome<()> {
    print::all(&told(slot, ask)?)
}

/// What a stand-in says when it has done what was asked.
fn told(slot: &Path, ask: Ask) -> Outcome<String> {
    let entry = entry(slot)?;
    let answer = talk(&registry::control_of(&entry), ask).map_err(|error| {
        if registry::alive(&entry) {
            not_answered(slot, &entry, ask, &error)
        } else {
            gone(slot)
        }
    })?;
    // the first line alone says that it was done
    match answer.split_once('\n') {
        Some((DONE, text)) => Ok(format!("{}: {}", shown(slot), text)),
        _ => Err(Failure::new(
            format!("the stand-in of {} ended before it answered", shown(slot)),
            "do not count it as done; its own log says why it ended",
        )),
    }
}

pub fn status(arguments: &Status) -> Outcome<()> {
    let slot = &arguments.slot.slot;
    let until = Instant::now() + STARTING;
    loop {
        match told(slot, Ask::Status) {
            Err(_) if arguments.wait && Instant::now() < until => sleep(Duration::from_millis(20)),
            said => return print::all(&said?),
        }
    }
}

fn gone(slot: &Path) -> Failure {
    Failure::new(
        format!("the stand-in of {} is gone", shown(slot)),
        "start it again with the same --link, which takes the link over; if its image is still in use, end the process that has it",
    )
}

fn not_answered(slot: &Path, entry: &Path, ask: Ask, error: &io::Error) -> Failure {
    Failure::new(
        format!(
            "the stand-in of {} does not answer to `{}`: {}",
            shown(slot),
            ask.word(),
            error
        ),
        format!(
            "look at process {}, which may belong to another account or be stopped; do not count it as done",
            registry::process_of(entry)
        ),
    )
}

/// By the link that a stand-in made, or by the port itself.
fn entry(slot: &Path) -> Outcome<PathBuf> {
    let nobody = |wrong: String| {
        Failure::new(
            wrong,
            "give the name that `indraveck serve --link` was given, or the port that it printed",
        )
    };
    match fs::read_link(slot) {
        Ok(target) => match registry::entry_of(&target) {
            Some(entry) if registry::alive(&entry) => return Ok(entry),
            Some(_) => return Err(gone(slot)),
            None => {}
        },
        Err(error) if error.kind() == io::ErrorKind::NotFound => {
            return Err(nobody(format!("there is no slot {}", shown(slot))))
        }
        Err(_) => {}
    }
    let port = fs::canonicalize(slot).unwrap_or_else(|_| slot.to_path_buf());
    Registry::open()?.on_port(&port).ok_or_else(|| {
        nobody(format!(
            "{} is no stand-in's link, and no port of one of this account's",
            shown(slot)
        ))
    })
}

/// Everything that is answered until the other end hangs up: a stand-in that was told to stop does so when it is gone.
fn talk(socket: &Path, ask: Ask) -> io::Result<String> {
    let mut stream = UnixStream::connect(socket)?;
    stream.set_read_timeout(Some(PATIENCE))?;
    stream.set_write_timeout(Some(PATIENCE))?;
    stream.write_all(format!("{}\n", ask.word()).as_bytes())?;
    let mut answer = String::new();
    stream.read_to_string(&mut answer)?;
    Ok(answer)
}
