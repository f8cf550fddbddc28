//! What a running stand-in is told from outside, over the socket of its entry: one word, answered when it is done.

use crate::cli::Access;
use crate::failure::{Explain, Outcome};
use crate::port;
use crate::text::shown;
use nix::unistd::chown;
use std::fs::{self, Permissions};
use std::io::{self, Read, Write};
use std::os::unix::fs::PermissionsExt;
use std::os::unix::io::{AsRawFd, RawFd};
use std::os::unix::net::{UnixListener, UnixStream};
use std::path::Path;
use std::thread::sleep;
use std::time::Duration;

#[derive(Clone, Copy, Debug, PartialEq, Eq)]
pub enum Ask {
    Reset,
    Status,
    Stop,
}

impl Ask {
    pub const fn word(self) -> &'static str {
        match self {
            Ask::Reset => "reset",
            Ask::Status => "status",
            Ask::Stop => "stop",
        }
    }

    fn of(line: &str) -> Option<Ask> {
        [Ask::Reset, Ask::Status, Ask::Stop]
            .into_iter()
            .find(|ask| ask.word() == line)
    }
}

/// The first line of an answer, if what was asked was done: an answer without it means nothing of the kind.
pub const DONE: &str = "done";
const LONGEST: usize = 64;
const MOST_CALLERS: usize = 32;

pub struct Control {
    listener: UnixListener,
    callers: Vec<Caller>,
}

/// Somebody who has connected, and what has come of the word so far.
pub struct Caller {
    stream: UnixStream,
    heard: Vec<u8>,
}

impl Caller {
    /// The word, once it is there; an error once it cannot come any more. All that has come is read first: what somebody asked who has
    /// hung up since is not done any more.
    fn listen(&mut self) -> io::Result<Option<Ask>> {
        let mut part = [0; LONGEST];
        loop {
            match self.stream.read(&mut part) {
                Ok(0) => return Err(io::ErrorKind::UnexpectedEof.into()),
                Ok(count) => self.heard.extend_from_slice(&part[..count]),
                Err(error) if error.kind() == io::ErrorKind::WouldBlock => return self.word(),
                Err(error) if error.kind() == io::ErrorKind::Interrupted => continue,
                Err(error) => return Err(error),
            }
            if self.heard.len() > LONGEST {
                return Err(io::ErrorKind::InvalidData.into());
            }
        }
    }

    fn word(&self) -> io::Result<Option<Ask>> {
        let end = match self.heard.iter().position(|byte| *byte == b'\n') {
            Some(end) => end,
            None => return Ok(None),
        };
        let word = String::from_utf8_lossy(&self.heard[..end]);
        Ask::of(&word)
            .map(Some)
            .ok_or_else(|| io::ErrorKind::InvalidData.into())
    }

    /// Short enough never to wait; a caller who is gone is none of the stand-in's business.
    pub fn answer(mut self, text: &str) {
        let _ = self
            .stream
            .write_all(format!("{}\n{}\n", DONE, text).as_bytes());
    }
}

impl Control {
    pub fn open(path: &Path, access: &Access) -> Outcome<Control> {
        let doing = || format!("the socket {} cannot be made", shown(path));
        let advice = "see that /tmp may be written, and that the tool may open more files";
        let listener = UnixListener::bind(path).explain(doing, advice)?;
        listener.set_nonblocking(true).explain(doing, advice)?;
        if let Some(group) = port::group_of(access)? {
            chown(path, None, Some(group))
                .explain(doing, "give a group that this account is in")?;
        }
        let mode = access.port_mode.map_or(0o600, |mode| mode.0);
        fs::set_permissions(path, Permissions::from_mode(mode)).explain(doing, advice)?;
        Ok(Control {
            listener,
            callers: Vec::new(),
        })
    }

    pub fn fds(&self) -> impl Iterator<Item = RawFd> + '_ {
        let callers = self.callers.iter().map(|caller| caller.stream.as_raw_fd());
        std::iter::once(self.listener.as_raw_fd()).chain(callers)
    }

    /// Who has said a whole word since this was asked last.
    pub fn asked(&mut self) -> Vec<(Caller, Ask)> {
        self.accept();
        let mut asked = Vec::new();
        for mut caller in std::mem::take(&mut self.callers) {
            match caller.listen() {
                Ok(Some(ask)) => asked.push((caller, ask)),
                Ok(None) => self.callers.push(caller),
                Err(_) => {} // hangs up
            }
        }
        // whoever has said nothing for longest makes room
        let surplus = self.callers.len().saturating_sub(MOST_CALLERS);
        self.callers.drain(..surplus);
        asked
    }

    fn accept(&mut self) {
        loop {
            match self.listener.accept() {
                Ok((stream, _)) if stream.set_nonblocking(true).is_ok() => {
                    self.callers.push(Caller {
                        stream,
                        heard: Vec::new(),
                    });
                }
                Ok(_) => {}
                Err(error) if error.kind() == io::ErrorKind::WouldBlock => return,
                Err(_) => {
                    // no more files may be opened: room is made, and the others wait a little
                    self.callers.drain(..self.callers.len().min(1));
                    sleep(Duration::from_millis(10));
                    return;
                }
            }
        }
    }
}
