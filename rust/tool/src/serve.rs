//! `indraveck serve`: a stand-in on a pseudo-terminal.

use crate::cli::Serve;
use crate::control::{Ask, Caller, Control};
use crate::failure::{Explain, Outcome};
use crate::link::{self, Link};
use crate::log::{self, Event, Log};
use crate::number::{bytes, counted, grouped};
use crate::output::Output;
use crate::port::{Port, Visit};
use crate::registry::{Entry, Registry};
use crate::signals::{self, Signals, Wish};
use crate::stand_in::StandIn;
use crate::text::{shown, word};
use crate::words;
use nix::errno::Errno;
use nix::poll::{poll, PollFd, PollFlags};
use std::time::Instant;

const PORT_LOST: &str = "start it again on the same image; what was answered OK is in it";
/// More than a pseudo-terminal's queues hold: whoever goes on sending does not hold up a reset.
const MOST_BEFORE_RESET: usize = 1 << 18;

pub fn run(arguments: &Serve, signals: Signals) -> Outcome<()> {
    let log = Log::open_apart(
        &arguments.logging,
        &[
            ("profile", Some(&arguments.target.profile)),
            ("image", Some(&arguments.target.image)),
            ("link", arguments.link.as_deref()),
        ],
    )?;
    serve(arguments, signals, &log).map_err(|failure| log.failed(failure))
}

fn serve(arguments: &Serve, signals: Signals, log: &Log) -> Outcome<()> {
    signals::watch_the_map(log.fd(), log.is_json())?;
    let stand_in = StandIn::start(&arguments.target, log.clone())?;
    let place = Place::take(arguments)?;
    let says = Output::to_standard(1, |_| String::new()).explain(
        || "standard output cannot be used".to_string(),
        "let the tool open more files",
    )?;
    let mut server = Server {
        arguments,
        stand_in,
        place,
        signals,
        says,
        waiting: Vec::new(),
        rate_told: None,
        since: log::now(),
    };
    server.announce();
    let callers = server.answer_until_ended()?;
    server.end(callers);
    Ok(())
}

/// What a stand-in has of its own while it runs, taken away in this order: the link, the socket, the port, the entry.
struct Place {
    _link: Option<Link>,
    control: Control,
    port: Port,
    _entry: Entry,
}

impl Place {
    /// One stand-in of an account at a time: no other can start, or take a link, in the middle of this.
    fn take(arguments: &Serve) -> Outcome<Place> {
        let registry = Registry::open()?;
        if let Some(path) = &arguments.link {
            link::wait_for_the_dying(path);
        }
        let _alone = registry.alone()?;
        if let Some(path) = &arguments.link {
            link::clear(path)?;
        }
        let entry = registry.enter()?;
        let port = Port::open(&registry, &entry, &arguments.access)?;
        let control = Control::open(&entry.control(), &arguments.access)?;
        let link = match &arguments.link {
            Some(path) => Some(Link::make(path, &entry)?),
            None => None,
        };
        Ok(Place {
            _link: link,
            control,
            port,
            _entry: entry,
        })
    }
}

struct Server<'a> {
    arguments: &'a Serve,
    stand_in: StandIn,
    place: Place,
    signals: Signals,
    says: Output,
    /// Answers that nobody has taken yet. While there are any nothing is read, as the device does one thing after the other.
    waiting: Vec<u8>,
    /// The port's and the line's rate that were said to differ.
    rate_told: Option<(u32, u32)>,
    since: String,
}

impl Server<'_> {
    /// The port's name alone on standard output, for scripts; the rest for people.
    fn announce(&self) {
        self.says.say(&self.place.port.name.display().to_string());
        self.says.finish();
        let process = std::process::id();
        let words = format!(
            "serving the profile {} with the image {} on {}, process {}",
            self.stand_in.named.name,
            shown(&self.arguments.target.image),
            self.place.port.name.display(),
            process
        );
        let event = Event::new("started", words)
            .text("port", self.place.port.name.display().to_string())
            .number("process", process.into());
        self.stand_in.log.announce(&event);
        let slot = word(
            self.arguments
                .link
                .as_ref()
                .unwrap_or(&self.place.port.name),
        );
        let words = format!(
            "reset the device: indraveck reset {0}; end: Ctrl-C or indraveck stop {0}",
            slot
        );
        self.stand_in.log.announce(&Event::new("hint", words));
    }

    /// Until a signal or a caller ends it; the callers who have to be told.
    fn answer_until_ended(&mut self) -> Outcome<Vec<Caller>> {
        let mut input = [0; 4096];
        loop {
            self.wait()?;
            match self.signals.next() {
                Some(Wish::End) => return Ok(Vec::new()),
                Some(Wish::Reset) => {
                    self.reset()?;
                }
                None => {}
            }
            let visits = self.place.port.visits();
            self.tell(&visits, Visit::Came);
            let fed = if self.waiting.is_empty() {
                let count = self.read(&mut input)?;
                self.take_in(&input[..count])
            } else {
                Ok(())
            };
            if !self.waiting.is_empty() {
                let sent = self.place.port.write(&self.waiting);
                let sent = sent.explain(|| "the port is gone".to_string(), PORT_LOST)?;
                self.waiting.drain(..sent);
            }
            // behind the answers to what came before the failure
            fed?;
            let stopping = self.heed_callers()?;
            if !stopping.is_empty() {
                return Ok(stopping);
            }
            // silence is explained when it has lasted, or when whoever waited has gone
            let quiet = self.stand_in.quiet_at();
            if quiet.map_or(false, |at| at <= Instant::now()) || visits.contains(&Visit::Went) {
                self.stand_in.tell_silence();
            }
            self.tell(&visits, Visit::Went);
        }
    }

    /// Waits for a signal, a caller, a visit, bytes or room for an answer, or until the log should say why there is silence.
    fn wait(&self) -> Outcome<()> {
        let wanted = if self.waiting.is_empty() {
            PollFlags::POLLIN
        } else {
            PollFlags::POLLOUT
        };
        let mut ends = vec![
            PollFd::new(self.signals.fd(), PollFlags::POLLIN),
            PollFd::new(self.place.port.fd(), wanted),
        ];
        let others = self.place.control.fds().chain(self.place.port.visits_fd());
        ends.extend(others.map(|fd| PollFd::new(fd, PollFlags::POLLIN)));
        let time = match self.stand_in.quiet_at() {
            Some(at) => {
                let left = at.saturating_duration_since(Instant::now());
                left.as_millis() as i32 + 1
            }
            None => -1,
        };
        match poll(&mut ends, time) {
            Ok(_) | Err(Errno::EINTR) => Ok(()),
            Err(error) => {
                Err(error).explain(|| "the port cannot be waited for".to_string(), PORT_LOST)
            }
        }
    }

    fn read(&self, input: &mut [u8]) -> Outcome<usize> {
        let read = self.place.port.read(input);
        read.explain(|| "the port is gone".to_string(), PORT_LOST)
    }

    /// Bytes for the device, unless they come at a rate that it does not hear.
    fn take_in(&mut self, input: &[u8]) -> Outcome<()> {
        if input.is_empty() {
            return Ok(());
        }
        if !self.heard() && self.arguments.strict_rate {
            self.stand_in.noise(input.len());
            return Ok(());
        }
        self.stand_in.feed(input, &mut self.waiting)
    }

    /// Whether the port is at the rate of the device's line; the log has it when that is first seen to change.
    fn heard(&mut self) -> bool {
        let rate = match self.place.port.rate() {
            Some(rate) => rate,
            None => return true,
        };
        let line = self.stand_in.line_rate();
        let heard = self.stand_in.hears(rate);
        let differ = if heard { None } else { Some((rate, line)) };
        if differ != self.rate_told {
            self.rate_told = differ;
            self.tell_rate(rate, line, heard);
        }
        heard
    }

    fn tell_rate(&self, rate: u32, line: u32, heard: bool) {
        let effect = if heard {
            ", as the device's line".to_string()
        } else if self.arguments.strict_rate {
            format!(
                " and the device's line at {}: such bytes are noise and not answered",
                grouped(line.into())
            )
        } else {
            format!(
                " and the device's line at {}: a device on a wire would hear noise (see --strict-rate)",
                grouped(line.into())
            )
        };
        let words = format!("the port is at {} baud{}", grouped(rate.into()), effect);
        let event = Event::new("rate", words)
            .number("port", rate.into())
            .number("line", line.into());
        self.stand_in.log.tell(&event);
    }

    /// What was sent before reaches the device; then the queues are emptied in both directions; then the device is fresh; then that is
    /// told. How many bytes were still read, and how many bytes of answers were thrown away.
    fn reset(&mut self) -> Outcome<String> {
        self.stand_in.image().check()?;
        // first, so that what a client held back comes before the reset too
        self.place.port.restore();
        let mut input = [0; 4096];
        let mut read = 0;
        let mut thrown = 0;
        while read < MOST_BEFORE_RESET {
            let count = self.read(&mut input)?;
            if count == 0 {
                break;
            }
            read += count;
            self.take_in(&input[..count])?;
            thrown += self.waiting.len();
            self.waiting.clear();
        }
        thrown += self.waiting.len();
        self.waiting.clear();
        self.place.port.empty();
        self.stand_in.reset();
        self.says.say("reset");
        Ok(format!(
            "reset; {} read before it, {} of answers not sent; the device waits to be woken up",
            bytes(read as u64),
            bytes(thrown as u64)
        ))
    }

    /// Does what callers ask; those who ask for the end are handed back, to be told when it has come.
    fn heed_callers(&mut self) -> Outcome<Vec<Caller>> {
        let mut stopping = Vec::new();
        for (caller, ask) in self.place.control.asked() {
            match ask {
                Ask::Reset => {
                    let done = self.reset()?;
                    caller.answer(&done);
                }
                Ask::Status => caller.answer(&self.status()),
                Ask::Stop => stopping.push(caller),
            }
        }
        Ok(stopping)
    }

    /// Who comes and goes while nobody looks may be told as one: they are not counted.
    fn tell(&self, visits: &[Visit], which: Visit) {
        for _ in visits.iter().filter(|visit| **visit == which) {
            let event = match which {
                Visit::Came => Event::new("opened", "a client opened the port"),
                Visit::Went => Event::new("closed", "a client closed the port"),
            };
            self.stand_in.log.tell(&event);
        }
    }

    fn status(&self) -> String {
        let mut text = format!(
            "serving the profile {} on {}, process {}, since {}",
            self.stand_in.named.name,
            self.place.port.name.display(),
            std::process::id(),
            self.since
        );
        for (name, words) in self.particulars() {
            text += &format!("\n  {:<9}{}", name, words);
        }
        text
    }

    fn particulars(&self) -> Vec<(&'static str, String)> {
        let stand_in = &self.stand_in;
        let mut found = vec![
            ("image", shown(&self.arguments.target.image)),
            ("stage", words::stage(stand_in.state().stage)),
        ];
        found.extend(stand_in.open().map(|open| ("begun", open.words())));
        let baud = |rate: u32| format!("{} baud", grouped(rate.into()));
        found.push(("line", baud(stand_in.line_rate())));
        found.extend(self.place.port.rate().map(|rate| ("port", baud(rate))));
        let answers = format!(
            "{} sent, {} not taken yet, {}",
            grouped(stand_in.answered),
            bytes(self.waiting.len() as u64),
            counted(stand_in.resets, "reset")
        );
        found.push(("answers", answers));
        for (name, lost) in [("log", stand_in.log.lost()), ("output", self.says.lost())] {
            if lost > 0 {
                let lines = counted(lost, "line");
                found.push((name, format!("{} could not be written", lines)));
            }
        }
        found
    }

    /// Everything is let go of before a caller is told that it is.
    fn end(mut self, callers: Vec<Caller>) {
        self.stand_in.end();
        self.says.finish();
        let words = self.stand_in.last_words();
        drop(self.place);
        drop(self.stand_in);
        for caller in callers {
            caller.answer(&words);
        }
    }
}
