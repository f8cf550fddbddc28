//! Why there was no answer: bytes that were passed over, a packet or a wake-up that has begun and not ended.

use crate::line::{Line, Taken};
use crate::log::Event;
use crate::number::{bytes, grouped};
use indraveck::{Stage, State};

/// What has not been told yet of bytes that got no answer.
#[derive(Default)]
pub struct Silence {
    skipped: u64,
    first: u8,
    /// Zeros in a row at the end of the skipped bytes, whether a packet's start byte stands before them, and whether there were two
    /// anywhere without one: that is how a wake-up begins.
    zeros: u64,
    started: bool,
    pulses: bool,
    noise: u64,
    told: Option<Open>,
}

/// Something that has begun and not ended.
#[derive(Clone, Copy, PartialEq, Eq)]
pub enum Open {
    Packet { held: usize, whole: Option<usize> },
    WakeUp { low_pulses: u8 },
}

impl Open {
    /// What is open in this state.
    pub fn of(state: &State, line: &Line) -> Option<Open> {
        match state.stage {
            Stage::Setting { low_pulses: 0 } => None,
            Stage::Setting { low_pulses } => Some(Open::WakeUp { low_pulses }),
            _ => line
                .begun(state)
                .map(|(held, whole)| Open::Packet { held, whole }),
        }
    }

    pub fn words(self) -> String {
        match self {
            Open::Packet {
                held,
                whole: Some(whole),
            } => format!(
                "{} of the {} of a packet have come",
                grouped(held as u64),
                bytes(whole as u64)
            ),
            Open::Packet { held, whole: None } => format!(
                "{} of a packet came, not yet its whole length",
                bytes(held as u64)
            ),
            Open::WakeUp { low_pulses: 1 } => {
                "of a wake-up one 00h has come, a second is awaited".to_string()
            }
            Open::WakeUp { .. } => {
                "the low pulses of a wake-up are acknowledged, 55h is awaited".to_string()
            }
        }
    }

    fn event(self) -> Event {
        let event = Event::new(
            "unfinished",
            format!("begun and not ended: {}", self.words()),
        );
        match self {
            Open::Packet { held, whole } => {
                let event = event.number("held", held as u64);
                match whole {
                    Some(whole) => event.number("whole", whole as u64),
                    None => event,
                }
            }
            Open::WakeUp { low_pulses } => event.number("low_pulses", low_pulses.into()),
        }
    }
}

/// What a device in this stage waits for.
pub fn awaited(stage: Stage) -> &'static str {
    match stage {
        Stage::Setting { .. } => "the device waits to be woken up: 00h 00h, then 55h",
        Stage::Authentication => "a command (01h) with the ID code is awaited",
        Stage::Command => "a command (01h) is awaited",
        Stage::Writing { .. } => "write data (81h) is awaited",
        Stage::Reading { .. } => "the request for the next packet of the read (81h) is awaited",
    }
}

impl Silence {
    /// Takes note of the bytes of one feed that were passed over.
    pub fn heard(&mut self, before: Stage, input: &[u8], taken: &Taken) {
        match before {
            Stage::Setting { low_pulses } => {
                self.heard_asleep(low_pulses, &input[..taken.consumed]);
            }
            _ => input[..taken.skipped]
                .iter()
                .for_each(|byte| self.skip(*byte)),
        }
        if taken.exchange.is_some() {
            self.told = None;
        }
    }

    /// While waking up: what brings it no further. More low pulses than are needed do no harm and are not counted.
    fn heard_asleep(&mut self, low_pulses: u8, input: &[u8]) {
        let mut pulses = low_pulses;
        for byte in input {
            match (pulses, byte) {
                (0 | 1, 0x00) => pulses += 1,
                (2, 0x00 | 0x55) => {}
                _ => {
                    pulses = 0;
                    self.skip(*byte);
                }
            }
        }
    }

    fn skip(&mut self, byte: u8) {
        if self.skipped == 0 {
            self.first = byte;
        }
        self.skipped += 1;
        if byte == 0x00 {
            self.zeros += 1;
        } else {
            self.zeros = 0;
            self.started = matches!(byte, 0x01 | 0x81);
        }
        self.pulses |= self.zeros >= 2 && !self.started;
    }

    /// Bytes that came at another rate than the device's.
    pub fn noise(&mut self, count: usize) {
        self.noise += count as u64;
    }

    /// What was passed over and is not told yet; it is now. `stage` is where that was.
    pub fn passed_over(&mut self, stage: Stage) -> Vec<Event> {
        let mut events = Vec::new();
        if self.noise > 0 {
            let words = format!(
                "{} at another rate than the device's were noise and not answered",
                bytes(self.noise)
            );
            events.push(Event::new("noise", words).number("count", self.noise));
        }
        if self.skipped > 0 {
            events.push(self.skipped_bytes(stage));
        }
        *self = Silence {
            told: self.told,
            ..Silence::default()
        };
        events
    }

    fn skipped_bytes(&self, stage: Stage) -> Event {
        let asleep = matches!(stage, Stage::Setting { .. });
        let skipped = format!(
            "{} skipped, the first {:02X}h",
            bytes(self.skipped),
            self.first
        );
        let event = if self.pulses && !asleep {
            let words = format!(
                "a wake-up was ignored ({}): the device is awake already, and {}; a reset takes it back to waking up",
                skipped,
                awaited(stage)
            );
            Event::new("ignored wake-up", words)
        } else {
            Event::new("skipped", format!("{}: {}", skipped, awaited(stage)))
        };
        event
            .number("count", self.skipped)
            .text("first", format!("{:02X}", self.first))
    }

    /// What has begun and not ended, unless that was told already.
    pub fn unfinished(&mut self, open: Option<Open>) -> Option<Event> {
        if open == self.told {
            return None;
        }
        self.told = open;
        open.map(Open::event)
    }

    /// Whether there is something to tell if nothing more comes.
    pub fn is_pending(&self, open: Option<Open>) -> bool {
        self.skipped > 0 || self.noise > 0 || (open.is_some() && open != self.told)
    }
}
