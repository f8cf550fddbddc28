//! A device over an image file, whose OKs are on the disk before they are sent, with its log.

use crate::cli::Target;
use crate::failure::{Failure, Outcome};
use crate::image::{self, ImageFile};
use crate::line::Line;
use crate::log::{Event, Log};
use crate::number::{counted, hex};
use crate::profile_file::{self, Named};
use crate::silence::{Open, Silence};
use crate::words;
use indraveck::{Device, State};
use std::time::{Duration, Instant};

/// How long the line is silent before the log says why.
const QUIET: Duration = Duration::from_secs(1);

pub struct StandIn {
    pub named: Named,
    device: Device<ImageFile>,
    line: Line,
    silence: Silence,
    pub log: Log,
    last_byte: Instant,
    pub answered: u64,
    pub resets: u64,
}

impl StandIn {
    pub fn start(target: &Target, log: Log) -> Outcome<StandIn> {
        let named = profile_file::accepted(&target.profile)?;
        if target.create && !target.image.exists() {
            image::create(&target.image, &named, None)?;
        }
        let file = ImageFile::open(&target.image, &named)?;
        let device = Device::start(&named.profile, file).map_err(|refused| {
            Failure::new(
                format!("the library refused to start: {}", refused.refusal),
                "this is a fault of indraveck: report it with the profile file",
            )
        })?;
        if !device.image().is_watched() {
            let words = "the system cannot tell whether another program writes into the image: such writes will not be noticed";
            log.announce(&Event::new("unwatched", words));
        }
        Ok(StandIn {
            named,
            device,
            line: Line::default(),
            silence: Silence::default(),
            log,
            last_byte: Instant::now(),
            answered: 0,
            resets: 0,
        })
    }

    pub fn state(&self) -> State {
        self.device.state()
    }

    pub fn image(&self) -> &ImageFile {
        self.device.image()
    }

    /// What has begun and not ended.
    pub fn open(&self) -> Option<Open> {
        Open::of(&self.device.state(), &self.line)
    }

    /// The rate of the device's line setting, in baud, rounded.
    pub fn line_rate(&self) -> u32 {
        self.device.line_rate()
    }

    /// Whether a port at this rate is understood, by the protocol's 4 %.
    pub fn hears(&self, rate: u32) -> bool {
        self.device.matches_rate(rate)
    }

    pub fn reset(&mut self) {
        self.tell_passed_over();
        let cut = self.open();
        self.device.reset();
        self.silence = Silence::default();
        self.resets += 1;
        let words = match cut {
            Some(open) => format!("reset; it cut what had begun: {}", open.words()),
            None => "reset".to_string(),
        };
        self.log.tell(&Event::new("reset", words));
    }

    /// Feeds all of the bytes, and adds the replies to `replies`. What an OK says was stored is on the disk when this returns.
    pub fn feed(&mut self, input: &[u8], replies: &mut Vec<u8>) -> Outcome<()> {
        // before the device touches the image, and again before each answer
        self.image().check()?;
        let mut rest = input;
        while !rest.is_empty() {
            let stage = self.device.state().stage;
            let taken = self.line.feed(&mut self.device, rest);
            self.silence.heard(stage, rest, &taken);
            rest = &rest[taken.consumed..];
            if let Some(exchange) = taken.exchange {
                let image = self.device.image();
                image.check()?;
                if exchange.stored() {
                    image.sync()?;
                }
                replies.extend_from_slice(exchange.reply);
                self.answered += 1;
                for event in self.silence.passed_over(stage) {
                    self.log.tell(&event);
                }
                let event = Event::new("exchange", words::describe(&exchange))
                    .text("request", hex(exchange.request))
                    .text("reply", hex(exchange.reply));
                self.log.tell(&event);
            }
        }
        self.last_byte = Instant::now();
        Ok(())
    }

    /// Takes note of bytes that came at another rate than the device's.
    pub fn noise(&mut self, count: usize) {
        self.silence.noise(count);
        self.last_byte = Instant::now();
    }

    /// When the log should say why there is silence, if nothing more comes.
    pub fn quiet_at(&self) -> Option<Instant> {
        let pending = self.silence.is_pending(self.open());
        pending.then(|| self.last_byte + QUIET)
    }

    /// Says why there is silence.
    pub fn tell_silence(&mut self) {
        self.tell_passed_over();
        let open = self.open();
        if let Some(event) = self.silence.unfinished(open) {
            self.log.tell(&event);
        }
    }

    fn tell_passed_over(&mut self) {
        for event in self.silence.passed_over(self.device.state().stage) {
            self.log.tell(&event);
        }
    }

    pub fn last_words(&self) -> String {
        format!("ended; {} sent", counted(self.answered, "answer"))
    }

    /// Puts the last words into the log; how many lines of the log are missing is one of them.
    pub fn end(&mut self) {
        self.tell_silence();
        let mut words = self.last_words();
        let lost = self.log.lost();
        if lost > 0 {
            words += &format!(
                "; {} of the log could not be written",
                counted(lost, "line")
            );
        }
        self.log
            .announce(&Event::new("ended", words).number("answers", self.answered));
        self.log.finish();
    }
}
