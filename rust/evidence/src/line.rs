//! Two subjects on the same history.

use crate::effects::{self, Effects};
use crate::guarded::Guarded;
use crate::packets::{COMMAND, DATA};
use crate::profiles::used;
use crate::recordings::END;
use crate::subject::{Fed, Subject, BUFFER_BYTES, STATE_BYTES};
use indraveck_model::{self as model, Entry, Profile, Replayed, Stage, State};
use std::cell::RefCell;
use std::fmt::Debug;

/// What is compared with what, and what came up while it was.
pub struct Pair<'a> {
    pub tested: &'a dyn Subject,
    pub model: &'a dyn Subject,
    pub effects: RefCell<Effects>,
}

impl<'a> Pair<'a> {
    pub fn new(tested: &'a dyn Subject, model: &'a dyn Subject) -> Pair<'a> {
        Pair {
            tested,
            model,
            effects: RefCell::default(),
        }
    }

    pub fn happened(&self, effect: &'static str) {
        self.effects.borrow_mut().happened(effect);
    }

    /// Compares the payload of the same bytes.
    pub fn payload(&self, receive: &[u8], count: usize) -> Result<(), String> {
        let lent = Guarded::new(receive);
        let tested = self.tested.payload(lent.lent(), count);
        let right = self.model.payload(lent.lent(), count);
        self.happened(match right {
            Some(_) => "payload there",
            None => "payload empty",
        });
        let compared = if !lent.is_guarded() || lent.lent() != receive {
            Err("the receive buffer or what is around it changed".to_string())
        } else {
            self.same("the payload's place", tested, right)
        };
        compared.map_err(|difference| {
            format!(
                "payload of {} for {} bytes: {}",
                hex(receive),
                count,
                difference
            )
        })
    }

    pub(crate) fn same<T: PartialEq + Debug>(
        &self,
        what: &str,
        tested: T,
        right: T,
    ) -> Result<(), String> {
        if tested == right {
            return Ok(());
        }
        Err(format!(
            "{} differs: {} has {:?}, {} {:?}",
            what,
            self.tested.name(),
            tested,
            self.model.name(),
            right
        ))
    }

    pub(crate) fn same_bytes(&self, what: &str, tested: &[u8], right: &[u8]) -> Result<(), String> {
        if tested == right {
            return Ok(());
        }
        let names = [self.tested.name(), self.model.name()];
        Err(differing(what, [&names[0], &names[1]], tested, right))
    }
}

fn differing(what: &str, names: [&str; 2], one: &[u8], other: &[u8]) -> String {
    let places = one.iter().zip(other).enumerate();
    let mut places = places.filter(|(_, (one, other))| one != other);
    let (first, _) = places.next().expect("called for bytes that differ");
    let count = 1 + places.count();
    let until = one.len().min(first + 16);
    format!(
        "{} differs in {} of {} bytes, first at {}: {} has {}, {} {}",
        what,
        count,
        one.len(),
        first,
        names[0],
        hex(&one[first..until]),
        names[1],
        hex(&other[first..until])
    )
}

/// Bytes as the line's examples are written; the middle of long ones is left out.
pub(crate) fn hex(bytes: &[u8]) -> String {
    const SHOWN: usize = 96;
    const LAST: usize = 8;
    let plain = |bytes: &[u8]| {
        let each: Vec<String> = bytes.iter().map(|byte| format!("{:02X}", byte)).collect();
        each.join(" ")
    };
    if bytes.is_empty() {
        "no bytes".to_string()
    } else if bytes.len() <= SHOWN {
        plain(bytes)
    } else {
        format!(
            "{} ... {} ({} bytes)",
            plain(&bytes[..SHOWN - LAST]),
            plain(&bytes[bytes.len() - LAST..]),
            bytes.len()
        )
    }
}

/// All that calls are lent but the input, of any lengths.
#[derive(Clone)]
pub struct Lent {
    pub profile: Vec<u8>,
    pub image: Vec<u8>,
    pub state: Vec<u8>,
    pub receive: Vec<u8>,
    pub reply: Vec<u8>,
}

impl Lent {
    /// Buffers of the least size, and state bytes that are no state before a start.
    pub fn new(profile: &Profile, image: Vec<u8>) -> Lent {
        Lent {
            profile: model::profile_bytes(profile).to_vec(),
            image,
            state: vec![0xA5; STATE_BYTES],
            receive: vec![0xC9; BUFFER_BYTES],
            reply: vec![0x9C; BUFFER_BYTES],
        }
    }

    pub fn with_state(profile: &Profile, image: Vec<u8>, state: &State) -> Lent {
        Lent {
            state: model::state_bytes(state).to_vec(),
            ..Lent::new(profile, image)
        }
    }
}

/// One subject's own slices.
struct Side {
    image: Guarded,
    state: Guarded,
    receive: Guarded,
    reply: Guarded,
}

impl Side {
    fn new(lent: &Lent) -> Side {
        Side {
            image: Guarded::new(&lent.image),
            state: Guarded::new(&lent.state),
            receive: Guarded::new(&lent.receive),
            reply: Guarded::new(&lent.reply),
        }
    }

    fn guards_hold(&self, subject: &dyn Subject) -> Result<(), String> {
        let slices = [
            ("image", &self.image),
            ("state", &self.state),
            ("receive buffer", &self.receive),
            ("reply buffer", &self.reply),
        ];
        for (slice, guarded) in slices {
            if !guarded.is_guarded() {
                let name = subject.name();
                return Err(format!("{} changed bytes around the {}", name, slice));
            }
        }
        Ok(())
    }
}

/// What both sides have before a call. Only the receive buffers may differ, behind the held bytes. It is kept from call to call,
/// since most calls change little and copies of everything would be most of the work.
struct Before {
    image: Vec<u8>,
    state: Vec<u8>,
    reply: Vec<u8>,
    /// The tested side's, taken only for calls that leave it.
    receive: Vec<u8>,
}

/// Whether a call leaves every lent byte.
fn leaves_all(input: &[u8], fed: Fed) -> bool {
    fed.refusal != 0 || input.is_empty()
}

/// A pair of subjects with the same profile, image, state and buffers, which gets the same calls.
pub struct Line<'a> {
    pair: &'a Pair<'a>,
    profile_bytes: Vec<u8>,
    profile: Guarded,
    input: Guarded,
    tested: Side,
    model: Side,
    before: Before,
    calls: usize,
    record: Option<Record>,
    /// Data packets stored by the write that is under way.
    stored: u32,
}

/// The line's record since a start, with the image of that time.
struct Record {
    image: Vec<u8>,
    entries: Vec<Entry>,
    /// What came in of a packet that is not complete.
    begun: Vec<u8>,
}

impl<'a> Line<'a> {
    pub fn new(pair: &'a Pair<'a>, lent: &Lent) -> Line<'a> {
        Line {
            pair,
            profile_bytes: lent.profile.clone(),
            profile: Guarded::new(&lent.profile),
            input: Guarded::default(),
            tested: Side::new(lent),
            model: Side::new(lent),
            before: Before {
                image: lent.image.clone(),
                state: lent.state.clone(),
                reply: lent.reply.clone(),
                receive: Vec::new(),
            },
            calls: 0,
            record: None,
            stored: 0,
        }
    }

    pub fn pair(&self) -> &'a Pair<'a> {
        self.pair
    }

    /// The state, if its bytes are one.
    pub fn state(&self) -> Option<State> {
        model::state_from(self.model.state.lent())
    }

    pub fn image(&self) -> &[u8] {
        self.model.image.lent()
    }

    pub fn reply(&self, count: usize) -> &[u8] {
        &self.model.reply.lent()[..count]
    }

    /// A copy of all that is lent, to make another line of.
    pub fn lent(&self) -> Lent {
        Lent {
            profile: self.profile_bytes.clone(),
            image: self.model.image.lent().to_vec(),
            state: self.model.state.lent().to_vec(),
            receive: self.model.receive.lent().to_vec(),
            reply: self.model.reply.lent().to_vec(),
        }
    }

    /// Both sides start or reset, and are compared.
    fn fresh(
        &mut self,
        word: &str,
        call: fn(&dyn Subject, &[u8], &[u8], &mut [u8]) -> u32,
    ) -> Result<u32, String> {
        self.calls += 1;
        let profile = self.profile.lent();
        let side = &mut self.model;
        let state = side.state.lent_mut();
        let right = call(self.pair.model, profile, side.image.lent(), state);
        self.keep_receive();
        let profile = self.profile.lent();
        let side = &mut self.tested;
        let state = side.state.lent_mut();
        let tested = call(self.pair.tested, profile, side.image.lent(), state);
        self.compare_shared(&[])
            .and_then(|()| self.compare_fresh(tested, right))
            .map_err(|difference| format!("call {} ({}): {}", self.calls, word, difference))?;
        Ok(right)
    }

    pub fn start(&mut self) -> Result<u32, String> {
        let right = self.fresh("start", |subject, profile, image, state| {
            subject.start(profile, image, state)
        })?;
        self.stored = 0;
        self.record = match right {
            0 => Some(Record {
                image: self.image().to_vec(),
                entries: Vec::new(),
                begun: Vec::new(),
            }),
            _ => None,
        };
        self.pair.happened(effects::start_refused(right));
        self.keep_state();
        Ok(right)
    }

    pub fn reset(&mut self) -> Result<u32, String> {
        let right = self.fresh("reset", |subject, profile, image, state| {
            subject.reset(profile, image, state)
        })?;
        self.pair.happened(effects::reset_refused(right));
        if right == 0 {
            self.follow_reset();
        }
        self.keep_state();
        Ok(right)
    }

    pub fn feed(&mut self, input: &[u8]) -> Result<Fed, String> {
        self.calls += 1;
        self.input.set(input);
        let right = {
            let side = &mut self.model;
            self.pair.model.feed(
                self.profile.lent(),
                side.image.lent_mut(),
                side.state.lent_mut(),
                side.receive.lent_mut(),
                side.reply.lent_mut(),
                self.input.lent(),
            )
        };
        if leaves_all(input, right) {
            self.keep_receive();
        }
        let tested = {
            let side = &mut self.tested;
            self.pair.tested.feed(
                self.profile.lent(),
                side.image.lent_mut(),
                side.state.lent_mut(),
                side.receive.lent_mut(),
                side.reply.lent_mut(),
                self.input.lent(),
            )
        };
        self.compare_shared(input)
            .and_then(|()| self.compare_fed(input, tested, right))
            .and_then(|()| self.follow(input, right))
            .map_err(|difference| {
                let sent = hex(input);
                format!("call {} (feed of {}): {}", self.calls, sent, difference)
            })?;
        self.keep_state();
        Ok(right)
    }

    /// At the end of a history from a fresh state: the image is what the record says, to the model and written down as a recording.
    pub fn finish(&mut self) -> Result<(), String> {
        let mut record = match self.record.take() {
            None => return Ok(()),
            Some(record) => record,
        };
        let recording = self.pair.tape(&record.entries)?;
        let (replayed, image) = self
            .pair
            .replay(&self.profile_bytes, &record.image, &recording)?;
        let whole = Replayed {
            refusal: 0,
            read: recording.len(),
            ended: END,
        };
        if replayed != whole {
            return Err(format!("the line's own recording: {:?}", replayed));
        }
        self.compare_replayed("the replay of its recording", image.lent())?;
        let profile = model::profile_from(&self.profile_bytes).expect("the start was accepted");
        model::replay(used(&profile), &mut record.image, &record.entries);
        self.compare_replayed("the replay", &record.image)?;
        self.pair.happened("record replayed");
        Ok(())
    }

    /// The image of the tested side is what a replay of its line has made.
    fn compare_replayed(&self, replay: &str, replayed: &[u8]) -> Result<(), String> {
        let image = self.tested.image.lent();
        if image == replayed {
            return Ok(());
        }
        let name = self.pair.tested.name();
        let difference = differing("the image", [&name, replay], image, replayed);
        Err(format!("after call {}: {}", self.calls, difference))
    }

    fn keep_receive(&mut self) {
        let receive = &mut self.before.receive;
        receive.clear();
        receive.extend_from_slice(self.tested.receive.lent());
    }

    fn keep_state(&mut self) {
        self.before.state.copy_from_slice(self.model.state.lent());
    }

    /// What both are lent to read only, and the guards around everything.
    fn compare_shared(&self, input: &[u8]) -> Result<(), String> {
        if !self.profile.is_guarded() || self.profile.lent() != &self.profile_bytes[..] {
            return Err("the profile or what is around it changed".to_string());
        }
        if !input.is_empty() && (!self.input.is_guarded() || self.input.lent() != input) {
            return Err("the input or what is around it changed".to_string());
        }
        self.tested.guards_hold(self.pair.tested)?;
        self.model.guards_hold(self.pair.model)
    }

    /// A start or reset changes the state alone.
    fn compare_fresh(&self, tested: u32, right: u32) -> Result<(), String> {
        self.pair.same("the refusal", tested, right)?;
        let (one, other) = (self.tested.state.lent(), self.model.state.lent());
        self.pair.same_bytes("the state", one, other)?;
        self.compare_left()
    }

    /// All but the state is as it was before the call.
    fn compare_left(&self) -> Result<(), String> {
        let before = &self.before;
        for (slice, now, then) in [
            ("the image", &self.tested.image, &before.image),
            ("the image", &self.model.image, &before.image),
            ("the reply buffer", &self.tested.reply, &before.reply),
            ("the reply buffer", &self.model.reply, &before.reply),
            ("the receive buffer", &self.tested.receive, &before.receive),
        ] {
            if now.lent() != &then[..] {
                let names = ["it now", "before"];
                let difference = differing(slice, names, now.lent(), then);
                return Err(format!("{} was not left: {}", slice, difference));
            }
        }
        Ok(())
    }

    fn compare_fed(&self, input: &[u8], tested: Fed, right: Fed) -> Result<(), String> {
        let pair = self.pair;
        let (one, other) = (&self.tested, &self.model);
        pair.same("the refusal", tested.refusal, right.refusal)?;
        pair.same("the number consumed", tested.consumed, right.consumed)?;
        pair.same("the reply's length", tested.count, right.count)?;
        pair.same_bytes("the reply buffer", one.reply.lent(), other.reply.lent())?;
        pair.same_bytes("the state", one.state.lent(), other.state.lent())?;
        pair.same_bytes("the image", one.image.lent(), other.image.lent())?;
        if leaves_all(input, right) {
            if one.state.lent() != &self.before.state[..] {
                return Err("the state was not left".to_string());
            }
            return self.compare_left();
        }
        if right.count == 0 && right.consumed != input.len() {
            return Err("neither a reply nor all input consumed".to_string());
        }
        let behind = &one.reply.lent()[right.count..];
        if behind != &self.before.reply[right.count..] {
            return Err("the reply buffer changed behind the reply".to_string());
        }
        let held = self.state().map_or(0, |state| state.held as usize);
        let (one, other) = (one.receive.lent(), other.receive.lent());
        if held > one.len() {
            return Err(format!("{} bytes are held, more than there can be", held));
        }
        pair.same_bytes("what is held", &one[..held], &other[..held])
    }

    fn follow_reset(&mut self) {
        if let Some(record) = &mut self.record {
            record.entries.push(Entry::Reset);
            record.begun.clear();
        }
        self.stored = 0;
        let old = match model::state_from(&self.before.state) {
            None => return self.pair.happened("reset of no state"),
            Some(old) => old,
        };
        self.pair.happened(match old.stage {
            Stage::Setting(_) => "reset in setting",
            Stage::Authentication => "reset in authentication",
            Stage::Command => "reset in command stage",
            Stage::Writing { .. } => "reset while writing",
            Stage::Reading { .. } => "reset while reading",
        });
        if old.held > 0 {
            self.pair.happened("reset with bytes held");
        }
    }

    /// Counts what an accepted feed did and continues the record.
    fn follow(&mut self, input: &[u8], fed: Fed) -> Result<(), String> {
        let pair = self.pair;
        if fed.refusal != 0 {
            pair.happened(effects::feed_refused(fed.refusal));
            return Ok(());
        }
        if input.is_empty() {
            pair.happened("empty input");
            return Ok(());
        }
        if fed.consumed < input.len() {
            pair.happened("bytes left unread");
        }
        let before = model::state_from(&self.before.state).ok_or("a feed without a state")?;
        let after = self.state().ok_or("the feed left no state")?;
        self.before.reply[..fed.count].copy_from_slice(&self.model.reply.lent()[..fed.count]);
        let start = match before.stage {
            Stage::Setting(_) => {
                self.follow_wake_up(fed, &after);
                return Ok(());
            }
            Stage::Authentication | Stage::Command => COMMAND,
            Stage::Writing { .. } | Stage::Reading { .. } => DATA,
        };
        // the packet is gathered from what was sent, not from what either subject keeps
        let skipped = match before.held {
            0 => input.iter().position(|byte| *byte == start),
            _ => Some(0),
        };
        let new = skipped.map_or(&[][..], |at| &input[at.min(fed.consumed)..fed.consumed]);
        let mut begun = match &mut self.record {
            Some(record) => std::mem::take(&mut record.begun),
            // held bytes of a state that was made by hand stand where they stood
            None => self.model.receive.lent()[..before.held as usize].to_vec(),
        };
        begun.extend_from_slice(new);
        // each count takes a copy of the buffer, so that those beside a packet's own are asked for at every fourth call
        let looked_at = self.calls % 4 == 0;
        if fed.count == 0 {
            if after.held > 0 {
                pair.happened("packet begun and not complete");
                if looked_at {
                    pair.payload(self.model.receive.lent(), after.held as usize)?;
                }
            }
            if let Some(record) = &mut self.record {
                record.begun = begun;
            }
            return Ok(());
        }
        let changed = self.follow_image();
        self.follow_packet(&begun, fed, &before, &after, changed);
        let receive = self.model.receive.lent();
        pair.payload(receive, begun.len())?;
        if looked_at {
            pair.payload(receive, begun.len() + 1)?;
            pair.payload(receive, begun.len() - 1)?;
        }
        if let Some(record) = &mut self.record {
            record.entries.push(Entry::Exchange {
                request: begun,
                reply: self.model.reply.lent()[..fed.count].to_vec(),
            });
        }
        Ok(())
    }

    /// Whether the call changed the image.
    fn follow_image(&mut self) -> bool {
        let image = self.model.image.lent();
        let changed = image != &self.before.image[..];
        if changed {
            self.before.image.copy_from_slice(image);
        }
        changed
    }

    fn follow_wake_up(&self, fed: Fed, after: &State) {
        self.pair.happened(match (fed.count, after.stage) {
            (0, _) => "setting without a reply",
            (_, Stage::Command) => "woken up without an ID",
            (_, Stage::Authentication) => "woken up with an ID",
            _ => "low pulses acknowledged",
        });
    }

    fn follow_packet(
        &mut self,
        request: &[u8],
        fed: Fed,
        before: &State,
        after: &State,
        changed: bool,
    ) {
        let pair = self.pair;
        if request.len() == 3 {
            pair.happened(match before.stage {
                Stage::Setting(_) => "early refusal in setting",
                Stage::Authentication => "early refusal in authentication",
                Stage::Command => "early refusal in command stage",
                Stage::Writing { .. } => "early refusal while writing",
                Stage::Reading { .. } => "early refusal while reading",
            });
            return;
        }
        let reply = self.reply(fed.count);
        let (res, status) = (reply[3], reply[4]);
        let refused = reply.len() == 7 && res & 0x80 != 0;
        match before.stage {
            Stage::Writing { .. } if refused => pair.happened(effects::write_ended(status)),
            Stage::Writing { .. } => {
                pair.happened("write packet stored");
                if changed {
                    pair.happened("write changed flash");
                }
                let last = after.stage == Stage::Command;
                let several = self.stored > 0;
                self.stored += 1;
                if last && several {
                    pair.happened("write of several packets completed");
                } else if last {
                    pair.happened("write of one packet completed");
                }
            }
            Stage::Reading { .. } if refused => pair.happened(effects::read_ended(status)),
            Stage::Reading { .. } => {
                pair.happened("next read packet sent");
                if after.stage == Stage::Command {
                    pair.happened("read of several packets completed");
                }
            }
            _ if refused => pair.happened(effects::command_refused(status)),
            _ => {
                self.stored = 0;
                let changing = before.line != after.line;
                pair.happened(match (request[3], after.stage) {
                    (0x00, _) => "inquiry answered",
                    (0x12, _) if changed => "erase changed flash",
                    (0x12, _) => "erase left flash",
                    (0x13, _) => "write granted",
                    (0x15, Stage::Command) => "read of one packet completed",
                    (0x15, _) => "read of several packets begun",
                    (0x30, Stage::Command) => "authenticated",
                    (0x30, _) if changed => "total erase changed flash",
                    (0x30, _) => "total erase left flash",
                    (0x34, _) if changing => "rate changed",
                    (0x34, _) => "rate kept",
                    (0x3A, _) => "signature sent",
                    (0x3B, _) => "area sent",
                    _ => "command answered otherwise",
                });
            }
        }
    }
}
