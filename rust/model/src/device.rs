//! The device: starting, resetting, and bytes in, reply bytes out.

use crate::answer::{ERROR, PACKET, READ, WRITE};
use crate::faults::{Fault, Faults, Right};
use crate::packet::{
    stated_length, BUFFER, COMMAND, DATA, FRAME, HEAD, LONGEST_COMMAND, LONGEST_DATA,
};
use crate::profile::{ID_LENGTH, USER};
use crate::{acceptable, baud, total, Area, Fed, Line, Profile, Pulse, Stage, State};

/// What stands in the ID's place when none is stored.
const NO_ID: [u8; ID_LENGTH] = [0xFF; ID_LENGTH];

/// A fresh state, or the zero state with the number of the refusal.
pub fn start(p: &Profile, image: &[u8]) -> (u32, State) {
    starting(Right, p, image)
}

/// [`start`] of a device with a fault.
pub fn start_with(f: Option<Fault>, p: &Profile, image: &[u8]) -> (u32, State) {
    starting(f, p, image)
}

/// A fresh state whatever the state was, or the state given with the number
/// of the refusal.
pub fn reset(p: &Profile, image: &[u8], state: &State) -> (u32, State) {
    resetting(Right, p, image, state)
}

/// [`reset`] of a device with a fault.
pub fn reset_with(f: Option<Fault>, p: &Profile, image: &[u8], state: &State) -> (u32, State) {
    resetting(f, p, image, state)
}

/// Takes input up to the byte that completes the first reply.
pub fn feed(
    p: &Profile,
    image: &mut [u8],
    state: &mut State,
    receive: &mut [u8],
    reply: &mut [u8],
    input: &[u8],
) -> Fed {
    feeding(Right, p, image, state, receive, reply, input)
}

/// [`feed`] of a device with a fault.
pub fn feed_with(
    f: Option<Fault>,
    p: &Profile,
    image: &mut [u8],
    state: &mut State,
    receive: &mut [u8],
    reply: &mut [u8],
    input: &[u8],
) -> Fed {
    feeding(f, p, image, state, receive, reply, input)
}

/// Whether the state is one that a device of this profile can go on from,
/// with these bytes as what it holds.
pub fn fits(p: &Profile, s: &State, receive: &[u8]) -> bool {
    fitting(Right, p, s, receive)
}

fn starting<F: Faults>(f: F, p: &Profile, image: &[u8]) -> (u32, State) {
    let refusal = start_refusal(f, p, image);
    if refusal == 0 {
        return (0, fresh(f, p, image));
    }
    let zero = State {
        stage: Stage::Setting(Pulse::None),
        id: [0; ID_LENGTH],
        line: Line::default(),
        held: 0,
    };
    if f.has(Fault::RefusedStartIsFresh) && p.sci != 0 {
        let line = baud::fresh(f, p.sci);
        let id = NO_ID;
        return (refusal, State { id, line, ..zero });
    }
    (refusal, zero)
}

fn resetting<F: Faults>(f: F, p: &Profile, image: &[u8], state: &State) -> (u32, State) {
    let refusal = start_refusal(f, p, image);
    if refusal != 0 {
        return (refusal, state.clone());
    }
    let mut fresh = fresh(f, p, image);
    if f.has(Fault::ResetKeepsStage) {
        fresh.stage = state.stage;
    }
    (0, fresh)
}

pub(crate) fn fresh<F: Faults>(f: F, p: &Profile, image: &[u8]) -> State {
    let id = if f.has(Fault::IdLatchedAtStart) {
        stored_id(p, image)
    } else {
        NO_ID
    };
    State {
        stage: Stage::Setting(Pulse::None),
        id,
        line: baud::fresh(f, p.sci),
        held: 0,
    }
}

pub(crate) fn start_refusal<F: Faults>(f: F, p: &Profile, image: &[u8]) -> u32 {
    let wrong_image = image.len() as u64 != total(p);
    if f.has(Fault::RefusalOneBeforeFour) && wrong_image {
        1
    } else if !acceptable(p) {
        4
    } else if wrong_image {
        1
    } else {
        0
    }
}

fn feed_refusal<F: Faults>(
    f: F,
    p: &Profile,
    image: &[u8],
    state: &State,
    receive: &[u8],
    reply: &[u8],
) -> u32 {
    let refusal = start_refusal(f, p, image);
    let short = receive.len() < BUFFER;
    if refusal != 0 {
        refusal
    } else if f.has(Fault::RefusalTwoBeforeFive) && short {
        2
    } else if !fitting(f, p, state, receive) {
        5
    } else if short {
        2
    } else if reply.len() < BUFFER {
        3
    } else {
        0
    }
}

fn fitting<F: Faults>(f: F, p: &Profile, s: &State, receive: &[u8]) -> bool {
    let held = s.held as usize;
    let kind = match awaits(f, s.stage) {
        // No packet exists in setting.
        Awaits::WakeUp(_) => return held == 0,
        Awaits::Packet(kind) => kind,
    };
    let range_fits = match s.stage {
        Stage::Writing { next, left } => last_of(next, left)
            .and_then(|last| Some((last, p.locate(next, last)?.0)))
            .map_or(false, |(last, area)| {
                aligned(f, area.wau, next, last) && in_window(f, p, area, next, last)
            }),
        Stage::Reading { next, left } => {
            last_of(next, left).map_or(false, |last| p.locate(next, last).is_some())
        }
        _ => true,
    };
    range_fits && held_fits(kind, held, receive)
}

/// Whether the held bytes are the beginning of a packet of the awaited kind.
fn held_fits(kind: Kind, held: usize, receive: &[u8]) -> bool {
    if held == 0 {
        return true;
    }
    if held > receive.len() || receive[0] != kind.start {
        return false;
    }
    if held < HEAD {
        return true;
    }
    let length = stated_length(receive);
    kind.permits(length) && held < length + FRAME
}

/// The last address of a range; none for an empty range or one that runs
/// over the top of the addresses.
fn last_of(next: u32, left: u32) -> Option<u32> {
    next.checked_add(left.checked_sub(1)?)
}

/// Whether the range starts and ends on an edge of the unit.
pub(crate) fn aligned<F: Faults>(f: F, unit: u32, first: u32, last: u32) -> bool {
    let behind = if f.has(Fault::AlignsEadItself) {
        u64::from(last)
    } else {
        u64::from(last) + 1
    };
    unit != 0 && first % unit == 0 && behind % u64::from(unit) == 0
}

/// Whether the window lets the range be erased or written.
pub(crate) fn in_window<F: Faults>(f: F, p: &Profile, area: &Area, first: u32, last: u32) -> bool {
    if area.koa != USER && !f.has(Fault::WindowOnAllAreas) {
        return true;
    }
    if p.low == p.high && !f.has(Fault::EqualWindowIsClosed) {
        return true;
    }
    let below_high = last < p.high || (f.has(Fault::WindowHighInclusive) && last == p.high);
    p.low <= first && below_high
}

/// What a stage awaits.
enum Awaits {
    WakeUp(Pulse),
    Packet(Kind),
}

/// A kind of packet, with RES of its early refusal.
#[derive(Clone, Copy)]
struct Kind {
    start: u8,
    longest: usize,
    early: u8,
}

impl Kind {
    fn permits(&self, length: usize) -> bool {
        (1..=self.longest).contains(&length)
    }
}

#[inline]
fn awaits<F: Faults>(f: F, stage: Stage) -> Awaits {
    let longest_command = if f.has(Fault::Length257Permitted) {
        LONGEST_COMMAND + 1
    } else if f.has(Fault::Length256Refused) {
        LONGEST_COMMAND - 1
    } else {
        LONGEST_COMMAND
    };
    let (start, longest, early) = match stage {
        Stage::Setting(pulse) => return Awaits::WakeUp(pulse),
        // COM isn't known yet where an early refusal is sent.
        Stage::Authentication | Stage::Command => (COMMAND, longest_command, ERROR),
        Stage::Writing { .. } => (DATA, LONGEST_DATA, WRITE | ERROR),
        Stage::Reading { .. } => (DATA, LONGEST_DATA, READ | ERROR),
    };
    Awaits::Packet(Kind {
        start,
        longest,
        early,
    })
}

fn feeding<F: Faults>(
    f: F,
    p: &Profile,
    image: &mut [u8],
    state: &mut State,
    receive: &mut [u8],
    reply: &mut [u8],
    input: &[u8],
) -> Fed {
    let refusal = feed_refusal(f, p, image, state, receive, reply);
    if refusal != 0 {
        return Fed {
            refusal,
            ..Fed::default()
        };
    }
    if input.is_empty() {
        return Fed::default();
    }
    if f.has(Fault::SwallowsBytes) {
        return silent(input);
    }
    let awaits = awaits(f, state.stage);
    let mut device = Device {
        f,
        p,
        image,
        state,
        reply,
    };
    let mut fed = match awaits {
        Awaits::WakeUp(pulse) => device.wake_up(pulse, input),
        Awaits::Packet(kind) => device.gather(kind, receive, input),
    };
    if fed.count > 0 {
        if f.has(Fault::ReplyTailCleared) {
            reply[fed.count..].fill(0);
        }
        if f.has(Fault::ConsumedOneTooFew) {
            fed.consumed -= 1;
        }
        if f.has(Fault::ConsumesUnreadBytes) {
            fed.consumed = input.len();
        }
    }
    fed
}

/// All input taken, no reply.
fn silent(input: &[u8]) -> Fed {
    replied(input.len(), 0)
}

fn replied(consumed: usize, count: usize) -> Fed {
    Fed {
        refusal: 0,
        consumed,
        count,
    }
}

fn stored_id(p: &Profile, image: &[u8]) -> [u8; ID_LENGTH] {
    let place = p.id_place();
    let mut id = NO_ID;
    id.copy_from_slice(&image[place..place + ID_LENGTH]);
    id
}

/// All that an accepted feed works on, but for the receive buffer, which
/// lends the packet to be answered.
pub(crate) struct Device<'a, F> {
    pub(crate) f: F,
    pub(crate) p: &'a Profile,
    pub(crate) image: &'a mut [u8],
    pub(crate) state: &'a mut State,
    pub(crate) reply: &'a mut [u8],
}

impl<'a, F: Faults> Device<'a, F> {
    fn wake_up(&mut self, mut pulse: Pulse, input: &[u8]) -> Fed {
        for (at, &byte) in input.iter().enumerate() {
            pulse = match (pulse, byte) {
                (Pulse::None, 0x00) => Pulse::One,
                (Pulse::One, 0x00) => {
                    self.state.stage = Stage::Setting(Pulse::Acknowledged);
                    self.reply[0] = 0x00;
                    return replied(at + 1, 1);
                }
                (Pulse::Acknowledged, 0x00) => Pulse::Acknowledged,
                (Pulse::Acknowledged, 0x55) => {
                    self.latch_id();
                    self.reply[0] = 0xC3;
                    return replied(at + 1, 1);
                }
                (Pulse::One, _) if self.f.has(Fault::PulsesNotInARow) => Pulse::One,
                _ => Pulse::None,
            };
        }
        self.state.stage = Stage::Setting(pulse);
        silent(input)
    }

    fn latch_id(&mut self) {
        if !self.f.has(Fault::IdLatchedAtStart) {
            self.state.id = stored_id(self.p, self.image);
        }
        self.state.stage = if self.state.id == NO_ID {
            Stage::Command
        } else {
            Stage::Authentication
        };
    }

    /// Brings input together into a packet and answers it when it is whole.
    fn gather(&mut self, kind: Kind, receive: &mut [u8], input: &[u8]) -> Fed {
        let mut held = self.state.held as usize;
        let mut at = 0;
        if held == 0 {
            match input.iter().position(|&byte| byte == kind.start) {
                Some(place) => at = place,
                None => return silent(input),
            }
        }
        if held < HEAD {
            let run = (HEAD - held).min(input.len() - at);
            receive[held..held + run].copy_from_slice(&input[at..at + run]);
            held += run;
            at += run;
            if held < HEAD {
                self.state.held = held as u32;
                return silent(input);
            }
            if !kind.permits(stated_length(receive)) {
                self.state.held = 0;
                self.end_range();
                return replied(at, self.status(kind.early, PACKET));
            }
        }
        let whole = stated_length(receive) + FRAME;
        let run = (whole - held).min(input.len() - at);
        receive[held..held + run].copy_from_slice(&input[at..at + run]);
        held += run;
        at += run;
        if held < whole {
            self.state.held = held as u32;
            return silent(input);
        }
        self.state.held = 0;
        replied(at, self.answer(&receive[..whole]))
    }
}
