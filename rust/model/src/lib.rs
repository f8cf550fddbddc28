//! A model of a microcontroller in serial programming mode: bytes in, reply
//! bytes out, and a flash image that can be inspected; and of the host at the
//! other end of its line.
//!
//! It is written from the scope document alone and shares no code with the
//! proved library, so that agreement of the two says something about both.
//! [`Fault`] gives the same device with one deliberate error, to show that a
//! comparison would notice.

#![forbid(unsafe_code)]

mod answer;
mod baud;
mod device;
mod faults;
mod host;
mod layout;
mod packet;
mod profile;
mod recording;
mod replay;

pub use device::{feed, feed_with, fits, reset, reset_with, start, start_with};
pub use faults::Fault;
pub use host::{build, build_with, judge_bytes, judge_from, plan, plan_with};
pub use host::{Judge, Plan, Request, Taken, Unbuilt, Unplanned, Verdict, JUDGE_BYTES};
pub use layout::{profile_bytes, profile_from, state_bytes, state_from};
pub use packet::payload;
pub use profile::{acceptable, total};
pub use recording::{read_record, read_record_with, write_record, write_record_with, Found};
pub use replay::{replay, replay_recording, replay_recording_with, Entry, Replayed};

/// One stretch of flash with its units. `ead` is inclusive; a unit of 0 means
/// that the area can't be erased (`eau`) or written (`wau`).
#[derive(Clone, Copy, Debug, Default, PartialEq, Eq)]
pub struct Area {
    /// 0 user, 1 data, 2 config.
    pub koa: u8,
    pub sad: u32,
    pub ead: u32,
    pub eau: u32,
    pub wau: u32,
}

/// What the device is. Only the first `noa` areas count.
#[derive(Clone, Debug, PartialEq, Eq)]
pub struct Profile {
    pub noa: u8,
    pub typ: u8,
    pub bfv: u16,
    pub sci: u32,
    pub rmb: u32,
    pub low: u32,
    pub high: u32,
    pub areas: [Area; 8],
}

/// How far the low pulses of a wake-up have come.
#[derive(Clone, Copy, Debug, PartialEq, Eq)]
pub enum Pulse {
    None,
    One,
    Acknowledged,
}

/// What the device awaits. `next` is the address of the next byte to be
/// written or sent, `left` the number of bytes from there on.
#[derive(Clone, Copy, Debug, PartialEq, Eq)]
pub enum Stage {
    Setting(Pulse),
    Authentication,
    Command,
    Writing { next: u32, left: u32 },
    Reading { next: u32, left: u32 },
}

/// The serial line's setting. An unused MDDR is held as 0.
#[derive(Clone, Copy, Debug, Default, PartialEq, Eq)]
pub struct Line {
    pub abcs: u8,
    pub brr: u8,
    pub mddr: u8,
}

/// Everything the device keeps between two feeds, but for the image and the
/// `held` bytes at the front of the receive buffer.
#[derive(Clone, Debug, PartialEq, Eq)]
pub struct State {
    pub stage: Stage,
    pub id: [u8; 16],
    pub line: Line,
    pub held: u32,
}

/// What a feed answers: a refusal number (0 if accepted), how many input
/// bytes were taken and how long the reply is.
#[derive(Clone, Copy, Debug, Default, PartialEq, Eq)]
pub struct Fed {
    pub refusal: u32,
    pub consumed: usize,
    pub count: usize,
}
