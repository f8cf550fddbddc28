//! Profile and state as bytes, numbers high byte first.

use crate::{Area, Line, Profile, Pulse, Stage, State};

const PROFILE: usize = 156;
const STATE: usize = 33;
const AREAS: usize = 20;
const AREA: usize = 17;

/// Lays values down one behind the other.
struct Writer<'a> {
    bytes: &'a mut [u8],
    at: usize,
}

impl Writer<'_> {
    fn put(&mut self, bytes: &[u8]) {
        self.bytes[self.at..self.at + bytes.len()].copy_from_slice(bytes);
        self.at += bytes.len();
    }

    fn number(&mut self, value: u32) {
        self.put(&value.to_be_bytes());
    }
}

/// Takes values up in the order they were laid down.
struct Reader<'a> {
    bytes: &'a [u8],
    at: usize,
}

impl Reader<'_> {
    fn take<const N: usize>(&mut self) -> [u8; N] {
        let mut taken = [0; N];
        taken.copy_from_slice(&self.bytes[self.at..self.at + N]);
        self.at += N;
        taken
    }

    fn byte(&mut self) -> u8 {
        self.take::<1>()[0]
    }

    fn number(&mut self) -> u32 {
        u32::from_be_bytes(self.take())
    }
}

/// KOA 1, SAD 4, EAD 4, EAU 4, WAU 4: also the form of the area message.
pub(crate) fn area_bytes(area: &Area) -> [u8; AREA] {
    let mut bytes = [0; AREA];
    let mut writer = Writer {
        bytes: &mut bytes,
        at: 0,
    };
    writer.put(&[area.koa]);
    for value in [area.sad, area.ead, area.eau, area.wau] {
        writer.number(value);
    }
    bytes
}

/// NOA 1, TYP 1, BFV 2, SCI 4, RMB 4, low 4, high 4, then eight areas of 17.
pub fn profile_bytes(p: &Profile) -> [u8; PROFILE] {
    let mut bytes = [0; PROFILE];
    let mut writer = Writer {
        bytes: &mut bytes,
        at: 0,
    };
    writer.put(&[p.noa, p.typ]);
    writer.put(&p.bfv.to_be_bytes());
    for value in [p.sci, p.rmb, p.low, p.high] {
        writer.number(value);
    }
    for area in &p.areas {
        writer.put(&area_bytes(area));
    }
    bytes
}

/// The profile that has these bytes; `None` for another length.
pub fn profile_from(bytes: &[u8]) -> Option<Profile> {
    if bytes.len() != PROFILE {
        return None;
    }
    let mut reader = Reader { bytes, at: 0 };
    let mut profile = Profile {
        noa: reader.byte(),
        typ: reader.byte(),
        bfv: u16::from_be_bytes(reader.take()),
        sci: reader.number(),
        rmb: reader.number(),
        low: reader.number(),
        high: reader.number(),
        areas: [Area::default(); 8],
    };
    debug_assert_eq!(reader.at, AREAS);
    for area in &mut profile.areas {
        *area = Area {
            koa: reader.byte(),
            sad: reader.number(),
            ead: reader.number(),
            eau: reader.number(),
            wau: reader.number(),
        };
    }
    Some(profile)
}

/// Stage 1, low pulses 1, next address 4, bytes left 4, ID 16, ABCS 1, BRR 1,
/// MDDR 1, held count 4. What a stage doesn't have is 0.
pub fn state_bytes(s: &State) -> [u8; STATE] {
    let (stage, pulses, next, left) = match s.stage {
        Stage::Setting(Pulse::None) => (0, 0, 0, 0),
        Stage::Setting(Pulse::One) => (0, 1, 0, 0),
        Stage::Setting(Pulse::Acknowledged) => (0, 2, 0, 0),
        Stage::Authentication => (1, 0, 0, 0),
        Stage::Command => (2, 0, 0, 0),
        Stage::Writing { next, left } => (3, 0, next, left),
        Stage::Reading { next, left } => (4, 0, next, left),
    };
    let mut bytes = [0; STATE];
    let mut writer = Writer {
        bytes: &mut bytes,
        at: 0,
    };
    writer.put(&[stage, pulses]);
    writer.number(next);
    writer.number(left);
    writer.put(&s.id);
    writer.put(&[s.line.abcs, s.line.brr, s.line.mddr]);
    writer.number(s.held);
    bytes
}

/// The state that has these bytes; `None` if no state has.
pub fn state_from(bytes: &[u8]) -> Option<State> {
    if bytes.len() != STATE {
        return None;
    }
    let mut reader = Reader { bytes, at: 0 };
    let (stage, pulses) = (reader.byte(), reader.byte());
    let (next, left) = (reader.number(), reader.number());
    let stage = match (stage, pulses, next, left) {
        (0, 0, 0, 0) => Stage::Setting(Pulse::None),
        (0, 1, 0, 0) => Stage::Setting(Pulse::One),
        (0, 2, 0, 0) => Stage::Setting(Pulse::Acknowledged),
        (1, 0, 0, 0) => Stage::Authentication,
        (2, 0, 0, 0) => Stage::Command,
        (3, 0, next, left) => Stage::Writing { next, left },
        (4, 0, next, left) => Stage::Reading { next, left },
        _ => return None,
    };
    Some(State {
        stage,
        id: reader.take(),
        line: Line {
            abcs: reader.byte(),
            brr: reader.byte(),
            mddr: reader.byte(),
        },
        held: reader.number(),
    })
}
