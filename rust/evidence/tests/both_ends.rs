//! The wrapper's host and the wrapper's device at the two ends of one line: what the judge says is what the device answered.

#![cfg(feature = "proved")]

use indraveck::host::{Judge, Request, Verdict};
use indraveck::{Area, Device, Kind, Profile, Stage};
use indraveck_evidence::{packets, Effects, Noise};
use indraveck_model as model;

const SESSIONS: u32 = 600;
const REQUESTS: u32 = 80;

/// How often each of these comes up at least. A line on which nothing passes would agree with anything.
const EXPECTED: &[(&str, u64)] = &[
    ("area passed", 800),
    ("authenticate passed", 350),
    ("baud rate passed", 750),
    ("erase passed", 1600),
    ("inquiry passed", 1300),
    ("next packet passed", 2000),
    ("passed out of step", 500),
    ("read passed", 5000),
    ("refused out of step", 1300),
    ("refused with C1", 700),
    ("refused with C3", 2200),
    ("refused with D0", 4500),
    ("refused with D4", 500),
    ("refused with DA", 1000),
    ("refused with DB", 600),
    ("refused with DC", 700),
    ("refused with E2", 800),
    ("signature passed", 1300),
    ("unanswered out of step", 1400),
    ("write data passed", 2200),
    ("write passed", 3500),
    ("wrong reply out of step", 900),
];

/// Three kinds of areas, with a window that leaves out the ends of the first.
fn profile() -> Profile {
    let area = |kind, sad, size, eau, wau| Area {
        kind,
        sad,
        ead: sad + size - 1,
        eau,
        wau,
    };
    Profile {
        areas: vec![
            area(Kind::User, 0x1000, 0x2000, 0x400, 0x80),
            area(Kind::Data, 0x8000, 0x400, 0x40, 4),
            area(Kind::Config, 0x1_0000, 0x40, 0, 0x10),
        ],
        low: 0x1400,
        high: 0x2C00,
        ..Profile::bench()
    }
}

/// Where an address stands in the image.
fn place(profile: &Profile, address: u32) -> usize {
    let mut before = 0;
    for area in &profile.areas {
        if (area.sad..=area.ead).contains(&address) {
            return before + (address - area.sad) as usize;
        }
        before += area.size() as usize;
    }
    panic!("{:X}h is in no area", address)
}

fn modelled(request: &Request) -> model::Request {
    match *request {
        Request::Inquiry => model::Request::Inquiry,
        Request::Erase { sad, ead } => model::Request::Erase { sad, ead },
        Request::Write { sad, ead } => model::Request::Write { sad, ead },
        Request::Read { sad, ead } => model::Request::Read { sad, ead },
        Request::Authenticate(_) => model::Request::Authenticate,
        Request::Baud(brt) => model::Request::Baud(brt),
        Request::Signature => model::Request::Signature,
        Request::Area(number) => model::Request::Area(number),
        Request::WriteData(_) => model::Request::WriteData,
        Request::Next { left } => model::Request::Next { left },
    }
}

fn code(request: &Request) -> u8 {
    match request {
        Request::Inquiry => packets::INQUIRY,
        Request::Erase { .. } => packets::ERASE,
        Request::Write { .. } | Request::WriteData(_) => packets::WRITE,
        Request::Read { .. } | Request::Next { .. } => packets::READ,
        Request::Authenticate(_) => packets::AUTHENTICATE,
        Request::Baud(_) => packets::BAUD_RATE,
        Request::Signature => packets::SIGNATURE,
        Request::Area(_) => packets::AREA,
    }
}

/// Both ends, and what the host may send.
struct Line {
    profile: Profile,
    device: Device<Vec<u8>>,
    id: [u8; 16],
    noise: Noise,
    content: Vec<u8>,
}

impl Line {
    fn new(seed: u32) -> Line {
        let profile = profile();
        let mut noise = Noise::new(seed);
        let mut image = vec![0xFF; profile.total() as usize];
        if noise.below(4) == 0 {
            let written = noise.below(image.len());
            noise.fill(&mut image[..written]);
        }
        let mut id = [0xFF; 16];
        if noise.below(3) == 0 {
            noise.fill(&mut id);
            id[0] |= noise.pick(&[0x80, 0xC0]);
        }
        let at = profile.id_place();
        image[at..at + 16].copy_from_slice(&id);
        Line {
            device: Device::start(&profile, image).unwrap(),
            profile,
            id,
            content: noise.bytes(2048),
            noise,
        }
    }

    /// Mostly a range that a command takes.
    fn range(&mut self, unit: fn(&Area) -> u32) -> (u32, u32) {
        let area = self.noise.pick(&self.profile.areas[..]);
        let step = match unit(&area) {
            0 => 1,
            unit => unit as usize,
        };
        let units = area.size() as usize / step;
        let first = self.noise.below(units);
        let count = 1 + self.noise.below(units - first).min(4096 / step);
        let sad = area.sad + (first * step) as u32;
        let ead = sad + (count * step) as u32 - 1;
        match self.noise.below(12) {
            0 => (sad + 1, ead),
            1 => (sad, ead + 1),
            2 => (ead, sad),
            _ => (sad, ead),
        }
    }

    /// A command that any device may be sent.
    fn command(&mut self, code: &'static [u8; 16]) -> Request<'static> {
        match self.noise.below(16) {
            0 => Request::Inquiry,
            1 => Request::Signature,
            2 => Request::Area(self.noise.below(5) as u8),
            3 => Request::Baud(self.noise.pick(&[0, 9_600, 115_200, 3_906_250, 4_000_001])),
            4 => Request::Authenticate(code),
            5..=7 => {
                let (sad, ead) = self.range(|area| area.eau);
                Request::Erase { sad, ead }
            }
            8..=11 => {
                let (sad, ead) = self.range(|area| area.wau);
                Request::Write { sad, ead }
            }
            _ => {
                let (sad, ead) = self.range(|_| 1);
                Request::Read { sad, ead }
            }
        }
    }

    /// What comes back, with the device in pieces at the one end.
    fn send(&mut self, packet: &[u8]) -> Vec<u8> {
        let (mut rest, mut back) = (packet, Vec::new());
        while !rest.is_empty() {
            let piece = 1 + self.noise.below(rest.len());
            back.extend(self.device.feed_all(&rest[..piece]));
            rest = &rest[piece..];
        }
        back
    }

    /// The judge behind all of it, in pieces at the other end, beside the model's.
    fn judge(&mut self, request: &Request, back: &[u8]) -> (Judge, Vec<u8>) {
        let mut judge = Judge::new(request);
        let mut beside = model::Judge::start(modelled(request));
        assert_eq!(judge.verdict(), Verdict::Unanswered);
        let mut data = Vec::new();
        let mut rest = back;
        while !rest.is_empty() {
            let (piece, behind) = rest.split_at(1 + self.noise.below(rest.len()));
            let taken = judge.take(piece);
            let right = beside.take(piece);
            assert_eq!(
                (taken.count, &taken.data),
                (right.count, &(right.from..right.to))
            );
            assert_eq!(judge.verdict().number(), beside.verdict().number());
            data.extend_from_slice(&piece[taken.data]);
            rest = behind;
        }
        assert_eq!(judge.signature().map(|said| said.sci), beside.sci());
        let area = judge.area().map(|said| model::Area {
            koa: said.koa,
            sad: said.sad,
            ead: said.ead,
            eau: said.eau,
            wau: said.wau,
        });
        assert_eq!(area, beside.area());
        (judge, data)
    }
}

/// What the host sends next: in step, or anything.
fn next<'a>(
    line: &mut Line,
    in_step: bool,
    id: &'a [u8; 16],
    content: &'a [u8],
    left: u32,
) -> Request<'a> {
    let state = line.device.state();
    let amount = match line.noise.below(4) {
        0 => 128,
        1 => 1024,
        2 => 4 * (1 + line.noise.below(256)),
        _ => 1 + line.noise.below(1024),
    };
    let code = match line.noise.below(4) {
        0 => &packets::TOTAL_ERASE,
        1 => &[0x5A; 16],
        _ => id,
    };
    let authenticate = Request::Authenticate(code);
    let start = line.noise.below(1024);
    match (in_step, state.stage) {
        (true, Stage::Authentication) if line.noise.below(3) > 0 => authenticate,
        (true, Stage::Writing { left, .. }) => {
            // mostly as much as the device takes
            let amount = match line.noise.below(4) {
                0 => amount,
                _ => (left as usize).min(1024),
            };
            Request::WriteData(&content[start..start + amount])
        }
        (true, Stage::Reading { .. }) => Request::Next { left },
        (true, _) => line.command(&packets::TOTAL_ERASE),
        (false, _) => match line.noise.below(4) {
            0 => Request::WriteData(&content[start..start + amount]),
            1 => Request::Next {
                left: 1 + line.noise.below(3000) as u32,
            },
            2 => authenticate,
            _ => line.command(&packets::TOTAL_ERASE),
        },
    }
}

/// In step the device answers with one packet, and the judge says what it says: passed exactly where that is an OK or data.
fn check_in_step(
    request: &Request,
    judge: &Judge,
    reply: &[u8],
    effects: &mut Effects,
) -> Result<(), String> {
    let own = code(request);
    let well_formed = reply.len() >= 7
        && reply[0] == packets::DATA
        && packets::data(reply[3], &reply[4..reply.len() - 2]) == reply;
    if !well_formed {
        return Err("that is not one packet".to_string());
    }
    let expected = if reply[3] == own {
        Verdict::Passed
    } else if reply[3] == own | 0x80 {
        Verdict::Refused(reply[4])
    } else {
        return Err("that is no answer to it".to_string());
    };
    if judge.verdict() != expected {
        return Err(format!("{} where it was {}", judge.verdict(), expected));
    }
    effects.happened(match (expected, request) {
        (Verdict::Passed, Request::Inquiry) => "inquiry passed",
        (Verdict::Passed, Request::Erase { .. }) => "erase passed",
        (Verdict::Passed, Request::Write { .. }) => "write passed",
        (Verdict::Passed, Request::Read { .. }) => "read passed",
        (Verdict::Passed, Request::Authenticate(_)) => "authenticate passed",
        (Verdict::Passed, Request::Baud(_)) => "baud rate passed",
        (Verdict::Passed, Request::Signature) => "signature passed",
        (Verdict::Passed, Request::Area(_)) => "area passed",
        (Verdict::Passed, Request::WriteData(_)) => "write data passed",
        (Verdict::Passed, Request::Next { .. }) => "next packet passed",
        (Verdict::Refused(0xC1), _) => "refused with C1",
        (Verdict::Refused(0xC3), _) => "refused with C3",
        (Verdict::Refused(0xD0), _) => "refused with D0",
        (Verdict::Refused(0xD4), _) => "refused with D4",
        (Verdict::Refused(0xDA), _) => "refused with DA",
        (Verdict::Refused(0xDB), _) => "refused with DB",
        (Verdict::Refused(0xDC), _) => "refused with DC",
        (Verdict::Refused(0xE2), _) => "refused with E2",
        (_, _) => "refused otherwise",
    });
    Ok(())
}

/// What a request that passed has done, and that one which was refused has done nothing.
fn check_effect(
    line: &Line,
    request: &Request,
    before: &(Stage, Vec<u8>),
    judge: &Judge,
    data: &[u8],
) -> Result<(), String> {
    let profile = &line.profile;
    let (stage, flash) = before;
    let mut expected = flash.clone();
    let at = |address: u32| place(profile, address);
    let mut read = None;
    match (judge.verdict(), *request, *stage) {
        (Verdict::Passed, Request::Erase { sad, ead }, _) => {
            expected[at(sad)..=at(ead)].fill(0xFF);
        }
        (Verdict::Passed, Request::WriteData(bytes), Stage::Writing { next, .. }) => {
            expected[at(next)..at(next) + bytes.len()].copy_from_slice(bytes);
        }
        (Verdict::Passed, Request::Authenticate(code), _) if *code == packets::TOTAL_ERASE => {
            expected.fill(0xFF);
        }
        (Verdict::Passed, Request::Read { sad, .. }, _) => read = Some(sad),
        (Verdict::Passed, Request::Next { .. }, Stage::Reading { next, .. }) => read = Some(next),
        _ => {}
    }
    if line.device.image() != &expected {
        return Err("the flash is another".to_string());
    }
    if let Some(address) = read {
        if !flash[at(address)..].starts_with(data) || data.is_empty() {
            return Err("what was read is not the flash".to_string());
        }
    }
    Ok(())
}

#[test]
fn the_judge_says_what_the_device_answered() {
    let mut effects = Effects::default();
    let mut sent = 0;
    for session in 0..SESSIONS {
        let mut line = Line::new(session);
        let (id, content) = (line.id, line.content.clone());
        // how many bytes of a read are unread, as the host counts them
        let mut left = 0;
        for _ in 0..REQUESTS {
            let state = line.device.state();
            if let Stage::Setting { .. } = state.stage {
                line.device.feed_all(&packets::WAKE_UP);
                continue;
            }
            if line.noise.below(30) == 0 {
                line.device.reset();
                continue;
            }
            let in_step = state.held == 0 && line.noise.below(8) > 0;
            let request = next(&mut line, in_step, &id, &content, left);
            let before = (state.stage, line.device.image().clone());
            let reply = line.send(&request.packet().expect("it can be built"));
            // now and then with the bytes of a wake-up before it
            let back = match line.noise.below(6) {
                0 => [&[0x00, 0xC3][..], &reply].concat(),
                _ => reply.clone(),
            };
            let (judge, data) = line.judge(&request, &back);
            sent += 1;
            let outcome = if in_step {
                check_in_step(&request, &judge, &reply, &mut effects)
                    .and_then(|()| check_effect(&line, &request, &before, &judge, &data))
            } else {
                effects.happened(match judge.verdict() {
                    Verdict::Unanswered => "unanswered out of step",
                    Verdict::Passed => "passed out of step",
                    Verdict::Refused(_) => "refused out of step",
                    Verdict::WrongReply => "wrong reply out of step",
                });
                match judge.verdict() {
                    Verdict::Passed if reply.get(3) != Some(&code(&request)) => {
                        Err("it passed without its RES".to_string())
                    }
                    Verdict::Unanswered if !reply.is_empty() => Err("it was answered".to_string()),
                    _ => Ok(()),
                }
            };
            if let Err(what) = outcome {
                panic!(
                    "session {}: {:?} in {:?} is answered {:02X?}: {}",
                    session, request, state, reply, what
                );
            }
            left = match line.device.state().stage {
                // a host knows it from its own requests, where it is in step
                Stage::Reading { left, .. } => {
                    if let (true, Request::Read { sad, ead }) = (in_step, request) {
                        assert_eq!(ead - sad + 1 - data.len() as u32, left);
                    }
                    left
                }
                _ => 0,
            };
        }
    }
    println!("{} requests were sent:\n{}", sent, effects);
    let missing = effects.missing(EXPECTED);
    assert!(missing.is_empty(), "{}", missing.join("\n"));
}
