//! A device on a bench: profile, image, state and both buffers together.

use indraveck_model::*;

pub const BUFFER: usize = 1030;
/// What the reply buffer holds before each feed, to show what it keeps.
pub const UNTOUCHED: u8 = 0xA7;

pub const OK_INQUIRY: &str = "81 00 02 00 00 FE 03";
pub const OK_ERASE: &str = "81 00 02 12 00 EC 03";
pub const OK_WRITE: &str = "81 00 02 13 00 EB 03";
pub const OK_AUTHENTICATE: &str = "81 00 02 30 00 CE 03";
pub const OK_RATE: &str = "81 00 02 34 00 CA 03";
pub const NEXT_READ: &str = "81 00 02 15 00 E9 03";
pub const TOTAL_ERASE: &str = "01 00 11 30 41 4C 65 52 41 53 45 FF FF FF FF FF FF FF FF FF AB 03";

pub fn hex(text: &str) -> Vec<u8> {
    text.split_whitespace()
        .map(|byte| u8::from_str_radix(byte, 16).unwrap())
        .collect()
}

pub fn area(koa: u8, sad: u32, ead: u32, eau: u32, wau: u32) -> Area {
    Area {
        koa,
        sad,
        ead,
        eau,
        wau,
    }
}

pub fn profile(areas: &[Area]) -> Profile {
    let mut table = [Area::default(); 8];
    table[..areas.len()].copy_from_slice(areas);
    Profile {
        noa: areas.len() as u8,
        typ: 1,
        bfv: 0x0100,
        sci: 60_000_000,
        rmb: 4_000_000,
        low: 0,
        high: 0,
        areas: table,
    }
}

/// The bench profile of the scope document.
pub fn bench_profile() -> Profile {
    profile(&[
        area(0, 0, 0xFFFF, 0x2000, 0x80),
        area(2, 0x0100_0000, 0x0100_00FF, 0, 0x10),
    ])
}

pub fn packet(start: u8, contents: &[u8]) -> Vec<u8> {
    let mut packet = vec![start];
    packet.extend((contents.len() as u16).to_be_bytes());
    packet.extend(contents);
    let sum = packet[1..].iter().fold(0u8, |sum, b| sum.wrapping_add(*b));
    packet.extend([sum.wrapping_neg(), 0x03]);
    packet
}

pub fn command(com: u8, information: &[u8]) -> Vec<u8> {
    packet(0x01, &[&[com], information].concat())
}

/// A command with SAD and EAD.
pub fn ranged(com: u8, sad: u32, ead: u32) -> Vec<u8> {
    command(com, &[sad.to_be_bytes(), ead.to_be_bytes()].concat())
}

pub fn data(res: u8, data: &[u8]) -> Vec<u8> {
    packet(0x81, &[&[res], data].concat())
}

pub fn status(res: u8, sts: u8) -> Vec<u8> {
    packet(0x81, &[res, sts])
}

pub struct Bench {
    pub fault: Option<Fault>,
    pub p: Profile,
    pub image: Vec<u8>,
    pub state: State,
    pub receive: Vec<u8>,
    pub reply: Vec<u8>,
}

impl Bench {
    pub fn with(fault: Option<Fault>, p: Profile, image: Vec<u8>) -> Bench {
        let (refusal, state) = start_with(fault, &p, &image);
        assert_eq!(refusal, 0);
        Bench {
            fault,
            p,
            image,
            state,
            receive: vec![0x01; BUFFER],
            reply: vec![UNTOUCHED; BUFFER],
        }
    }

    /// A right device with a blank image, not woken up.
    pub fn asleep(p: Profile) -> Bench {
        let image = vec![0xFF; total(&p) as usize];
        Bench::with(None, p, image)
    }

    pub fn new() -> Bench {
        Bench::asleep(bench_profile())
    }

    pub fn woken(p: Profile) -> Bench {
        let mut bench = Bench::asleep(p);
        bench.wake();
        bench
    }

    /// The bench profile in command stage.
    pub fn ready() -> Bench {
        Bench::woken(bench_profile())
    }

    /// The bench profile with an ID stored, in authentication.
    pub fn locked(id: &[u8]) -> Bench {
        let mut bench = Bench::new();
        bench.image[0x10000..0x10010].copy_from_slice(id);
        bench.wake();
        assert_eq!(bench.state.stage, Stage::Authentication);
        bench
    }

    pub fn wake(&mut self) {
        assert_eq!(self.exchange(&[0, 0]), [0x00]);
        assert_eq!(self.exchange(&[0x55]), [0xC3]);
    }

    pub fn feed(&mut self, input: &[u8]) -> (Fed, Vec<u8>) {
        self.reply.fill(UNTOUCHED);
        let fed = feed_with(
            self.fault,
            &self.p,
            &mut self.image,
            &mut self.state,
            &mut self.receive,
            &mut self.reply,
            input,
        );
        (fed, self.reply[..fed.count].to_vec())
    }

    /// Feeds a request that must be accepted and taken whole.
    pub fn exchange(&mut self, input: &[u8]) -> Vec<u8> {
        let (fed, reply) = self.feed(input);
        assert_eq!((fed.refusal, fed.consumed), (0, input.len()));
        let tail = &self.reply[fed.count..];
        assert!(tail.iter().all(|byte| *byte == UNTOUCHED));
        reply
    }

    pub fn reset(&mut self) -> u32 {
        let (refusal, state) = reset_with(self.fault, &self.p, &self.image, &self.state);
        self.state = state;
        refusal
    }
}

/// A small generator of numbers that only have to look unrelated.
pub struct Dice(u64);

impl Dice {
    pub fn new(seed: u64) -> Dice {
        Dice(seed.wrapping_mul(0x9E37_79B9_7F4A_7C15) | 1)
    }

    pub fn below(&mut self, limit: usize) -> usize {
        self.0 ^= self.0 << 13;
        self.0 ^= self.0 >> 7;
        self.0 ^= self.0 << 17;
        ((self.0 >> 11) % limit as u64) as usize
    }

    pub fn pick<'a, T>(&mut self, choices: &'a [T]) -> &'a T {
        &choices[self.below(choices.len())]
    }
}
