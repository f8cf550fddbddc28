//! Random histories. What is generated are plain numbers, so that a failure shrinks; what they mean is settled while the history is
//! played, when the stage is known.

use crate::line::{Lent, Line, Pair};
use crate::noise::Noise;
use crate::packets::{self, Flaw};
use crate::profiles::{self, Rule, RULES};
use crate::subject::{BUFFER_BYTES, PROFILE_BYTES, STATE_BYTES};
use indraveck_model::{self as model, Area, Profile, Pulse, Stage, State};
use proptest::collection::vec;
use proptest::prelude::*;
use std::rc::Rc;

/// A device and what happens to it.
#[derive(Clone, Debug)]
pub struct History {
    pub profile: Profile,
    pub image: Image,
    /// How many bytes each buffer has above the least.
    pub spare: (usize, usize),
    pub actions: Vec<Action>,
}

/// The flash before the start.
#[derive(Clone, Debug)]
pub struct Image {
    pub flash: Flash,
    pub id: Id,
}

#[derive(Clone, Copy, Debug)]
pub enum Flash {
    Blank,
    Spotted { seed: u32 },
    Full { seed: u32 },
}

#[derive(Clone, Copy, Debug)]
pub enum Id {
    None,
    Stored {
        seed: u32,
        bit_127: bool,
        bit_126: bool,
    },
    TotalEraseCode,
    AsFlash,
}

/// How bytes reach the device.
#[derive(Clone, Copy, Debug)]
pub enum Delivery {
    /// At once, and what a reply leaves unread once more.
    Whole,
    /// At once, and what a reply leaves unread is lost.
    UnreadLost,
    /// Bytes alone at both ends, the middle at once.
    Bytes,
    /// In two parts.
    Parts(u32),
    /// The first part; the rest is kept for later.
    RestLater(u32),
    /// The first part alone.
    RestNever(u32),
    BehindNoise(u32),
    Twice,
}

#[derive(Clone, Copy, Debug)]
pub enum Action {
    /// What a good host would do in this stage.
    Suitable {
        choice: u32,
        size: u32,
        seed: u32,
        delivery: Delivery,
    },
    WakeUp {
        choice: u32,
        delivery: Delivery,
    },
    Command {
        com: u32,
        information: u32,
        seed: u32,
        flaws: [Flaw; 2],
        delivery: Delivery,
    },
    Data {
        choice: u32,
        seed: u32,
        flaws: [Flaw; 2],
        delivery: Delivery,
    },
    Next {
        choice: u32,
        flaws: [Flaw; 2],
        delivery: Delivery,
    },
    Noise {
        seed: u32,
        count: u32,
    },
    /// What was kept for later.
    Rest,
    Nothing,
    Reset,
    Aside(Aside),
}

/// Calls beside the history, on copies: they must not disturb it.
#[derive(Clone, Copy, Debug)]
pub enum Aside {
    /// A hand-made state.
    State {
        stage: u32,
        next: u32,
        left: u32,
        held: u32,
    },
    /// Bytes that may be no state.
    StateByte {
        place: u32,
        value: u8,
    },
    Buffers {
        receive: u32,
        reply: u32,
    },
    Lengths {
        choice: u32,
        by: u32,
    },
    Profile {
        first: Rule,
        second: Option<Rule>,
        choice: u32,
    },
}

pub fn histories() -> impl Strategy<Value = History> {
    let actions = vec(numbers().prop_map(action), 1..24);
    (profile(), image(), 0u32..8, actions).prop_map(|(profile, image, spare, actions)| History {
        profile,
        image,
        spare: match spare {
            0..=4 => (0, 0),
            5 => (1, 0),
            6 => (0, 1),
            _ => (70, 300),
        },
        actions,
    })
}

type Numbers = (u32, u32, u32, u32, u32, u32);

fn numbers() -> impl Strategy<Value = Numbers> {
    let any = any::<u32>;
    (0u32..100, any(), any(), any(), any(), any())
}

fn action((kind, a, b, c, d, e): Numbers) -> Action {
    let delivery = delivery(d);
    let flaws = [flaw(e >> 16), flaw(e & 0xFFFF)];
    match kind {
        0..=51 => Action::Suitable {
            choice: a,
            size: b,
            seed: c,
            delivery,
        },
        52..=55 => Action::WakeUp {
            choice: a,
            delivery,
        },
        56..=72 => Action::Command {
            com: a,
            information: b,
            seed: c,
            flaws,
            delivery,
        },
        73..=80 => Action::Data {
            choice: a,
            seed: b,
            flaws,
            delivery,
        },
        81..=84 => Action::Next {
            choice: a,
            flaws,
            delivery,
        },
        85..=86 => Action::Noise { seed: a, count: b },
        87..=89 => Action::Rest,
        90 => Action::Nothing,
        91..=94 => Action::Reset,
        _ => Action::Aside(aside(a, b, c, d, e)),
    }
}

/// Numbers shrink towards 0, so that the top bits choose and small ones stand for the plain case.
fn delivery(number: u32) -> Delivery {
    let at = number & 0x0FFF_FFFF;
    match number >> 28 {
        0..=8 => Delivery::Whole,
        9 => Delivery::UnreadLost,
        10 => Delivery::Bytes,
        11 => Delivery::Parts(at),
        12 => Delivery::RestLater(at),
        13 => Delivery::RestNever(at),
        14 => Delivery::BehindNoise(at),
        _ => Delivery::Twice,
    }
}

/// Of 16 bits; again the top ones choose.
fn flaw(number: u32) -> Flaw {
    let by = number as u8;
    match number >> 11 {
        22 | 23 => Flaw::Etx(by),
        24 | 25 => Flaw::Sum(by),
        26 => Flaw::Length(u16::from(by)),
        27 => Flaw::Length([0, 1, 2, 256, 257, 1025, 1026, 0xFFFF][usize::from(by) % 8]),
        28 => Flaw::Start([0x00, 0x01, 0x81, 0x55][usize::from(by) % 4]),
        29..=31 => Flaw::Content {
            place: number & 0x7FF,
            by,
        },
        _ => Flaw::None,
    }
}

fn aside(a: u32, b: u32, c: u32, d: u32, e: u32) -> Aside {
    match e % 8 {
        0..=3 => Aside::State {
            stage: a,
            next: b,
            left: c,
            held: d,
        },
        4 => Aside::StateByte {
            place: a,
            value: b as u8 >> (c % 8),
        },
        5 => Aside::Buffers {
            receive: a,
            reply: b,
        },
        6 => Aside::Lengths { choice: a, by: b },
        _ => {
            let rule = |number: u32| RULES[number as usize % RULES.len()];
            let second = if c % 2 == 0 { None } else { Some(rule(b)) };
            Aside::Profile {
                first: rule(a),
                second,
                choice: d,
            }
        }
    }
}

fn image() -> impl Strategy<Value = Image> {
    (0u32..8, any::<u32>(), 0u32..32, any::<u32>()).prop_map(|(flash, seed, id, id_seed)| Image {
        flash: match flash {
            0..=4 => Flash::Blank,
            5 | 6 => Flash::Spotted { seed },
            _ => Flash::Full { seed },
        },
        id: match id {
            0..=15 => Id::None,
            // a clear bit 127 bars the device for good, so that it comes seldom
            16..=28 => Id::Stored {
                seed: id_seed,
                bit_127: id > 16,
                bit_126: id_seed & 1 == 0,
            },
            29 => Id::TotalEraseCode,
            _ => Id::AsFlash,
        },
    })
}

impl Image {
    pub fn bytes(&self, profile: &Profile) -> Vec<u8> {
        let mut bytes = profiles::blank(profile);
        match self.flash {
            Flash::Blank => {}
            Flash::Spotted { seed } => {
                let mut noise = Noise::new(seed);
                for _ in 0..1 + noise.below(6) {
                    let place = noise.below(bytes.len());
                    bytes[place] = noise.number() as u8;
                }
            }
            Flash::Full { seed } => Noise::new(seed).fill(&mut bytes),
        }
        let place = profiles::id_place(profile);
        let id = &mut bytes[place..place + 16];
        match self.id {
            Id::None => id.fill(0xFF),
            Id::Stored {
                seed,
                bit_127,
                bit_126,
            } => {
                Noise::new(seed).fill(id);
                id[0] = id[0] & 0x3F | u8::from(bit_127) << 7 | u8::from(bit_126) << 6;
            }
            Id::TotalEraseCode => id.copy_from_slice(&packets::TOTAL_ERASE),
            Id::AsFlash => {}
        }
        bytes
    }
}

/// Mostly small: every call compares the whole image.
fn profile() -> impl Strategy<Value = Profile> {
    let any = any::<u32>;
    let areas = vec((any(), any()), 1..=8);
    let numbers = (any(), any(), any(), any(), any());
    (0u32..1024, areas, numbers).prop_map(|(rare, areas, numbers)| {
        if rare == 1023 {
            profiles::bench()
        } else {
            acceptable(&areas, numbers)
        }
    })
}

const ERASE_UNITS: [u32; 12] = [16, 32, 64, 128, 256, 512, 0, 1, 48, 24, 1024, 2048];
const WRITE_UNITS: [u32; 12] = [16, 8, 4, 1, 32, 128, 0, 2, 12, 3, 256, 1024];

/// An acceptable profile, whatever the numbers: areas are laid one behind the other, on edges of their units, and then all are
/// moved together.
fn acceptable(areas: &[(u32, u32)], numbers: (u32, u32, u32, u32, u32)) -> Profile {
    let (base, low, high, clock, rest) = numbers;
    let mut noise = Noise::new(rest);
    // few areas are more likely than many
    let count = areas.len().min(1 + noise.below(8));
    let config = noise.below(count);
    let mut table = Vec::new();
    let mut cursor = 0u32;
    let mut step = 1;
    for (number, (shape, place)) in areas[..count].iter().enumerate() {
        let mut shape = Noise::new(*shape);
        let (eau, wau) = (shape.pick(&ERASE_UNITS), shape.pick(&WRITE_UNITS));
        let both = least_common(eau.max(1), wau.max(1));
        let gap = match place % 4 {
            0 | 1 => 0,
            2 => place / 4 % 64,
            _ => place / 4 % 0x8000,
        };
        let sad = (cursor + gap + both - 1) / both * both;
        let wanted = match shape.below(7) {
            0..=3 => 1 + shape.below(64),
            4 | 5 => 1 + shape.below(400),
            _ => 1024 + shape.below(2100),
        };
        let least = if number == config { 16 } else { 1 };
        let wanted = (wanted as u32).max(least);
        let size = (wanted + both - 1) / both * both;
        let koa = if number == config {
            profiles::CONFIG
        } else {
            [profiles::USER, profiles::USER, profiles::DATA][shape.below(3)]
        };
        table.push(profiles::area(koa, sad, size, eau, wau));
        cursor = sad + size;
        step = least_common(step, both);
    }
    // cursor is the span; the last area may end at FFFFFFFEh
    let highest = (u32::MAX - cursor) / step * step;
    let base = match base % 8 {
        0..=3 => 0,
        4 => highest,
        5 => (0x0100_0000 / step * step).min(highest),
        _ => (base / step * step).min(highest),
    };
    for area in &mut table {
        area.sad += base;
        area.ead += base;
    }
    let mut profile = profiles::of_areas(&table);
    profile.typ = noise.number() as u8;
    profile.bfv = noise.number() as u16;
    profile.sci = match clock % 8 {
        0..=2 => 60_000_000,
        3 => 425_984 * (1 + clock / 8 % 100),
        4 => 384 * (1 + clock / 8 % 100_000),
        5 => 1 + clock / 8 % 100_000,
        _ => clock.max(1),
    };
    profile.rmb = match noise.below(5) {
        0 | 1 => 4_000_000,
        2 => u32::MAX,
        3 => profile.sci / 16 + 1,
        _ => 1 + noise.below(5_000_000) as u32,
    };
    let all: Vec<u32> = table
        .iter()
        .flat_map(|area| profiles::edges(&profile, area))
        .chain([0, u32::MAX])
        .collect();
    let bound = |number: u32| all[number as usize / 4 % all.len()];
    let (low, high) = match low % 4 {
        0 => (bound(high), bound(high)),
        _ => (bound(low), bound(high)),
    };
    profile.low = low.min(high);
    profile.high = low.max(high);
    profile
}

fn least_common(a: u32, b: u32) -> u32 {
    let (mut x, mut y) = (a, b);
    while y != 0 {
        let rest = x % y;
        x = y;
        y = rest;
    }
    a / x * b
}

/// Plays a history from the start to the replay of its record.
pub fn play(pair: &Pair, history: &History) -> Result<(), String> {
    let image = history.image.bytes(&history.profile);
    let mut lent = Lent::new(&history.profile, image);
    lent.receive.resize(BUFFER_BYTES + history.spare.0, 0x11);
    lent.reply.resize(BUFFER_BYTES + history.spare.1, 0x22);
    let mut line = Line::new(pair, &lent);
    line.start()?;
    let mut player = Player::new(line, &history.profile);
    for action in &history.actions {
        player.act(action)?;
    }
    player.line.finish()
}

/// Numbers at which something turns.
struct Choices {
    /// Of each area.
    edges: Vec<Vec<u32>>,
    rates: Vec<u32>,
}

struct Player<'a> {
    line: Line<'a>,
    profile: Profile,
    choices: Rc<Choices>,
    kept: Vec<u8>,
}

impl<'a> Player<'a> {
    fn new(line: Line<'a>, profile: &Profile) -> Player<'a> {
        let areas = profiles::used(profile).iter();
        let choices = Choices {
            edges: areas.map(|area| profiles::edges(profile, area)).collect(),
            rates: profiles::rates(profile.sci, profile.rmb),
        };
        Player {
            line,
            profile: profile.clone(),
            choices: Rc::new(choices),
            kept: Vec::new(),
        }
    }

    fn stage(&self) -> Stage {
        let state = self.line.state();
        state.map_or(Stage::Setting(Pulse::None), |state| state.stage)
    }

    fn areas(&self) -> &[Area] {
        profiles::used(&self.profile)
    }

    fn act(&mut self, action: &Action) -> Result<(), String> {
        match *action {
            Action::Suitable {
                choice,
                size,
                seed,
                delivery,
            } => {
                let bytes = self.suitable(choice, size, seed);
                self.deliver(bytes, delivery)
            }
            Action::WakeUp { choice, delivery } => {
                let bytes: &[u8] = match choice % 8 {
                    0 | 1 => &packets::WAKE_UP,
                    2 => &[0x00, 0x00, 0x00, 0x00, 0x55],
                    3 => &[0x00, 0x55],
                    4 => &[0x00, 0x01, 0x00, 0x55],
                    5 => &[0x00, 0x00, 0x54, 0x55],
                    6 => &[0x55, 0x00, 0x00],
                    _ => &[0x00],
                };
                self.deliver(bytes.to_vec(), delivery)
            }
            Action::Command {
                com,
                information,
                seed,
                flaws,
                delivery,
            } => {
                let mut bytes = self.command(com, information, seed);
                damage(&mut bytes, flaws);
                self.deliver(bytes, delivery)
            }
            Action::Data {
                choice,
                seed,
                flaws,
                delivery,
            } => {
                let mut bytes = self.data(choice, seed);
                damage(&mut bytes, flaws);
                self.deliver(bytes, delivery)
            }
            Action::Next {
                choice,
                flaws,
                delivery,
            } => {
                let mut bytes = match choice % 16 {
                    6..=10 => packets::data(packets::READ, &[1 << (choice / 16 % 8)]),
                    11 => packets::data(packets::READ, &[]),
                    12 => packets::data(packets::READ, &[0, 0]),
                    13 => packets::data(packets::READ | 0x80, &[0]),
                    14 => packets::data(packets::WRITE, &[0]),
                    15 => packets::data(packets::READ, &[0xFF; 1024]),
                    _ => packets::NEXT.to_vec(),
                };
                damage(&mut bytes, flaws);
                self.deliver(bytes, delivery)
            }
            Action::Noise { seed, count } => {
                let mut bytes = Noise::new(seed).bytes(1 + count as usize % 40);
                if seed % 2 == 0 {
                    // start bytes are rare among random ones
                    let starts = [0x00, 0x01, 0x03, 0x55, 0x81];
                    for byte in &mut bytes {
                        *byte = starts[usize::from(*byte) % starts.len()];
                    }
                }
                self.pour(&bytes)
            }
            Action::Rest => {
                let rest = std::mem::take(&mut self.kept);
                self.pour(&rest)
            }
            Action::Nothing => self.line.feed(&[]).map(drop),
            Action::Reset => self.line.reset().map(drop),
            Action::Aside(aside) => self.aside(aside),
        }
    }

    /// Feeds until nothing is left unread, or so many replies came that more would say nothing new: data in the command stage
    /// is answered at each start byte in it.
    fn pour(&mut self, bytes: &[u8]) -> Result<(), String> {
        const REPLIES: u32 = 14;
        let mut rest = bytes;
        for _ in 0..REPLIES {
            if rest.is_empty() {
                break;
            }
            let fed = self.line.feed(rest)?;
            rest = &rest[fed.consumed..];
        }
        Ok(())
    }

    fn deliver(&mut self, bytes: Vec<u8>, delivery: Delivery) -> Result<(), String> {
        let cut = |at: u32| at as usize % (bytes.len() + 1);
        match delivery {
            Delivery::Whole => self.pour(&bytes),
            Delivery::UnreadLost => self.line.feed(&bytes).map(drop),
            Delivery::Bytes => {
                const ENDS: usize = 4;
                let first = bytes.len().min(ENDS);
                let last = bytes.len().saturating_sub(ENDS).max(first);
                for byte in &bytes[..first] {
                    self.line.feed(&[*byte])?;
                }
                self.pour(&bytes[first..last])?;
                for byte in &bytes[last..] {
                    self.line.feed(&[*byte])?;
                }
                Ok(())
            }
            Delivery::Parts(at) => {
                self.pour(&bytes[..cut(at)])?;
                self.pour(&bytes[cut(at)..])
            }
            Delivery::RestLater(at) => {
                self.kept = bytes[cut(at)..].to_vec();
                self.pour(&bytes[..cut(at)])
            }
            Delivery::RestNever(at) => self.pour(&bytes[..cut(at)]),
            Delivery::BehindNoise(seed) => {
                let mut noise = Noise::new(seed);
                let count = 1 + noise.below(20);
                let mut noisy = noise.bytes(count);
                noisy.extend_from_slice(&bytes);
                self.pour(&noisy)
            }
            Delivery::Twice => self.pour(&[&bytes[..], &bytes[..]].concat()),
        }
    }

    fn suitable(&self, choice: u32, size: u32, seed: u32) -> Vec<u8> {
        match self.stage() {
            Stage::Setting(Pulse::Acknowledged) => vec![0x55],
            Stage::Setting(_) if choice % 8 == 7 => vec![0x00],
            Stage::Setting(_) => packets::WAKE_UP.to_vec(),
            Stage::Authentication => {
                let state = self.line.state().expect("a stage has a state");
                let code = match choice % 8 {
                    6 | 7 => packets::TOTAL_ERASE,
                    _ => state.id,
                };
                packets::command(packets::AUTHENTICATE, &code)
            }
            Stage::Command => self.suitable_command(choice, size, seed),
            Stage::Writing { next, left } => {
                let area = profiles::area_of(&self.profile, next).expect("a write is in an area");
                let data = write_data(area.wau, left, size, seed);
                packets::data(packets::WRITE, &data)
            }
            Stage::Reading { .. } => packets::NEXT.to_vec(),
        }
    }

    fn suitable_command(&self, choice: u32, size: u32, seed: u32) -> Vec<u8> {
        let mut noise = Noise::new(seed);
        let from = noise.number() as u32;
        let area = noise.pick(self.areas());
        match choice % 16 {
            0..=5 => {
                let most = noise.pick(&[64, 1024, 4096]);
                match profiles::granted(&self.profile, &area, area.wau, (from, size), most) {
                    Some(range) if self.is_blank(range) || choice % 6 == 0 => {
                        self.write(range, choice, size, seed)
                    }
                    Some(range) => self.erase_around(&area, range),
                    None => packets::command(packets::INQUIRY, &[]),
                }
            }
            6..=8 => match profiles::granted(&self.profile, &area, area.eau, (from, size), 4096) {
                Some((first, last)) => {
                    packets::command(packets::ERASE, &packets::range(first, last))
                }
                None => packets::command(packets::SIGNATURE, &[]),
            },
            9..=12 => {
                // the largest area as often as all others, since only large ones take several packets
                let largest = self.areas().iter().max_by_key(|area| profiles::size(area));
                let area = match largest {
                    Some(largest) if choice & 0x100 == 0 => *largest,
                    _ => area,
                };
                let count = profiles::size(&area);
                let first = u64::from(from) % count;
                // whole areas too, or reads of several packets would be rare
                let (first, more) = match size % 4 {
                    0 => (0, count - 1),
                    _ => (first, u64::from(size) % (count - first)),
                };
                let first = area.sad + first as u32;
                let range = packets::range(first, first + more as u32);
                packets::command(packets::READ, &range)
            }
            13 => {
                let rate = noise.pick(&[9600, 115_200, 1_000_000, self.profile.sci / 32]);
                packets::command(packets::BAUD_RATE, &rate.to_be_bytes())
            }
            14 => packets::command(packets::SIGNATURE, &[]),
            _ => {
                let number = noise.below(self.areas().len()) as u8;
                packets::command(packets::AREA, &[number])
            }
        }
    }

    fn is_blank(&self, (first, last): (u32, u32)) -> bool {
        let place = profiles::place(&self.profile, first).expect("a range is in an area");
        let target = &self.line.image()[place..place + (last - first) as usize + 1];
        target.iter().all(|byte| *byte == 0xFF)
    }

    /// A write command, alone or with all of its data in one stream.
    fn write(&self, (first, last): (u32, u32), choice: u32, size: u32, seed: u32) -> Vec<u8> {
        let mut bytes = packets::command(packets::WRITE, &packets::range(first, last));
        if choice & 0x100 == 0 {
            return bytes;
        }
        let area = profiles::area_of(&self.profile, first).expect("a range is in an area");
        let mut left = last - first + 1;
        let mut number = 0;
        // a stream of single bytes would take long and show nothing more
        while left > 0 && number < 12 {
            let data = write_data(area.wau, left, size.rotate_left(number), seed ^ left);
            left -= data.len() as u32;
            number += 1;
            bytes.extend(packets::data(packets::WRITE, &data));
        }
        bytes
    }

    fn erase_around(&self, area: &Area, (first, last): (u32, u32)) -> Vec<u8> {
        if area.eau == 0 {
            return packets::command(packets::READ, &packets::range(first, last));
        }
        let from = first / area.eau * area.eau;
        let to = last / area.eau * area.eau + (area.eau - 1);
        packets::command(packets::ERASE, &packets::range(from, to))
    }

    fn command(&self, com: u32, information: u32, seed: u32) -> Vec<u8> {
        let mut noise = Noise::new(seed);
        let com = match com % 20 {
            number @ 0..=7 => packets::COMMANDS[number as usize],
            8..=10 => packets::ERASE,
            11..=13 => packets::WRITE,
            14..=16 => packets::READ,
            17 => packets::BAUD_RATE,
            18 if self.stage() == Stage::Authentication => packets::AUTHENTICATE,
            18 => packets::BAUD_RATE,
            _ => noise.number() as u8,
        };
        let mut bytes = match com {
            packets::ERASE | packets::WRITE | packets::READ => {
                self.range(com, information, &mut noise)
            }
            packets::AUTHENTICATE => self.code(&mut noise).to_vec(),
            packets::BAUD_RATE => {
                let rate = match noise.below(8) {
                    0 => noise.number() as u32 >> noise.below(32),
                    1 => profiles::four_percent_off(self.profile.sci)[noise.below(2)],
                    _ => noise.pick(&self.choices.rates),
                };
                rate.to_be_bytes().to_vec()
            }
            packets::AREA => {
                let noa = self.profile.noa;
                vec![noise.pick(&[0, noa - 1, noa, noa + 1, 0xFF])]
            }
            packets::INQUIRY | packets::SIGNATURE => Vec::new(),
            _ => {
                let count = noise.below(20);
                noise.bytes(count)
            }
        };
        if information % 12 == 11 {
            match noise.below(6) {
                0 => drop(bytes.pop()),
                1 => bytes.push(0),
                2 => bytes.resize(255, 0x01),
                3 => bytes.resize(256, 0x01),
                4 => bytes.clear(),
                _ => bytes.extend([0xFF; 16]),
            }
        }
        packets::command(com, &bytes)
    }

    fn range(&self, com: u8, information: u32, noise: &mut Noise) -> Vec<u8> {
        let number = noise.below(self.choices.edges.len());
        let area = self.areas()[number];
        let near = &self.choices.edges[number];
        let far = &self.choices.edges[noise.below(self.choices.edges.len())];
        let (first, last) = match information % 8 {
            0 | 1 => {
                let unit = match com {
                    packets::ERASE => area.eau,
                    packets::WRITE => area.wau,
                    _ => 1,
                };
                // by the unit, but anywhere: the window decides
                let unlimited = Profile {
                    low: 0,
                    high: 0,
                    ..self.profile.clone()
                };
                let numbers = (noise.number() as u32, noise.number() as u32);
                profiles::granted(&unlimited, &area, unit.max(1), numbers, 4096)
                    .unwrap_or((area.sad, area.ead))
            }
            2 => (area.sad, area.ead),
            3..=5 => {
                let (one, other) = (noise.pick(near), noise.pick(near));
                if noise.below(8) == 0 {
                    (one.max(other), one.min(other))
                } else {
                    (one.min(other), one.max(other))
                }
            }
            6 => (noise.pick(near), noise.pick(far)),
            _ => (noise.number() as u32, noise.number() as u32),
        };
        packets::range(first, last)
    }

    fn code(&self, noise: &mut Noise) -> [u8; 16] {
        let id = self.line.state().map_or([0; 16], |state| state.id);
        let place = profiles::id_place(&self.profile);
        let mut stored = [0; 16];
        stored.copy_from_slice(&self.line.image()[place..place + 16]);
        let mut code = [id, id, stored, packets::TOTAL_ERASE, packets::TOTAL_ERASE][noise.below(5)];
        if noise.below(3) == 0 {
            code[noise.below(16)] ^= 1 << noise.below(8);
        }
        code
    }

    fn data(&self, choice: u32, seed: u32) -> Vec<u8> {
        let (next, left) = match self.stage() {
            Stage::Writing { next, left } => (next, left),
            // nobody asked for it: short, but for one in eight
            _ if choice / 16 % 8 != 0 => return packets::data(packets::WRITE, &seed.to_be_bytes()),
            _ => (self.areas()[0].sad, 64),
        };
        let wau = profiles::area_of(&self.profile, next).map_or(16, |area| area.wau.max(1));
        let (wau, left) = (wau as usize, left as usize);
        let mut res = packets::WRITE;
        let count = match choice % 12 {
            0 => left,
            1 => wau + 1,
            2 => wau - 1,
            3 => left + wau,
            4 => left + 1,
            5 => 0,
            6 => {
                let others = [0x00, 0x12, 0x15, 0x93, 0x01, 0x53, 0x33, 0x17];
                res = others[choice as usize / 16 % others.len()];
                wau
            }
            7 => packets::MOST_DATA,
            8 => packets::MOST_DATA + 1,
            9 => packets::MOST_DATA / wau * wau,
            _ => wau,
        };
        let count = count.min(packets::MOST_DATA + 1);
        packets::data(res, &Noise::new(seed).bytes(count))
    }

    fn aside(&mut self, aside: Aside) -> Result<(), String> {
        let mut lent = self.line.lent();
        let mut input = self.suitable(0, 0, 0);
        let mut known = self.profile.clone();
        match aside {
            Aside::State {
                stage,
                next,
                left,
                held,
            } => {
                let (state, front, rest) = self.hand_made(stage, next, left, held);
                lent.state = model::state_bytes(&state).to_vec();
                lent.receive[..front.len()].copy_from_slice(&front);
                input = rest;
            }
            Aside::StateByte { place, value } => {
                // the bytes of stage, pulses, range and held count; any ID and line setting will do
                let places = [0, 0, 0, 1, 1, 2, 3, 4, 5, 6, 7, 8, 9, 29, 30, 31, 32];
                lent.state[places[place as usize % places.len()]] = value;
            }
            Aside::Buffers { receive, reply } => {
                let short = |number: u32| match number % 8 {
                    0..=2 => BUFFER_BYTES,
                    3 => BUFFER_BYTES - 1,
                    4 => BUFFER_BYTES + 1,
                    5 => 0,
                    _ => number as usize / 8 % (BUFFER_BYTES + 8),
                };
                lent.receive.resize(short(receive), 0x33);
                lent.reply.resize(short(reply), 0x44);
            }
            Aside::Lengths { choice, by } => {
                let by = 1 + by as usize % 20;
                let longer = choice & 0x100 == 0;
                for (number, bytes) in [&mut lent.profile, &mut lent.image, &mut lent.state]
                    .into_iter()
                    .enumerate()
                {
                    if (1 + choice % 7) & 1 << number != 0 {
                        let count = bytes.len();
                        let changed = if longer {
                            count + by
                        } else {
                            count.saturating_sub(by)
                        };
                        bytes.resize(changed, 0xFF);
                    }
                }
            }
            Aside::Profile {
                first,
                second,
                choice,
            } => {
                profiles::break_rule(&mut known, first, choice);
                if let Some(second) = second {
                    profiles::break_rule(&mut known, second, choice >> 16);
                }
                lent.profile = model::profile_bytes(&known).to_vec();
                // a right image where it isn't large, so that the profile alone is refused
                let total = profiles::total(&known);
                if choice & 1 == 0 && total < 0x8000 {
                    lent.image.resize(total, 0xFF);
                }
            }
        }
        let sound = lent.profile.len() == PROFILE_BYTES && lent.state.len() == STATE_BYTES;
        let mut beside = Player {
            line: Line::new(self.line.pair(), &lent),
            profile: known,
            choices: Rc::clone(&self.choices),
            kept: Vec::new(),
        };
        let fed = beside.line.feed(&input)?;
        if fed.refusal == 0 && sound {
            self.line.pair().happened(match beside.stage() {
                Stage::Setting(_) => "fed beside, then in setting",
                Stage::Authentication => "fed beside, then in authentication",
                Stage::Command => "fed beside, then in command stage",
                Stage::Writing { .. } => "fed beside, then writing",
                Stage::Reading { .. } => "fed beside, then reading",
            });
            for number in 0..2 {
                let bytes = beside.suitable(number, number, number);
                beside.pour(&bytes)?;
            }
        }
        beside.line.reset()?;
        beside.line.start()?;
        beside.line.feed(&packets::WAKE_UP)?;
        beside.line.finish()
    }

    /// A state that may fit or not, what stands at the front of the receive buffer, and what comes next.
    fn hand_made(&self, stage: u32, next: u32, left: u32, held: u32) -> (State, Vec<u8>, Vec<u8>) {
        let mut noise = Noise::new(next);
        let number = noise.below(self.choices.edges.len());
        let area = self.areas()[number];
        let edges = &self.choices.edges[number];
        let unit = if stage % 8 < 6 { area.wau.max(1) } else { 1 };
        let numbers = (noise.number() as u32, noise.number() as u32);
        let fitting = profiles::granted(&self.profile, &area, unit, numbers, 4096);
        let (next, left) = match (left % 8, fitting) {
            (0..=3, Some((first, last))) => (first, last - first + 1),
            (4, _) => (noise.pick(edges), 0),
            (5, _) => (
                noise.pick(edges),
                noise.pick(&[1, unit, u32::MAX, u32::MAX - 1]),
            ),
            _ => {
                let first = noise.pick(edges);
                (first, noise.pick(edges).wrapping_sub(first))
            }
        };
        let (stage, packet) = match stage % 8 {
            0 => (Stage::Setting(Pulse::One), packets::WAKE_UP.to_vec()),
            1 => {
                let code = packets::command(packets::AUTHENTICATE, &packets::TOTAL_ERASE);
                (Stage::Authentication, code)
            }
            2 | 3 => {
                let com = packets::READ;
                let range = packets::range(area.sad, area.ead);
                (Stage::Command, packets::command(com, &range))
            }
            4 | 5 => {
                let data = write_data(unit, left.max(unit), numbers.0, numbers.1);
                (
                    Stage::Writing { next, left },
                    packets::data(packets::WRITE, &data),
                )
            }
            _ => (Stage::Reading { next, left }, packets::NEXT.to_vec()),
        };
        let mut front = packet.clone();
        match held / 16 % 8 {
            6 => front[0] = noise.pick(&[0x00, 0x01, 0x81]),
            7 if front.len() > 3 => {
                let length: u16 = noise.pick(&[0, 1, 256, 257, 1025, 1026]);
                front[1..3].copy_from_slice(&length.to_be_bytes());
            }
            _ => {}
        }
        let whole = packet.len() as u32;
        let held = match held % 16 {
            0..=5 => 0,
            6 => 1,
            7 => 3,
            8 => whole - 1,
            9 => whole,
            10 => BUFFER_BYTES as u32,
            11 => BUFFER_BYTES as u32 + 1,
            12 => u32::MAX,
            _ => noise.below(packet.len()) as u32,
        };
        let rest = match packet.get(held as usize..) {
            Some(rest) if !rest.is_empty() => rest.to_vec(),
            _ => packet,
        };
        let id = if noise.below(2) == 0 {
            [0xC5; 16]
        } else {
            [0xFF; 16]
        };
        let line = model::Line {
            abcs: noise.number() as u8,
            brr: noise.number() as u8,
            mddr: noise.number() as u8,
        };
        let state = State {
            stage,
            id,
            line,
            held,
        };
        (state, front, rest)
    }
}

fn damage(packet: &mut [u8], flaws: [Flaw; 2]) {
    for flaw in flaws {
        flaw.apply(packet);
    }
}

/// Whole units that fit a write that is under way.
fn write_data(wau: u32, left: u32, size: u32, seed: u32) -> Vec<u8> {
    let wau = wau.max(1) as usize;
    let most = (left as usize).min(packets::MOST_DATA) / wau;
    let units = match size % 4 {
        0 | 1 => most,
        2 => 1 + size as usize / 4 % most.max(1),
        _ => 1,
    };
    let mut noise = Noise::new(seed);
    let mut bytes = vec![0xFF; units.max(1) * wau];
    // data of FFh alone is stored and leaves its target blank
    if noise.below(8) != 0 {
        noise.fill(&mut bytes);
    }
    bytes
}
