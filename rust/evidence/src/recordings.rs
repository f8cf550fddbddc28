//! Recorded lines: records read, written and replayed. The boundaries one by one, as in [`crate::systematic`], and random recordings, as in
//! [`crate::histories`].

use crate::damage::{self, Damage};
use crate::effects;
use crate::guarded::Guarded;
use crate::line::{hex, Pair};
use crate::noise::Noise;
use crate::packets::{self, command, data, range};
use crate::profiles as made;
use crate::subject::Subject;
use crate::systematic::{Case, Outcome};
use indraveck_model::{self as model, Entry, Found, Profile, Replayed};
use proptest::collection::vec;
use proptest::prelude::*;

const MARK: [u8; 2] = [0x52, 0x4C];
pub const HOST: u8 = 0x48;
pub const DEVICE: u8 = 0x44;
pub const RESET: u8 = 0x52;
const DIRECTIONS: [u8; 3] = [HOST, DEVICE, RESET];
/// Mark, direction and length.
pub(crate) const HEAD: usize = 5;
const LONGEST: usize = 1030;
/// What reading answers at a recording's end.
pub(crate) const END: u32 = 6;
pub(crate) const WRITTEN: u32 = 7;

/// On both sides of every length that matters, and the largest that can be said.
const LENGTHS: [usize; 8] = [0, 1, 2, 1029, 1030, 1031, 1032, 0xFFFF];

/// Those that take least come first.
pub const CASES: &[Case] = &[
    Case {
        name: "record_examples",
        run: record_examples,
        shows: &[
            "host record read",
            "device record read",
            "reset read",
            "recording's end read",
            "record unreadable with 1",
            "record unreadable with 2",
            "record unreadable with 3",
            "record unreadable with 4",
            "host record written",
            "device record written",
            "reset written",
            "record refused with 2",
            "record refused with 3",
            "record refused with 5",
        ],
    },
    Case {
        name: "replays",
        run: replays,
        shows: &[
            "replay refused",
            "replay ended with 1",
            "replay ended with 2",
            "replay ended with 3",
            "replay ended with 4",
            "replay ended at the end",
            "replay changed flash",
        ],
    },
    Case {
        name: "places_of_records",
        run: places_of_records,
        shows: &[
            "host record read",
            "recording's end read",
            "record unreadable with 4",
            "host record written",
            "reset written",
            "record refused with 5",
        ],
    },
    Case {
        name: "records_written",
        run: records_written,
        shows: &[
            "host record written",
            "device record written",
            "reset written",
            "record refused with 2",
            "record refused with 3",
            "record refused with 5",
            "written record read back",
        ],
    },
    Case {
        name: "records_read",
        run: records_read,
        shows: &[
            "host record read",
            "device record read",
            "reset read",
            "recording's end read",
            "record unreadable with 2",
            "record unreadable with 3",
            "record unreadable with 4",
        ],
    },
];

/// A record of any direction that states the length of its bytes, modulo 65,536.
pub fn record(direction: u8, bytes: &[u8]) -> Vec<u8> {
    let length = (bytes.len() as u16).to_be_bytes();
    [&MARK[..], &[direction], &length, bytes].concat()
}

fn is_direction(answer: u32) -> bool {
    DIRECTIONS.iter().any(|known| u32::from(*known) == answer)
}

impl Pair<'_> {
    /// Both read the record at a place. Nobody may look behind the recording, so that it may well be cut out of a longer one.
    pub fn read_record(&self, recording: &[u8], at: usize) -> Result<Found, String> {
        let tested = self.tested.read_record(recording, at);
        let right = self.model.read_record(recording, at);
        self.happened(effects::record_read(right.answer));
        self.same("the record", tested, right)
            .and_then(|()| lawful(recording, at, right))
            .map_err(|difference| {
                let from = at.min(recording.len());
                let shown = hex(&recording[from..]);
                format!(
                    "record at {} of {}, {}: {}",
                    at,
                    recording.len(),
                    shown,
                    difference
                )
            })?;
        Ok(right)
    }

    /// Both replay a recording, each on an image of its own, of any length. The answer, and the image then.
    pub(crate) fn replay(
        &self,
        profile: &[u8],
        image: &[u8],
        recording: &[u8],
    ) -> Result<(Replayed, Guarded), String> {
        let read_only = [Guarded::new(profile), Guarded::new(recording)];
        let (mut one, mut other) = (Guarded::new(image), Guarded::new(image));
        let run = |subject: &dyn Subject, image: &mut Guarded| {
            subject.replay(read_only[0].lent(), image.lent_mut(), read_only[1].lent())
        };
        let tested = run(self.tested, &mut one);
        let right = run(self.model, &mut other);
        self.happened(effects::replay_ended(right.ended));
        if other.lent() != image {
            self.happened("replay changed flash");
        }
        let left = read_only[0].lent() == profile && read_only[1].lent() == recording;
        let guarded = [&read_only[0], &read_only[1], &one, &other];
        let compared = if !left || guarded.iter().any(|slice| !slice.is_guarded()) {
            Err("what is only read changed, or what is around it or the image".to_string())
        } else {
            self.same("the replay", tested, right)
                .and_then(|()| self.same_bytes("the image", one.lent(), other.lent()))
        };
        compared.map_err(|difference| format!("replay of {}: {}", hex(recording), difference))?;
        Ok((right, one))
    }

    /// A line's record as a recording: a request and its reply right behind each other, and the resets. Both write it, record by record.
    pub(crate) fn tape(&self, entries: &[Entry]) -> Result<Vec<u8>, String> {
        let mut recording = Vec::new();
        let mut put = |direction: u8, bytes: &[u8]| -> Outcome {
            let length = HEAD + bytes.len();
            let (mut one, mut other) = (vec![0x77; length], vec![0x77; length]);
            let direction = u32::from(direction);
            let tested = self.tested.write_record(&mut one, 0, direction, bytes);
            let right = self.model.write_record(&mut other, 0, direction, bytes);
            self.same("the answer to a record", tested, right)?;
            self.same_bytes("a record", &one, &other)?;
            recording.extend(one);
            Ok(())
        };
        for entry in entries {
            match entry {
                Entry::Exchange { request, reply } => {
                    put(HOST, request)?;
                    put(DEVICE, reply)?;
                }
                Entry::Reset => put(RESET, &[])?,
            }
        }
        Ok(recording)
    }
}

/// What holds of every answer of a reader, whoever gives it.
fn lawful(recording: &[u8], at: usize, found: Found) -> Result<(), String> {
    let holds = if is_direction(found.answer) {
        let length = found.to.wrapping_sub(found.from);
        found.from == at + HEAD
            && found.to <= recording.len()
            && record(found.answer as u8, &recording[found.from..found.to])
                == recording[at..found.to]
            && (length == 0) == (found.answer == u32::from(RESET))
            && length <= LONGEST
    } else {
        matches!(found.answer, 1..=4 | END)
            && (found.answer == END) == (at == recording.len())
            && (found.from, found.to) == (at, at)
    };
    if holds {
        Ok(())
    } else {
        Err(format!("{:?} is no answer", found))
    }
}

/// A buffer of each side, with the same bytes in it. What is lent is the front of it, so that all that is behind is a guard.
struct Buffers<'a> {
    pair: &'a Pair<'a>,
    noise: Vec<u8>,
    /// What both have to be now.
    before: Vec<u8>,
    tested: Guarded,
    model: Guarded,
}

impl<'a> Buffers<'a> {
    fn new(pair: &'a Pair<'a>, most: usize, seed: u32) -> Buffers<'a> {
        let noise = Noise::new(seed).bytes(most);
        Buffers {
            pair,
            tested: Guarded::new(&noise),
            model: Guarded::new(&noise),
            before: noise.clone(),
            noise,
        }
    }

    /// As [`write`](Buffers::write), and then all is as it was at first, so that the next record does not find itself there.
    fn try_to_write(&mut self, room: usize, at: usize, direction: u32, bytes: &[u8]) -> Outcome {
        let (answer, to) = self.write(room, at, direction, bytes)?;
        if answer == WRITTEN {
            let noise = &self.noise[at..to];
            self.before[at..to].copy_from_slice(noise);
            self.tested.lent_mut()[at..to].copy_from_slice(noise);
            self.model.lent_mut()[at..to].copy_from_slice(noise);
        }
        Ok(())
    }

    /// Both write one record into the first `room` bytes. All bytes are compared, with each other and with what they have to be.
    fn write(
        &mut self,
        room: usize,
        at: usize,
        direction: u32,
        bytes: &[u8],
    ) -> Result<(u32, usize), String> {
        let pair = self.pair;
        let buffer = &mut self.tested.lent_mut()[..room];
        let tested = pair.tested.write_record(buffer, at, direction, bytes);
        let buffer = &mut self.model.lent_mut()[..room];
        let right = pair.model.write_record(buffer, at, direction, bytes);
        pair.happened(effects::record_written(direction, right.0));
        pair.same("the answer", tested, right)
            .and_then(|()| pair.same_bytes("the buffer", self.tested.lent(), self.model.lent()))
            .and_then(|()| self.follow(room, at, direction, bytes, right))
            .map_err(|difference| {
                format!(
                    "record {:X}h of {} at {} of {}: {}",
                    direction,
                    hex(bytes),
                    at,
                    room,
                    difference
                )
            })?;
        Ok(right)
    }

    /// The buffer is as it was but for a record that was written, and that one can be read.
    fn follow(
        &mut self,
        room: usize,
        at: usize,
        direction: u32,
        bytes: &[u8],
        (answer, to): (u32, usize),
    ) -> Result<(), String> {
        if answer != WRITTEN {
            if !matches!(answer, 2 | 3 | 5) || to != at {
                return Err(format!("{} with the place {} is no answer", answer, to));
            }
        } else {
            if !is_direction(direction) || to != at + HEAD + bytes.len() || to > room {
                return Err(format!("{} with the place {} is no answer", answer, to));
            }
            self.before[at..to].copy_from_slice(&record(direction as u8, bytes));
        }
        if self.model.lent() != &self.before[..] {
            return Err("the buffer is not as it was, with the record in it".to_string());
        }
        if !self.tested.is_guarded() || !self.model.is_guarded() {
            return Err("what is around the buffer changed".to_string());
        }
        if answer == WRITTEN {
            let found = self.pair.read_record(&self.tested.lent()[..room], at)?;
            if (found.answer, found.from, found.to) != (direction, at + HEAD, to) {
                return Err(format!("it is read back as {:?}", found));
            }
            self.pair.happened("written record read back");
        }
        Ok(())
    }
}

/// Fails if a case made fewer calls than it should: agreement says nothing where nobody was asked.
fn called(count: usize, least: usize) -> Outcome {
    if count >= least {
        return Ok(());
    }
    Err(format!("{} calls were made, expected {}", count, least))
}

/// Answers that are known beforehand.
fn record_examples(pair: &Pair) -> Outcome {
    let to_read: [(&[u8], usize, (u32, usize, usize)); 34] = [
        (&[], 0, (6, 0, 0)),
        (&[], 1, (4, 1, 1)),
        (&[0x52], 0, (4, 0, 0)),
        (&[0x4C], 0, (4, 0, 0)),
        (&[0x00], 0, (4, 0, 0)),
        (&[0x00], 1, (6, 1, 1)),
        (&[0x00], 2, (4, 2, 2)),
        (&[0x52, 0x00], 0, (1, 0, 0)),
        (&[0x00, 0x4C], 0, (1, 0, 0)),
        (&[0x4C, 0x52, 0x48, 0x00, 0x01, 0x00], 0, (1, 0, 0)),
        (&[0x52, 0x4D, 0x49, 0xFF, 0xFF], 0, (1, 0, 0)),
        (&[0x52, 0x4C], 0, (4, 0, 0)),
        (&[0x52, 0x4C, 0x49], 0, (2, 0, 0)),
        (&[0x52, 0x4C, 0x49, 0x00], 0, (2, 0, 0)),
        (&[0x52, 0x4C, 0x49, 0xFF, 0xFF], 0, (2, 0, 0)),
        (&[0x52, 0x4C, 0x00, 0x00, 0x01, 0x00], 0, (2, 0, 0)),
        (&[0x52, 0x4C, 0x48], 0, (4, 0, 0)),
        (&[0x52, 0x4C, 0x48, 0xFF], 0, (4, 0, 0)),
        (&[0x52, 0x4C, 0x52, 0xFF], 0, (4, 0, 0)),
        (&[0x52, 0x4C, 0x48, 0xFF, 0xFF], 0, (3, 0, 0)),
        (&[0x52, 0x4C, 0x48, 0x04, 0x07], 0, (3, 0, 0)),
        (&[0x52, 0x4C, 0x48, 0x04, 0x06], 0, (4, 0, 0)),
        (&[0x52, 0x4C, 0x48, 0x00, 0x00], 0, (3, 0, 0)),
        (&[0x52, 0x4C, 0x44, 0x00, 0x00], 0, (3, 0, 0)),
        (&[0x52, 0x4C, 0x52, 0x00, 0x01], 0, (3, 0, 0)),
        (&[0x52, 0x4C, 0x52, 0x00, 0x01, 0x00], 0, (3, 0, 0)),
        (&[0x52, 0x4C, 0x52, 0x00, 0x00], 0, (0x52, 5, 5)),
        (&[0x52, 0x4C, 0x52, 0x00, 0x00], 5, (6, 5, 5)),
        (&[0x52, 0x4C, 0x52, 0x00, 0x00], 6, (4, 6, 6)),
        (&[0x52, 0x4C, 0x48, 0x00, 0x01], 0, (4, 0, 0)),
        (&[0x52, 0x4C, 0x48, 0x00, 0x01, 0x00], 0, (0x48, 5, 6)),
        (&[0x52, 0x4C, 0x44, 0x00, 0x02, 0x00], 0, (4, 0, 0)),
        (
            &[0x00, 0x52, 0x4C, 0x44, 0x00, 0x01, 0x52, 0x4C],
            1,
            (0x44, 6, 7),
        ),
        (
            &[0x00, 0x52, 0x4C, 0x44, 0x00, 0x01, 0x52, 0x4C],
            6,
            (4, 6, 6),
        ),
    ];
    for (recording, at, (answer, from, to)) in to_read {
        let found = pair.read_record(recording, at)?;
        if found != (Found { answer, from, to }) {
            return Err(format!(
                "{} at {} is read as {:?}",
                hex(recording),
                at,
                found
            ));
        }
    }
    // room, place, direction, how many bytes; the answer and the place behind
    let to_write: [(usize, usize, u32, usize, (u32, usize)); 20] = [
        (0, 0, 0x49, 0, (2, 0)),
        (0, 0, 0, 1, (2, 0)),
        (9, 0, 2, 1, (2, 0)),
        (9, 0, 3, 1, (2, 0)),
        (9, 0, 5, 1, (2, 0)),
        (9, 1, 0x148, 1, (2, 1)),
        (9, 1, 0x4800_0048, 1, (2, 1)),
        (9, usize::MAX, u32::MAX, 2000, (2, usize::MAX)),
        (0, 0, 0x48, 0, (3, 0)),
        (0, 7, 0x44, 0, (3, 7)),
        (0, 0, 0x44, 1031, (3, 0)),
        (9, 0, 0x52, 1, (3, 0)),
        (0, 0, 0x52, 0, (5, 0)),
        (5, 0, 0x52, 0, (WRITTEN, 5)),
        (5, 1, 0x52, 0, (5, 1)),
        (9, 4, 0x48, 1, (5, 4)),
        (9, 3, 0x48, 1, (WRITTEN, 9)),
        (1040, 5, 0x44, 1030, (WRITTEN, 1040)),
        (1039, 5, 0x44, 1030, (5, 5)),
        (9, usize::MAX - 5, 0x48, 1, (5, usize::MAX - 5)),
    ];
    for (room, at, direction, count, expected) in to_write {
        let bytes = Noise::new(1).bytes(count);
        let written = Buffers::new(pair, 1100, 2).write(room, at, direction, &bytes)?;
        if written != expected {
            return Err(format!(
                "{:X}h with {} bytes at {} of {} is written as {:?}",
                direction, count, at, room, written
            ));
        }
    }
    Ok(())
}

/// A record of every direction and of lengths on both sides of every boundary, cut behind every byte, and read at its place, at the end
/// and behind it. What was cut off still stands behind the end, where a reader that looks there would find it.
fn records_read(pair: &Pair) -> Outcome {
    const BEFORE: usize = 3;
    let mut calls = 0;
    for direction in 0..=0xFF {
        for length in LENGTHS {
            // so many cuts are made for the three directions and one other: 65,535 is bad with any
            let known = DIRECTIONS.contains(&direction);
            if length == 0xFFFF && !known && direction != 0x49 {
                continue;
            }
            let noise = Noise::new(u32::from(direction)).bytes(length);
            let whole = [&[0x52, 0x4C, 0x48], &record(direction, &noise)[..]].concat();
            let lent = Guarded::new(&whole);
            for cut in 0..=whole.len() {
                let recording = &lent.lent()[..cut];
                for at in [
                    0,
                    BEFORE,
                    cut,
                    cut + 1,
                    usize::MAX - HEAD - length,
                    usize::MAX - HEAD,
                    usize::MAX,
                ] {
                    pair.read_record(recording, at)?;
                    calls += 1;
                }
            }
            if !lent.is_guarded() || lent.lent() != &whole[..] {
                return Err("the recording or what is around it changed".to_string());
            }
        }
    }
    called(calls, 9_000_000)
}

/// A record of every direction and of lengths on both sides of every boundary, into buffers from none to two bytes more than it takes.
fn records_written(pair: &Pair) -> Outcome {
    let mut calls = 0;
    let above = [0x100, 0x148, 0x152, 0x4400, 0x4800_0000, u32::MAX];
    for direction in (0..=0xFF).chain(above) {
        for length in LENGTHS {
            let bytes = Noise::new(direction).bytes(length);
            let known = is_direction(direction);
            // where the direction or the length is bad, no buffer makes a difference
            let step = match (known, length) {
                (true, 0..=2000) => 1,
                (false, 0..=2000) => 37,
                _ => 0x3FF,
            };
            for at in [0, 7] {
                let fit = at + HEAD + length;
                let mut buffers = Buffers::new(pair, fit + 40, direction);
                let last = fit - 2..=fit + 2;
                for room in (0..fit - 2).step_by(step).chain(last) {
                    buffers.try_to_write(room, at, direction, &bytes)?;
                    calls += 1;
                }
            }
        }
    }
    called(calls, 140_000)
}

/// Places before, at and behind the end, and near the top of all places, where a sum would overflow.
fn places_of_records(pair: &Pair) -> Outcome {
    let mut calls = 0;
    let mut places: Vec<usize> = (0..=1100).collect();
    places.extend((0..=1100).map(|below| usize::MAX - below));
    // around the tops of smaller numbers too, in case one is kept in too few bits
    for bits in [16, 31, 32, 33, 63] {
        places.extend((0..20).map(|by| (1 << bits) - 10 + by));
    }
    for (direction, length) in [(HOST, 1), (DEVICE, LONGEST), (RESET, 0)] {
        let bytes = Noise::new(5).bytes(length);
        let one = record(direction, &bytes);
        let several = one.repeat(1 + 60 / one.len());
        for recording in [&one[..], &several] {
            let lent = Guarded::new(recording);
            for at in &places {
                pair.read_record(lent.lent(), *at)?;
                calls += 1;
            }
            if !lent.is_guarded() || lent.lent() != recording {
                return Err("the recording or what is around it changed".to_string());
            }
        }
        let fit = HEAD + length;
        let mut buffers = Buffers::new(pair, 1100, 6);
        for room in [0, 1, fit - 1, fit, fit + 1, 1060] {
            for at in &places {
                buffers.try_to_write(room, *at, direction.into(), &bytes)?;
                calls += 1;
            }
        }
    }
    called(calls, 50_000)
}

fn ok(com: u8) -> Vec<u8> {
    data(com, &[0x00])
}

/// A recorded session that changes much of the small profile's flash, with what a replay has to pass over in it.
fn session() -> Vec<u8> {
    let noise = Noise::new(9).bytes(1024);
    let write = command(packets::WRITE, &range(0x0F00, 0x12FF));
    let erase = command(packets::ERASE, &range(0x0200, 0x11FF));
    let total = command(packets::AUTHENTICATE, &packets::TOTAL_ERASE);
    [
        record(HOST, &erase),
        record(DEVICE, &ok(packets::ERASE)),
        record(HOST, &packets::WAKE_UP),
        record(HOST, &write),
        record(DEVICE, &ok(packets::WRITE)),
        record(DEVICE, &ok(packets::WRITE)),
        record(RESET, &[]),
        record(HOST, &data(packets::WRITE, &noise[..100])),
        record(DEVICE, &ok(packets::WRITE)),
        record(HOST, &data(packets::WRITE, &noise)),
        record(DEVICE, &ok(packets::WRITE)),
        record(HOST, &total),
        record(RESET, &[]),
        record(DEVICE, &ok(packets::AUTHENTICATE)),
        record(HOST, &total),
        record(DEVICE, &ok(packets::AUTHENTICATE)),
    ]
    .concat()
}

/// A session that is cut behind every byte; one with a byte changed in every head; profiles and images that are refused.
fn replays(pair: &Pair) -> Outcome {
    let profile = made::small();
    let bytes = model::profile_bytes(&profile);
    let image = Noise::new(13).bytes(made::total(&profile));
    let session = session();
    let mut calls = 0;
    for cut in 0..=session.len() {
        pair.replay(&bytes, &image, &session[..cut])?;
        calls += 1;
    }
    let mut at = 0;
    while at < session.len() {
        for place in 0..HEAD {
            for value in [0x00, 0x04, 0x07, 0x48, 0x4C, 0x52, 0xFF] {
                let mut changed = session.clone();
                changed[at + place] = value;
                pair.replay(&bytes, &image, &changed)?;
                calls += 1;
            }
        }
        at = pair.read_record(&session, at)?.to;
    }
    let longer = [&bytes[..], &[0x00]].concat();
    let unacceptable = model::profile_bytes(&Profile { sci: 0, ..profile });
    for profile in [&bytes[..], &bytes[..155], &longer, &[], &unacceptable] {
        for length in [0, 1, image.len() - 1, image.len()] {
            for recording in [&session[..], &session[1..], &[]] {
                pair.replay(profile, &image[..length], recording)?;
                calls += 1;
            }
        }
    }
    called(calls, 1_900)
}

/// A recording, and what was done to it before it is read. What is generated are plain numbers, so that a failure shrinks.
#[derive(Clone, Debug)]
pub struct Recording {
    pub pieces: Vec<Piece>,
    pub changes: Vec<Change>,
    /// Records to be written anywhere.
    pub attempts: Vec<Attempt>,
    pub seed: u32,
}

#[derive(Clone, Copy, Debug)]
pub enum Piece {
    /// A request that changes flash if it is answered OK, and its answer; now and then with something between them.
    Exchange {
        request: u32,
        first: u32,
        last: u32,
        count: u32,
        reply: u32,
    },
    /// A good record with anything in it.
    Good { direction: u32, length: u32 },
    /// Most likely a bad one.
    Any { direction: u8, length: u32 },
}

#[derive(Clone, Copy, Debug)]
pub enum Change {
    /// As bytes of any kind are damaged.
    Bytes(Damage),
    /// A byte of a head is another, one that may well be good there.
    Head { record: u32, place: u32, value: u32 },
    /// The same once more, right behind it.
    Twice,
}

#[derive(Clone, Copy, Debug)]
pub struct Attempt {
    pub direction: u32,
    pub length: u32,
    pub room: u32,
    pub place: u32,
}

pub fn recordings() -> impl Strategy<Value = Recording> {
    let piece = prop_oneof![
        8 => any::<(u32, u32, u32, u32, u32)>().prop_map(|(request, first, last, count, reply)| {
            Piece::Exchange { request, first, last, count, reply }
        }),
        6 => any::<(u32, u32)>().prop_map(|(direction, length)| Piece::Good { direction, length }),
        1 => any::<(u8, u32)>().prop_map(|(direction, length)| Piece::Any { direction, length }),
    ];
    let change = prop_oneof![
        damage::cut().prop_map(Change::Bytes),
        damage::another_byte().prop_map(Change::Bytes),
        any::<(u32, u32, u32)>().prop_map(|(record, place, value)| {
            Change::Head {
                record,
                place,
                value,
            }
        }),
        damage::lost().prop_map(Change::Bytes),
        damage::added().prop_map(Change::Bytes),
        Just(Change::Twice),
    ];
    let changes = prop_oneof![
        2 => Just(Vec::new()),
        3 => vec(change, 1..4),
    ];
    let attempt =
        any::<(u32, u32, u32, u32)>().prop_map(|(direction, length, room, place)| Attempt {
            direction,
            length,
            room,
            place,
        });
    (vec(piece, 0..9), changes, vec(attempt, 0..4), any::<u32>()).prop_map(
        |(pieces, changes, attempts, seed)| Recording {
            pieces,
            changes,
            attempts,
            seed,
        },
    )
}

/// Mostly short, often on a boundary.
fn good_length(number: u32) -> usize {
    let number = number as usize;
    match number % 8 {
        0..=4 => 1 + number / 8 % 12,
        5 => 1 + number / 8 % LONGEST,
        6 => LONGEST - number / 8 % 3,
        _ => 1,
    }
}

fn any_length(number: u32) -> usize {
    match number % 4 {
        0 => 0,
        1 => LONGEST + 1 + number as usize / 4 % 3,
        _ => good_length(number / 4),
    }
}

/// One of the three, and now and then another one.
fn any_direction(number: u32) -> u32 {
    match number % 8 {
        0 => number / 8,
        1 => number / 8 % 0x100,
        choice => DIRECTIONS[choice as usize % 3].into(),
    }
}

impl Piece {
    fn bytes(self, profile: &Profile, noise: &mut Noise) -> Vec<u8> {
        match self {
            Piece::Good { direction, length } => {
                let direction = DIRECTIONS[direction as usize % 3];
                let length = match direction {
                    RESET => 0,
                    _ => good_length(length),
                };
                record(direction, &noise.bytes(length))
            }
            Piece::Any { direction, length } => {
                // half of them have a good direction, and so a bad length more often
                let direction = match direction % 2 {
                    0 => DIRECTIONS[usize::from(direction) % 3],
                    _ => direction,
                };
                record(direction, &noise.bytes(any_length(length)))
            }
            Piece::Exchange {
                request,
                first,
                last,
                count,
                reply,
            } => {
                let address = |number: u32| {
                    let areas = made::used(profile);
                    let area = &areas[number as usize % areas.len()];
                    let edges = made::edges(profile, area);
                    edges[number as usize / 8 % edges.len()]
                };
                let (com, request) = match request % 8 {
                    0..=2 => {
                        let (first, last) = (address(first), address(last));
                        let ordered = range(first.min(last), first.max(last));
                        (packets::ERASE, command(packets::ERASE, &ordered))
                    }
                    3 | 4 => {
                        let target = range(address(first), address(last));
                        (packets::WRITE, command(packets::WRITE, &target))
                    }
                    5 | 6 => {
                        let bytes = noise.bytes(count as usize % (packets::MOST_DATA + 1));
                        (packets::WRITE, data(packets::WRITE, &bytes))
                    }
                    _ => {
                        let com = packets::AUTHENTICATE;
                        (com, command(com, &packets::TOTAL_ERASE))
                    }
                };
                let between = match reply / 8 % 8 {
                    0 => record(RESET, &[]),
                    1 => record(HOST, &packets::WAKE_UP),
                    _ => Vec::new(),
                };
                let reply = match reply % 8 {
                    0 => data(com | 0x80, &[0xD0]),
                    1 => ok(packets::INQUIRY),
                    _ => ok(com),
                };
                [record(HOST, &request), between, record(DEVICE, &reply)].concat()
            }
        }
    }
}

impl Change {
    fn apply(self, bytes: &mut Vec<u8>, starts: &[usize]) {
        match self {
            Change::Bytes(damage) => damage.apply(bytes),
            Change::Twice => bytes.extend_from_within(..),
            Change::Head {
                record,
                place,
                value,
            } => {
                let start = starts[record as usize % starts.len()];
                let values = [0x52, 0x4C, HOST, DEVICE, 0x00, 0x01, 0x04, 0x06, 0x07, 0xFF];
                let value = values[value as usize % values.len()];
                if let Some(byte) = bytes.get_mut(start + place as usize % HEAD) {
                    *byte = value;
                }
            }
        }
    }
}

impl Recording {
    pub fn bytes(&self, profile: &Profile) -> Vec<u8> {
        let mut noise = Noise::new(self.seed);
        let mut bytes = Vec::new();
        let mut starts = vec![0];
        for piece in &self.pieces {
            starts.push(bytes.len());
            bytes.extend(piece.bytes(profile, &mut noise));
        }
        for change in &self.changes {
            change.apply(&mut bytes, &starts);
        }
        bytes
    }
}

/// Reads a recording from every place; writes what can be read of it down again, which gives the same bytes; replays it.
pub fn play(pair: &Pair, recording: &Recording) -> Outcome {
    let profile = made::small();
    let bytes = recording.bytes(&profile);
    let lent = Guarded::new(&bytes);
    let far = [usize::MAX - 1034, usize::MAX - 4, usize::MAX];
    for at in (0..=bytes.len() + 2).chain(far) {
        pair.read_record(lent.lent(), at)?;
    }
    if !lent.is_guarded() || lent.lent() != &bytes[..] {
        return Err("the recording or what is around it changed".to_string());
    }
    let (read, ended) = write_back(pair, &bytes)?;
    replay_it(pair, recording, &profile, &bytes, (read, ended))?;
    let mut noise = Noise::new(recording.seed ^ 1);
    let mut buffers = Buffers::new(pair, 2200, recording.seed);
    for attempt in &recording.attempts {
        let length = any_length(attempt.length);
        let room = match attempt.room % 2 {
            0 => attempt.room as usize / 2 % 2100,
            _ => HEAD + length + attempt.room as usize / 2 % 8,
        };
        let at = match attempt.place % 4 {
            0 => attempt.place as usize / 4 % (room + 1),
            1 => usize::MAX - attempt.place as usize / 4 % 1100,
            _ => attempt.place as usize / 4 % 8,
        };
        buffers.write(
            room,
            at,
            any_direction(attempt.direction),
            &noise.bytes(length),
        )?;
    }
    Ok(())
}

/// How much can be read and why no more. Written down record by record, this much is the same bytes again.
fn write_back(pair: &Pair, bytes: &[u8]) -> Result<(usize, u32), String> {
    let mut buffers = Buffers::new(pair, bytes.len() + 1, 3);
    let mut at = 0;
    loop {
        let found = pair.read_record(bytes, at)?;
        if !is_direction(found.answer) {
            if buffers.tested.lent()[..at] != bytes[..at] {
                return Err(format!(
                    "{} written down again is something else",
                    hex(bytes)
                ));
            }
            pair.happened(match found.answer {
                END => "whole recording written back",
                _ => "part of a recording written back",
            });
            return Ok((at, found.answer));
        }
        let contents = &bytes[found.from..found.to];
        let (_, to) = buffers.write(bytes.len(), at, found.answer, contents)?;
        if to != found.to {
            return Err(format!("the record at {} is written up to {}", at, to));
        }
        at = to;
    }
}

/// Mostly accepted; what a replay reads is what reading its records reads.
fn replay_it(
    pair: &Pair,
    recording: &Recording,
    profile: &Profile,
    bytes: &[u8],
    (read, ended): (usize, u32),
) -> Outcome {
    let mut profile = model::profile_bytes(profile).to_vec();
    let mut image = Noise::new(recording.seed).bytes(made::total(&made::small()));
    match recording.seed % 16 {
        0 => {
            image.pop();
        }
        1 => profile[0] = 9,
        2 => {
            profile.pop();
        }
        _ => {}
    }
    let (replayed, _) = pair.replay(&profile, &image, bytes)?;
    let expected = match replayed.refusal {
        0 => (read, ended),
        _ => (0, 0),
    };
    if (replayed.read, replayed.ended) != expected {
        return Err(format!("{:?} beside the reader's {:?}", replayed, expected));
    }
    Ok(())
}
