//! The line's record, and what the flash must be after it.

use crate::answer::TOTAL_ERASE;
use crate::device::start_refusal;
use crate::faults::{Fault, Faults, Right};
use crate::packet::{payload, status, COMMAND, DATA};
use crate::recording::{reading, DEVICE, END, HOST};
use crate::{Area, Profile};

/// One entry of the line's record, in order of time. An early refusal is an
/// exchange whose request is the three bytes up to the refused length.
#[derive(Clone, Debug, PartialEq, Eq)]
pub enum Entry {
    Exchange { request: Vec<u8>, reply: Vec<u8> },
    Reset,
}

/// Changes the image as the record says. It reads only the areas, complete
/// requests and their replies; a reset has no effect on flash, nor on where
/// the next data packet lands.
pub fn replay(p_areas: &[Area], image: &mut [u8], entries: &[Entry]) {
    // 64 bits, since data may be said to run over the top of the addresses.
    let mut landing: Option<u64> = None;
    for entry in entries {
        let (request, reply) = match entry {
            Entry::Exchange { request, reply } => (request, reply),
            Entry::Reset => continue,
        };
        let contents = match payload(request, request.len()) {
            Some(range) => &request[range],
            None => continue,
        };
        if !says_ok(reply, contents[0]) {
            continue;
        }
        match (request[0], contents[0], &contents[1..]) {
            (COMMAND, 0x12, range) if range.len() == 8 => {
                erase(p_areas, image, number(&range[..4]), number(&range[4..]));
            }
            (COMMAND, 0x13, range) if range.len() == 8 => {
                landing = Some(number(&range[..4]));
            }
            (COMMAND, 0x30, code) if code == TOTAL_ERASE => image.fill(0xFF),
            (DATA, 0x13, data) => {
                if let Some(first) = landing {
                    store(p_areas, image, first, data);
                    landing = Some(first + data.len() as u64);
                }
            }
            _ => {}
        }
    }
}

/// What the replay of a recording answers: a refusal number (0 if accepted),
/// how many bytes of the recording were read, and why no more (6 for the end,
/// 1 to 4 for a record that can't be read, 0 for a refusal).
#[derive(Clone, Copy, Debug, PartialEq, Eq)]
pub struct Replayed {
    pub refusal: u32,
    pub read: usize,
    pub ended: u32,
}

/// Changes the image as a recording says, up to the first record that can't
/// be read.
pub fn replay_recording(p: &Profile, image: &mut [u8], recording: &[u8]) -> Replayed {
    replaying(Right, p, image, recording)
}

/// [`replay_recording`] with a fault.
pub fn replay_recording_with(
    f: Option<Fault>,
    p: &Profile,
    image: &mut [u8],
    recording: &[u8],
) -> Replayed {
    replaying(f, p, image, recording)
}

fn replaying<F: Faults>(f: F, p: &Profile, image: &mut [u8], recording: &[u8]) -> Replayed {
    let refusal = start_refusal(f, p, image);
    if refusal != 0 {
        return Replayed {
            refusal,
            read: 0,
            ended: if f.has(Fault::RefusedReplayEnds) {
                END
            } else {
                0
            },
        };
    }
    let (entries, read, ended) = entries_of(f, recording);
    replay(p.used(), image, &entries);
    Replayed {
        refusal,
        read,
        ended: if f.has(Fault::ReplayAlwaysEnds) {
            END
        } else {
            ended
        },
    }
}

/// Each host record with the device record right behind it is an exchange;
/// a record without its partner is nothing. Also how much was read, and why
/// no more.
fn entries_of<F: Faults>(f: F, recording: &[u8]) -> (Vec<Entry>, usize, u32) {
    let mut entries = vec![];
    let mut request: Option<&[u8]> = None;
    let mut at = 0;
    loop {
        let found = reading(f, recording, at);
        let direction = match u8::try_from(found.answer) {
            Ok(direction) if found.answer > END => direction,
            _ if f.has(Fault::ReplayPassesUnreadable) && at < recording.len() => {
                at += 1;
                continue;
            }
            _ => return (entries, at, found.answer),
        };
        let contents = &recording[found.from..found.to];
        match (direction, request.take()) {
            (HOST, _) => request = Some(contents),
            (DEVICE, Some(asked)) => entries.push(Entry::Exchange {
                request: asked.to_vec(),
                reply: contents.to_vec(),
            }),
            (DEVICE, None) => {}
            (_, asked) => {
                entries.push(Entry::Reset);
                if f.has(Fault::ReplyBehindResetCounts) {
                    request = asked;
                }
            }
        }
        at = found.to;
    }
}

/// Only the status packet itself is an OK: anything else grants nothing.
fn says_ok(reply: &[u8], com: u8) -> bool {
    let mut ok = [0; 7];
    status(&mut ok, com, 0x00);
    reply == ok
}

fn number(bytes: &[u8]) -> u64 {
    bytes
        .iter()
        .fold(0, |value, byte| value << 8 | u64::from(*byte))
}

fn erase(areas: &[Area], image: &mut [u8], sad: u64, ead: u64) {
    each_part(areas, image, sad, ead + 1, |_, part| part.fill(0xFF));
}

fn store(areas: &[Area], image: &mut [u8], first: u64, data: &[u8]) {
    let behind = first + data.len() as u64;
    each_part(areas, image, first, behind, |skipped, part| {
        part.copy_from_slice(&data[skipped..skipped + part.len()]);
    });
}

/// Hands over each part of the image that the addresses from `first` to
/// before `behind` cover, with its distance from `first`. Addresses in no
/// area have no part.
fn each_part(
    areas: &[Area],
    image: &mut [u8],
    first: u64,
    behind: u64,
    mut effect: impl FnMut(usize, &mut [u8]),
) {
    let mut rest = image;
    for area in areas {
        let size = area.size().min(rest.len() as u64);
        let (bytes, later) = std::mem::take(&mut rest).split_at_mut(size as usize);
        rest = later;
        let start = u64::from(area.sad);
        let from = first.max(start);
        let to = behind.min(start + size);
        if from < to {
            let part = &mut bytes[(from - start) as usize..(to - start) as usize];
            effect((from - first) as usize, part);
        }
    }
}
