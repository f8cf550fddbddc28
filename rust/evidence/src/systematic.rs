//! Boundaries one by one: what random histories reach only by luck.

use crate::line::{hex, Lent, Line, Pair};
use crate::noise::Noise;
use crate::packets::{self, command, data, range, Flaw, NEXT, WAKE_UP};
use crate::profiles::{self as made, Rule, RULES};
use crate::subject::{PROFILE_BYTES, STATE_BYTES};
use indraveck_model::{self as model, Profile, Pulse, Stage, State};

pub struct Case {
    pub name: &'static str,
    pub run: fn(&Pair) -> Outcome,
    /// What must have come up in it.
    pub shows: &'static [&'static str],
}

pub type Outcome = Result<(), String>;

/// Those that take least come first.
pub const CASES: &[Case] = &[
    Case {
        name: "examples",
        run: examples,
        shows: &["signature sent", "erase left flash", "area sent"],
    },
    Case {
        name: "payloads",
        run: payloads,
        shows: &["payload there", "payload empty"],
    },
    Case {
        name: "lengths",
        run: lengths,
        shows: &[
            "early refusal in authentication",
            "early refusal in command stage",
            "early refusal while writing",
            "early refusal while reading",
            "command refused with C1",
            "write packet stored",
        ],
    },
    Case {
        name: "slices",
        run: slices,
        shows: &[
            "start refused with 4",
            "start refused with 1",
            "start refused with 5",
            "reset refused with 4",
            "reset refused with 1",
            "reset refused with 5",
            "feed refused with 4",
            "feed refused with 1",
            "feed refused with 5",
            "start accepted",
        ],
    },
    Case {
        name: "resets",
        run: resets,
        shows: &[
            "reset while writing",
            "reset while reading",
            "reset in authentication",
            "reset with bytes held",
            "write of several packets completed",
            "record replayed",
        ],
    },
    Case {
        name: "codes",
        run: codes,
        shows: &[
            "authenticated",
            "total erase changed flash",
            "command refused with DB",
            "command refused with DC",
            "command refused with C3",
        ],
    },
    Case {
        name: "command_faults",
        run: command_faults,
        shows: &[
            "command refused with C0",
            "command refused with C1",
            "command refused with C2",
            "command refused with C3",
            "command refused with D0",
            "command refused with D4",
            "command refused with DB",
            "authenticated",
            "write granted",
        ],
    },
    Case {
        name: "transfers",
        run: transfers,
        shows: &[
            "write of several packets completed",
            "write of one packet completed",
            "read of several packets completed",
            "read of one packet completed",
            "write ended with E2",
            "record replayed",
        ],
    },
    Case {
        name: "rates",
        run: rates,
        shows: &["rate changed", "rate kept", "command refused with D4"],
    },
    Case {
        name: "wake_ups",
        run: wake_ups,
        shows: &[
            "low pulses acknowledged",
            "woken up with an ID",
            "woken up without an ID",
            "setting without a reply",
        ],
    },
    Case {
        name: "data_faults",
        run: data_faults,
        shows: &[
            "write ended with C1",
            "write ended with C2",
            "write ended with E2",
            "write packet stored",
            "read ended with C1",
            "read ended with C2",
            "next read packet sent",
        ],
    },
    Case {
        name: "cuts",
        run: cuts,
        shows: &[
            "packet begun and not complete",
            "empty input",
            "write packet stored",
            "next read packet sent",
            "authenticated",
            "erase changed flash",
            "bytes left unread",
        ],
    },
    Case {
        name: "buffers",
        run: buffers,
        shows: &[
            "feed refused with 5",
            "feed refused with 2",
            "feed refused with 3",
            "inquiry answered",
        ],
    },
    Case {
        name: "states",
        run: states,
        shows: &[
            "feed refused with 5",
            "write packet stored",
            "next read packet sent",
            "inquiry answered",
            "reset of no state",
        ],
    },
    Case {
        name: "profiles",
        run: profiles,
        shows: &[
            "start refused with 4",
            "start refused with 1",
            "reset refused with 4",
            "feed refused with 4",
            "feed refused with 1",
            "start accepted",
        ],
    },
    Case {
        name: "boundaries",
        run: boundaries,
        shows: &[
            "command refused with D0",
            "command refused with DA",
            "erase changed flash",
            "write granted",
            "read of one packet completed",
            "read of several packets begun",
        ],
    },
];

const NO_ID: [u8; 16] = [0xFF; 16];
/// Both top bits are set: every code is compared and a total erase is granted.
const OPEN_ID: [u8; 16] = [
    0xC1, 0x02, 0x03, 0x04, 0x05, 0x06, 0x07, 0x08, 0x09, 0x0A, 0x0B, 0x0C, 0x0D, 0x0E, 0x0F, 0x10,
];

fn state(stage: Stage) -> State {
    State {
        stage,
        id: OPEN_ID,
        line: model::Line {
            abcs: 0,
            brr: 0xC2,
            mddr: 0xFF,
        },
        held: 0,
    }
}

/// An image with something in it: every third stretch of 64 bytes, and no ID.
fn spotted(profile: &Profile) -> Vec<u8> {
    let mut image = made::blank(profile);
    let mut noise = Noise::new(7);
    for stretch in image.chunks_mut(64).step_by(3) {
        noise.fill(stretch);
    }
    let place = made::id_place(profile);
    image[place..place + 16].fill(0xFF);
    image
}

fn full(profile: &Profile) -> Vec<u8> {
    Noise::new(11).bytes(made::total(profile))
}

/// Feeds until nothing is left unread.
fn pour(line: &mut Line, bytes: &[u8]) -> Result<Vec<u8>, String> {
    let mut replies = Vec::new();
    let mut rest = bytes;
    while !rest.is_empty() {
        let fed = line.feed(rest)?;
        replies.extend_from_slice(line.reply(fed.count));
        if fed.consumed == 0 {
            break;
        }
        rest = &rest[fed.consumed..];
    }
    Ok(replies)
}

fn started<'a>(pair: &'a Pair<'a>, profile: &Profile, image: Vec<u8>) -> Result<Line<'a>, String> {
    let mut line = Line::new(pair, &Lent::new(profile, image));
    line.start()?;
    Ok(line)
}

fn woken<'a>(pair: &'a Pair<'a>, profile: &Profile, image: Vec<u8>) -> Result<Line<'a>, String> {
    let mut line = started(pair, profile, image)?;
    pour(&mut line, &WAKE_UP)?;
    Ok(line)
}

/// A line that is put into a stage by hand.
fn placed<'a>(pair: &'a Pair<'a>, profile: &Profile, image: Vec<u8>, stage: Stage) -> Line<'a> {
    Line::new(pair, &Lent::with_state(profile, image, &state(stage)))
}

/// The scope document's line examples, whose replies are known beforehand.
fn examples(pair: &Pair) -> Outcome {
    let profile = made::bench();
    let in_command: &[(&[u8], &[u8])] = &[
        (
            &[0x01, 0x00, 0x01, 0x3A, 0xC5, 0x03],
            &[
                0x81, 0x00, 0x0D, 0x3A, 0x03, 0x93, 0x87, 0x00, 0x00, 0x3D, 0x09, 0x00, 0x02, 0x01,
                0x01, 0x00, 0x52, 0x03,
            ],
        ),
        (
            &[0x01, 0x00, 0x01, 0x00, 0xFF, 0x03],
            &[0x81, 0x00, 0x02, 0x00, 0x00, 0xFE, 0x03],
        ),
        (
            &[0x01, 0x00, 0x01, 0x00, 0xFE, 0x03],
            &[0x81, 0x00, 0x02, 0x80, 0xC2, 0xBC, 0x03],
        ),
        (
            &[0x01, 0x00, 0x01, 0x00, 0xFF, 0x04],
            &[0x81, 0x00, 0x02, 0x80, 0xC1, 0xBD, 0x03],
        ),
        (
            &[0x01, 0x00, 0x00],
            &[0x81, 0x00, 0x02, 0x80, 0xC1, 0xBD, 0x03],
        ),
        (
            &[0x01, 0x01, 0x01],
            &[0x81, 0x00, 0x02, 0x80, 0xC1, 0xBD, 0x03],
        ),
        (
            &[0x01, 0x00, 0x01, 0x55, 0xAA, 0x03],
            &[0x81, 0x00, 0x02, 0xD5, 0xC0, 0x69, 0x03],
        ),
        (
            &[
                0x01, 0x00, 0x09, 0x12, 0x00, 0x00, 0x40, 0x00, 0x00, 0x00, 0x7F, 0xFF, 0x27, 0x03,
            ],
            &[0x81, 0x00, 0x02, 0x12, 0x00, 0xEC, 0x03],
        ),
        (
            &[0x01, 0x00, 0x02, 0x3B, 0x02, 0xC1, 0x03],
            &[0x81, 0x00, 0x02, 0xBB, 0xD0, 0x73, 0x03],
        ),
        (
            &[0x01, 0x00, 0x02, 0x3B, 0x01, 0xC2, 0x03],
            &[
                0x81, 0x00, 0x12, 0x3B, 0x02, 0x01, 0x00, 0x00, 0x00, 0x01, 0x00, 0x00, 0xFF, 0x00,
                0x00, 0x00, 0x00, 0x00, 0x00, 0x00, 0x10, 0xA0, 0x03,
            ],
        ),
    ];
    let mut line = started(pair, &profile, made::blank(&profile))?;
    expect(&mut line, &WAKE_UP, &[0x00, 0xC3])?;
    for (request, reply) in in_command {
        expect(&mut line, request, reply)?;
    }
    let reads: [(u32, &[usize]); 2] = [(1024, &[1030]), (1025, &[1030, 7])];
    for (count, replies) in reads {
        let mut request = command(packets::READ, &range(0x100, 0x100 + count - 1));
        for (number, wanted) in replies.iter().enumerate() {
            let got = pour(&mut line, &request)?.len();
            if got != *wanted {
                return Err(format!(
                    "read of {}: packet {} has {} bytes",
                    count, number, got
                ));
            }
            request = NEXT.to_vec();
        }
    }
    line.finish()?;
    let mut image = made::blank(&profile);
    image[0x1_0000..0x1_0010].copy_from_slice(&OPEN_ID);
    let mut line = started(pair, &profile, image)?;
    expect(&mut line, &WAKE_UP, &[0x00, 0xC3])?;
    expect(
        &mut line,
        &[0x01, 0x00, 0x01, 0x00, 0xFF, 0x03],
        &[0x81, 0x00, 0x02, 0x80, 0xC3, 0xBB, 0x03],
    )?;
    line.finish()
}

fn expect(line: &mut Line, request: &[u8], reply: &[u8]) -> Outcome {
    let got = pour(line, request)?;
    if got == reply {
        return Ok(());
    }
    Err(format!(
        "{} is answered by {}, not {}",
        hex(request),
        hex(&got),
        hex(reply)
    ))
}

/// All sequences of up to six of the bytes that matter and some that don't, at once and one by one.
fn wake_ups(pair: &Pair) -> Outcome {
    let profile = made::top();
    let with_id = {
        let mut image = made::blank(&profile);
        image[..16].copy_from_slice(&OPEN_ID);
        image
    };
    // an ID is stored if one bit of it is clear
    let mut barely = made::blank(&profile);
    barely[15] = 0xFE;
    for image in [made::blank(&profile), with_id, barely] {
        let mut line = started(pair, &profile, image)?;
        for count in 0..=6 {
            for number in 0..3usize.pow(count) {
                let sequence: Vec<u8> = (0..count)
                    .map(|place| [0x00, 0x55, 0x01][number / 3usize.pow(place) % 3])
                    .collect();
                line.reset()?;
                pour(&mut line, &sequence)?;
                line.reset()?;
                for byte in &sequence {
                    line.feed(&[*byte])?;
                }
            }
        }
        for byte in 0..=0xFF {
            for before in [&[][..], &[0x00], &[0x00, 0x00], &[0x00, 0x00, 0x00]] {
                line.reset()?;
                pour(&mut line, before)?;
                line.feed(&[byte])?;
                pour(&mut line, &WAKE_UP)?;
            }
        }
        line.finish()?;
    }
    Ok(())
}

/// Every packet kind, cut behind every byte.
fn cuts(pair: &Pair) -> Outcome {
    let profile = made::small();
    let writing = Stage::Writing {
        next: 0x0200,
        left: 0x0C00,
    };
    let reading = Stage::Reading {
        next: 0x0010,
        left: 0x0900,
    };
    let mut kinds: Vec<(Stage, Vec<u8>)> = Vec::new();
    for stage in [Stage::Authentication, Stage::Command] {
        for com in packets::COMMANDS {
            kinds.push((stage, command(com, &right_information(com))));
        }
        kinds.push((stage, command(0x77, &[1, 2, 3])));
        kinds.push((stage, command(packets::INQUIRY, &[0x01; 255])));
    }
    for count in [0, 4, 0x20, 0x21, 0x400] {
        let bytes = Noise::new(3).bytes(count);
        kinds.push((writing, data(packets::WRITE, &bytes)));
    }
    kinds.push((reading, NEXT.to_vec()));
    kinds.push((reading, data(packets::READ, &[1])));
    kinds.push((reading, data(packets::READ, &[0x81; 40])));
    for (stage, packet) in kinds {
        for flaw in [Flaw::None, Flaw::Etx(7), Flaw::Sum(1)] {
            let mut packet = packet.clone();
            flaw.apply(&mut packet);
            // a damaged packet is cut as a right one: near its ends and at some places between is enough
            let all = flaw == Flaw::None;
            let places = (0..=packet.len())
                .filter(|at| all || *at < 20 || at + 20 > packet.len() || at % 37 == 0);
            for at in places {
                let mut line = placed(pair, &profile, spotted_where_written(&profile), stage);
                line.feed(&packet[..at])?;
                line.feed(&[])?;
                let second = [&packet[at..], &packet[..]].concat();
                pour(&mut line, &second)?;
                // and skipped bytes before it
                let mut line = placed(pair, &profile, spotted_where_written(&profile), stage);
                pour(&mut line, &[0x02, 0x80, 0xFF])?;
                pour(&mut line, &packet[..at])?;
                pour(&mut line, &packet[at..])?;
            }
            let mut line = placed(pair, &profile, spotted_where_written(&profile), stage);
            for byte in &packet {
                line.feed(&[*byte])?;
            }
        }
    }
    Ok(())
}

/// Blank in the window, so that writes there succeed, and with something everywhere else.
fn spotted_where_written(profile: &Profile) -> Vec<u8> {
    let mut image = spotted(profile);
    image[0x0200..0x0C00].fill(0xFF);
    image
}

fn right_information(com: u8) -> Vec<u8> {
    match com {
        packets::ERASE => range(0x0D00, 0x0DFF),
        packets::WRITE => range(0x0200, 0x023F),
        packets::READ => range(0x0003, 0x0603),
        packets::AUTHENTICATE => OPEN_ID.to_vec(),
        packets::BAUD_RATE => 115_200u32.to_be_bytes().to_vec(),
        packets::AREA => vec![3],
        _ => Vec::new(),
    }
}

/// Stated lengths on both sides of what is permitted, in every stage, with all the bytes that they promise.
fn lengths(pair: &Pair) -> Outcome {
    let profile = made::small();
    let stages = [
        Stage::Authentication,
        Stage::Command,
        Stage::Writing {
            next: 0x0200,
            left: 0x0800,
        },
        Stage::Reading {
            next: 0,
            left: 0x1000,
        },
    ];
    let stated = (0..=40).chain(250..=260).chain(1020..=1030);
    let stated: Vec<u16> = stated.chain([0x0800, 0x8001, 0xFF00, 0xFFFF]).collect();
    for stage in stages {
        let start = match stage {
            Stage::Writing { .. } | Stage::Reading { .. } => packets::DATA,
            _ => packets::COMMAND,
        };
        for first in [packets::WRITE, packets::READ, packets::AUTHENTICATE] {
            for length in &stated {
                let mut contents = vec![0x07; usize::from(*length).min(1100)];
                if let Some(com) = contents.first_mut() {
                    *com = first;
                }
                let mut packet = packets::packet(start, &contents);
                packet[1..3].copy_from_slice(&length.to_be_bytes());
                let mut line = placed(pair, &profile, made::blank(&profile), stage);
                pour(&mut line, &packet)?;
                pour(&mut line, &command(packets::INQUIRY, &[]))?;
            }
        }
    }
    Ok(())
}

/// All pairs of addresses around every area, for erase, write and read.
fn boundaries(pair: &Pair) -> Outcome {
    let tight = |low: u32, high: u32| Profile {
        low,
        high,
        ..made::of_areas(&[
            made::area(made::USER, 0x40, 0x40, 0x10, 0x08),
            made::area(made::USER, 0x80, 0x30, 0x08, 0x10),
            made::area(made::DATA, 0xB0, 0x20, 0x10, 0x20 / 2),
            made::area(made::CONFIG, 0xE0, 0x10, 0x10, 0x04),
        ])
    };
    let checked = [
        tight(0x50, 0x50),
        tight(0x50, 0x90),
        tight(0x51, 0x6F),
        made::top(),
    ];
    for profile in checked {
        let mut addresses: Vec<u32> = made::used(&profile)
            .iter()
            .flat_map(|area| made::edges(&profile, area))
            .chain([0, u32::MAX])
            .collect();
        addresses.sort_unstable();
        addresses.dedup();
        every_range(pair, &profile, &addresses)?;
    }
    // several packets and window edges in areas of more than a packet
    let profile = made::small();
    for area in made::used(&profile) {
        every_range(pair, &profile, &made::edges(&profile, area))?;
    }
    Ok(())
}

/// Erase, write and read from each address to each, in flash without a blank byte.
fn every_range(pair: &Pair, profile: &Profile, addresses: &[u32]) -> Outcome {
    let mut line = placed(pair, profile, full(profile), Stage::Command);
    let fresh = line.lent();
    for first in addresses {
        for last in addresses {
            for com in [packets::ERASE, packets::WRITE, packets::READ] {
                let fed = line.feed(&command(com, &range(*first, *last)))?;
                // an OK changes image or stage, and the next range is to find them as this one did
                if line.reply(fed.count)[3] & 0x80 == 0 {
                    line = Line::new(pair, &fresh);
                }
            }
        }
    }
    Ok(())
}

/// Everything that can be wrong with a command, in all combinations: the order of the checks decides.
fn command_faults(pair: &Pair) -> Outcome {
    let profile = made::small();
    let image = spotted(&profile);
    for stage in [Stage::Authentication, Stage::Command] {
        for com in packets::COMMANDS.iter().chain(&[0x01, 0x77, 0x92, 0xFF]) {
            let right = right_information(*com);
            let mut informations = vec![right.clone()];
            informations.extend(wrong_informations(*com));
            let mut longer = Vec::new();
            for information in &informations {
                let mut one = information.clone();
                one.push(0);
                longer.push(one);
                let mut one = information.clone();
                one.pop();
                longer.push(one);
            }
            longer.push(vec![0; 255]);
            informations.extend(longer);
            for information in &informations {
                for etx in [Flaw::None, Flaw::Etx(1), Flaw::Etx(0x80)] {
                    for sum in [Flaw::None, Flaw::Sum(1), Flaw::Sum(0x80)] {
                        let mut packet = command(*com, information);
                        etx.apply(&mut packet);
                        sum.apply(&mut packet);
                        let mut line = placed(pair, &profile, image.clone(), stage);
                        pour(&mut line, &packet)?;
                    }
                }
            }
        }
    }
    Ok(())
}

fn wrong_informations(com: u8) -> Vec<Vec<u8>> {
    match com {
        packets::ERASE | packets::WRITE | packets::READ => vec![
            // turned round, in no area, across areas
            range(0x02FF, 0x0200),
            range(0x7000, 0x70FF),
            range(0x0F00, 0x10FF),
            // not by the unit, outside the window, both
            range(0x0201, 0x02FF),
            range(0x0000, 0x00FF),
            range(0x0001, 0x00FF),
            // an area without the unit
            range(0x8000, 0x803F),
            range(0x9000, 0x903F),
        ],
        packets::AUTHENTICATE => vec![packets::TOTAL_ERASE.to_vec(), NO_ID.to_vec()],
        packets::BAUD_RATE => vec![vec![0; 4], vec![0xFF; 4], 3500u32.to_be_bytes().to_vec()],
        packets::AREA => vec![vec![4], vec![8], vec![0xFF]],
        _ => Vec::new(),
    }
}

/// Everything that can be wrong with a data packet, in all combinations.
fn data_faults(pair: &Pair) -> Outcome {
    let profile = made::small();
    let blank = made::blank(&profile);
    // within the third unit of the range, and its last byte
    let dirty = |place: usize| {
        let mut image = blank.clone();
        image[place] = 0xFE;
        image
    };
    let images = [
        blank.clone(),
        dirty(0x0200),
        dirty(0x021F),
        dirty(0x0220),
        dirty(0x025F),
        dirty(0x0260),
        full(&profile),
    ];
    let frames = [
        [Flaw::None, Flaw::None],
        [Flaw::Etx(1), Flaw::None],
        [Flaw::None, Flaw::Sum(1)],
        [Flaw::Etx(1), Flaw::Sum(1)],
    ];
    for left in [0x20, 0x60, 0x800] {
        let stage = Stage::Writing { next: 0x0200, left };
        for image in &images {
            for res in [packets::WRITE, 0x93, 0x15, 0x00] {
                for count in [0, 1, 0x1F, 0x20, 0x21, 0x40, 0x5F, 0x60, 0x80, 0x3E0, 0x400] {
                    for flaws in frames {
                        let mut packet = data(res, &Noise::new(5).bytes(count));
                        for flaw in flaws {
                            flaw.apply(&mut packet);
                        }
                        let mut line = placed(pair, &profile, image.clone(), stage);
                        pour(&mut line, &packet)?;
                        // what follows shows whether the write goes on
                        pour(&mut line, &data(packets::WRITE, &[0x55; 0x20]))?;
                        pour(&mut line, &command(packets::INQUIRY, &[]))?;
                    }
                }
            }
        }
    }
    let requests: [&[u8]; 8] = [
        &[0x15, 0x00],
        &[0x15, 0x01],
        &[0x15, 0x80],
        &[0x13, 0x00],
        &[0x95, 0x00],
        &[0x15],
        &[0x15, 0x00, 0x00],
        &[0x00],
    ];
    for left in [1, 0x400, 0x401, 0x1000] {
        let stage = Stage::Reading { next: 0, left };
        for contents in requests {
            for flaws in frames {
                let mut packet = packets::packet(packets::DATA, contents);
                for flaw in flaws {
                    flaw.apply(&mut packet);
                }
                let mut line = placed(pair, &profile, full(&profile), stage);
                pour(&mut line, &packet)?;
                pour(&mut line, &NEXT)?;
                pour(&mut line, &command(packets::INQUIRY, &[]))?;
            }
        }
    }
    Ok(())
}

/// Writes and reads of every size near a packet's, by packets of several sizes.
fn transfers(pair: &Pair) -> Outcome {
    let profile = made::small();
    for count in [1, 2, 1023, 1024, 1025, 2047, 2048, 2049, 3071, 3072, 4096] {
        let mut line = woken(pair, &profile, spotted(&profile))?;
        let mut request = command(packets::READ, &range(0, count - 1));
        // two requests more than there are packets: the read is over by then
        for _ in 0..(count + 1023) / 1024 + 2 {
            pour(&mut line, &request)?;
            request = NEXT.to_vec();
        }
        line.finish()?;
    }
    for (first, unit, most) in [(0x0200, 0x20, 0x0C00), (0x1000, 0x04, 0x0C00)] {
        for step in [unit, 2 * unit, 0x100, 0x400] {
            for count in [unit, 2 * unit, 0x400, 0x400 + unit, most] {
                // dirty behind the range and at its end
                for dirty in [None, Some(first + count), Some(first + count - 1)] {
                    if step == unit && count > 0x400 {
                        continue;
                    }
                    let mut image = made::blank(&profile);
                    if let Some(place) = dirty {
                        if (place as usize) < image.len() {
                            image[place as usize] = 0x7F;
                        }
                    }
                    let mut line = woken(pair, &profile, image)?;
                    let mut stream = command(packets::WRITE, &range(first, first + count - 1));
                    let bytes = Noise::new(count).bytes(count as usize);
                    for part in bytes.chunks(step as usize) {
                        stream.extend(data(packets::WRITE, part));
                    }
                    pour(&mut line, &stream)?;
                    // again: what was written is not blank
                    pour(&mut line, &stream[..14 + 6 + unit as usize])?;
                    line.reset()?;
                    pour(&mut line, &WAKE_UP)?;
                    line.finish()?;
                }
            }
        }
    }
    Ok(())
}

/// A reset behind each byte of a write packet, of a read request and of an authentication.
fn resets(pair: &Pair) -> Outcome {
    let profile = made::small();
    let write = command(packets::WRITE, &range(0x0200, 0x027F));
    let first = data(packets::WRITE, &[0x11; 0x40]);
    let second = data(packets::WRITE, &[0x22; 0x40]);
    let erase = command(packets::ERASE, &range(0x0200, 0x02FF));
    let read = command(packets::READ, &range(0x0000, 0x0FFF));
    for at in 0..=second.len() {
        let mut line = woken(pair, &profile, spotted_where_written(&profile))?;
        pour(&mut line, &write)?;
        pour(&mut line, &first)?;
        pour(&mut line, &second[..at])?;
        line.reset()?;
        // the rest of the packet, to a device that awaits a wake-up
        pour(&mut line, &second[at..])?;
        pour(&mut line, &WAKE_UP)?;
        pour(&mut line, &write)?;
        pour(&mut line, &first)?;
        pour(&mut line, &erase)?;
        pour(&mut line, &[&write[..], &first, &second].concat())?;
        line.finish()?;
    }
    for at in 0..=NEXT.len() {
        let mut line = woken(pair, &profile, spotted(&profile))?;
        pour(&mut line, &read)?;
        pour(&mut line, &NEXT[..at])?;
        line.reset()?;
        pour(&mut line, &NEXT[at..])?;
        pour(&mut line, &WAKE_UP)?;
        pour(&mut line, &NEXT)?;
        line.finish()?;
    }
    let code = command(packets::AUTHENTICATE, &OPEN_ID);
    let mut image = made::blank(&profile);
    let place = made::id_place(&profile);
    image[place..place + 16].copy_from_slice(&OPEN_ID);
    for at in 0..=code.len() {
        let mut line = woken(pair, &profile, image.clone())?;
        pour(&mut line, &code[..at])?;
        line.reset()?;
        pour(&mut line, &code[at..])?;
        pour(&mut line, &WAKE_UP)?;
        pour(&mut line, &command(packets::INQUIRY, &[]))?;
        pour(&mut line, &code)?;
        pour(&mut line, &command(packets::INQUIRY, &[]))?;
        line.finish()?;
    }
    Ok(())
}

/// Stored IDs against codes, with what each end allows.
fn codes(pair: &Pair) -> Outcome {
    let profile = made::small();
    let place = made::id_place(&profile);
    let with_top = |top: u8| {
        let mut id = OPEN_ID;
        id[0] = id[0] & 0x3F | top;
        id
    };
    let mut ids = vec![NO_ID, packets::TOTAL_ERASE];
    ids.extend([0x00, 0x40, 0x80, 0xC0].map(with_top));
    for bit in [0x80, 0x40, 0x01] {
        let mut id = NO_ID;
        id[0] ^= bit;
        ids.push(id);
    }
    // the erase code with bit 127 set is an ID like others
    let mut marked = packets::TOTAL_ERASE;
    marked[0] |= 0x80;
    ids.push(marked);
    for id in &ids {
        let mut codes = ids.clone();
        for at in 0..16 {
            let mut near = *id;
            near[at] ^= 1;
            codes.push(near);
            let mut near = packets::TOTAL_ERASE;
            near[at] ^= 1;
            codes.push(near);
        }
        for code in codes {
            let mut image = full(&profile);
            image[place..place + 16].copy_from_slice(id);
            let mut line = woken(pair, &profile, image)?;
            pour(&mut line, &command(packets::INQUIRY, &[]))?;
            let rate = 115_200u32.to_be_bytes();
            pour(&mut line, &command(packets::BAUD_RATE, &rate))?;
            pour(&mut line, &command(packets::AUTHENTICATE, &code))?;
            pour(&mut line, &command(packets::INQUIRY, &[]))?;
            pour(&mut line, &command(packets::BAUD_RATE, &rate))?;
            pour(&mut line, &WAKE_UP)?;
            pour(&mut line, &command(packets::SIGNATURE, &[]))?;
            line.finish()?;
        }
    }
    // an ID that is written counts from the next wake-up
    let mut line = woken(pair, &profile, made::blank(&profile))?;
    pour(&mut line, &command(packets::WRITE, &range(0x8000, 0x800F)))?;
    pour(&mut line, &data(packets::WRITE, &OPEN_ID))?;
    pour(&mut line, &command(packets::INQUIRY, &[]))?;
    line.reset()?;
    pour(&mut line, &WAKE_UP)?;
    pour(&mut line, &command(packets::INQUIRY, &[]))?;
    pour(&mut line, &command(packets::AUTHENTICATE, &OPEN_ID))?;
    pour(&mut line, &command(packets::INQUIRY, &[]))?;
    line.finish()
}

/// Rates on both sides of every turn, for clocks of every size.
fn rates(pair: &Pair) -> Outcome {
    let mut clocks = vec![1, 2, 15, 16, 31, 32, 33, 511, 512, 9600, 153_599, 153_600];
    clocks.extend([307_199, 307_200, 307_201, 384_000, 425_984, 1_703_936]);
    clocks.extend([8_000_000, 24_000_000, 60_000_000, 60_000_001, 78_643_200]);
    clocks.extend([0x7FFF_FFFF, 0xFFFF_FFFF]);
    for sci in clocks {
        for rmb in [1, 9600, 4_000_000, u32::MAX] {
            let mut profile = made::top();
            profile.sci = sci;
            profile.rmb = rmb;
            let mut line = woken(pair, &profile, made::blank(&profile))?;
            let mut asked = made::rates(sci, rmb);
            let mut noise = Noise::new(sci ^ rmb);
            asked.extend((0..60).map(|bits| noise.number() as u32 >> (bits % 32)));
            for rate in asked {
                line.feed(&command(packets::BAUD_RATE, &rate.to_be_bytes()))?;
            }
            line.finish()?;
        }
    }
    Ok(())
}

/// States made by hand, on both sides of what fits.
fn states(pair: &Pair) -> Outcome {
    let tight = Profile {
        low: 0x48,
        high: 0x78,
        ..made::of_areas(&[
            made::area(made::USER, 0x40, 0x40, 0x10, 0x08),
            made::area(made::DATA, 0x80, 0x20, 0, 0x10),
            made::area(made::CONFIG, 0xB0, 0x10, 0x10, 0),
        ])
    };
    for profile in [tight, made::top()] {
        let lent = Lent::new(&profile, made::blank(&profile));
        ranges_of_states(pair, &profile, &lent)?;
        held_of_states(pair, &profile, &lent)?;
        bytes_of_states(pair, &lent)?;
    }
    Ok(())
}

fn ranges_of_states(pair: &Pair, profile: &Profile, lent: &Lent) -> Outcome {
    let mut addresses: Vec<u32> = made::used(profile)
        .iter()
        .flat_map(|area| made::edges(profile, area))
        .chain([0, u32::MAX])
        .collect();
    addresses.sort_unstable();
    addresses.dedup();
    for next in &addresses {
        let ends = addresses.iter().map(|end| end.wrapping_sub(*next));
        for left in ends.chain([1, 2, 0x7FFF_FFFF, u32::MAX]) {
            let (next, unit) = (*next, 0x08);
            let stages = [
                (
                    Stage::Writing { next, left },
                    data(packets::WRITE, &[0x5A; 0x10]),
                ),
                (
                    Stage::Writing { next, left },
                    data(packets::WRITE, &vec![0x5A; unit]),
                ),
                (Stage::Reading { next, left }, NEXT.to_vec()),
            ];
            for (stage, input) in stages {
                let mut lent = lent.clone();
                lent.state = model::state_bytes(&state(stage)).to_vec();
                Line::new(pair, &lent).feed(&input)?;
            }
        }
    }
    Ok(())
}

/// What is held: its start byte, its stated length, its count, and where the receive buffer ends.
fn held_of_states(pair: &Pair, profile: &Profile, lent: &Lent) -> Outcome {
    let area = made::used(profile)[0];
    let (next, left) = match made::granted(profile, &area, area.wau, (0, 0), 16) {
        Some((first, last)) => (first, last - first + 1),
        None => return Err("the first area can't be written".to_string()),
    };
    let stages = [
        Stage::Setting(Pulse::None),
        Stage::Setting(Pulse::One),
        Stage::Setting(Pulse::Acknowledged),
        Stage::Authentication,
        Stage::Command,
        Stage::Writing { next, left },
        Stage::Reading { next, left },
    ];
    for stage in stages {
        for start in [0x00, 0x01, 0x81, 0xFF] {
            for length in [0u16, 1, 2, 9, 256, 257, 1025, 1026, 0xFFFF] {
                let whole = u32::from(length) + 5;
                let counts = [0, 1, 2, 3, 4, whole - 2, whole - 1, whole, whole + 1];
                for held in counts.into_iter().chain([1029, 1030, 1031, u32::MAX]) {
                    let mut lent = lent.clone();
                    lent.state = model::state_bytes(&State {
                        held,
                        ..state(stage)
                    })
                    .to_vec();
                    lent.receive[0] = start;
                    lent.receive[1..3].copy_from_slice(&length.to_be_bytes());
                    let mut line = Line::new(pair, &lent);
                    line.feed(&[])?;
                    line.feed(&[0x00, 0x01, 0x03])?;
                    line.reset()?;
                }
            }
        }
    }
    Ok(())
}

/// Every value of the bytes that say the stage, and one bit in each of the others.
fn bytes_of_states(pair: &Pair, lent: &Lent) -> Outcome {
    let mut all: Vec<Vec<u8>> = Vec::new();
    for stage in 0..=0xFF {
        for pulses in [0, 1, 2, 3, 0xFF] {
            let mut bytes = vec![0; STATE_BYTES];
            bytes[0] = stage;
            bytes[1] = pulses;
            all.push(bytes);
        }
    }
    for stage in 0..5 {
        for place in 1..STATE_BYTES {
            for bit in 0..8 {
                let mut bytes = vec![0; STATE_BYTES];
                bytes[0] = stage;
                bytes[place] = 1 << bit;
                all.push(bytes);
            }
        }
    }
    for bytes in all {
        let mut lent = lent.clone();
        lent.state = bytes;
        let mut line = Line::new(pair, &lent);
        line.feed(&command(packets::INQUIRY, &[]))?;
        line.feed(&WAKE_UP)?;
        let mut line = Line::new(pair, &lent);
        line.reset()?;
        line.feed(&WAKE_UP)?;
    }
    Ok(())
}

/// Receive and reply buffers of lengths near the least, with states that fit, fit a longer buffer, or don't fit.
fn buffers(pair: &Pair) -> Outcome {
    let profile = made::top();
    let counts: Vec<usize> = [0, 1, 2, 3, 6, 7, 8, 500]
        .into_iter()
        .chain(1020..=1036)
        .collect();
    let fresh = Lent::with_state(&profile, made::blank(&profile), &state(Stage::Command));
    for held in [0, 1, 4, 5, 6, 1029, 1030] {
        for length in [0x0001u16, 0x0100] {
            for receive in &counts {
                for reply in &counts {
                    let mut lent = fresh.clone();
                    lent.state = model::state_bytes(&State {
                        held,
                        ..state(Stage::Command)
                    })
                    .to_vec();
                    let packet = packets::packet(0x01, &vec![0x00; usize::from(length)]);
                    lent.receive[..packet.len()].copy_from_slice(&packet);
                    lent.receive.resize(*receive, 0x77);
                    lent.reply.resize(*reply, 0x66);
                    let mut line = Line::new(pair, &lent);
                    line.feed(&[])?;
                    let rest = packet.get(held as usize..).unwrap_or(&[]);
                    line.feed(rest)?;
                    line.start()?;
                }
            }
        }
    }
    Ok(())
}

/// Each rule of an acceptable profile broken alone, and each two; with images of the right length and of others.
fn profiles(pair: &Pair) -> Outcome {
    let roomy = made::roomy();
    if !made::broken_rules(&roomy).is_empty() {
        return Err("the roomy profile is not acceptable".to_string());
    }
    check_profile(pair, &roomy)?;
    for rule in RULES {
        for choice in (0..8).chain([0x100, 0x103]) {
            let mut profile = roomy.clone();
            made::break_rule(&mut profile, rule, choice);
            let broken = made::broken_rules(&profile);
            let alone = match rule {
                Rule::SomeAreas => vec![Rule::SomeAreas, Rule::SomeConfig],
                rule => vec![rule],
            };
            if broken != alone {
                return Err(format!("{:?} by {} breaks {:?}", rule, choice, broken));
            }
            check_profile(pair, &profile)?;
        }
        for other in RULES {
            let mut profile = roomy.clone();
            made::break_rule(&mut profile, rule, 3);
            made::break_rule(&mut profile, other, 5);
            check_profile(pair, &profile)?;
        }
    }
    // what is just acceptable
    let mut unused = made::small();
    unused.areas[7] = made::area(9, 0, 1, 7, 4096);
    let mut closed = made::small();
    closed.low = u32::MAX;
    closed.high = u32::MAX;
    let mut slow = made::small();
    slow.sci = 1;
    slow.rmb = 1;
    let sixteen = made::of_areas(&[made::area(made::CONFIG, 3, 16, 0, 1)]);
    for profile in [unused, closed, slow, sixteen, made::top(), made::bench()] {
        check_profile(pair, &profile)?;
    }
    largest(pair)
}

fn check_profile(pair: &Pair, profile: &Profile) -> Outcome {
    let total = model::total(profile);
    let acceptable = made::broken_rules(profile).is_empty();
    let right = if total <= 0x2_0000 {
        total as usize
    } else {
        64
    };
    for count in [right, right + 1, right.saturating_sub(1), 0] {
        let fresh = Lent::new(profile, vec![0xFF; count]);
        let mut line = Line::new(pair, &fresh);
        let refusal = line.start()?;
        let wanted = match acceptable {
            false => 4,
            true if count as u64 != total => 1,
            true => 0,
        };
        if refusal != wanted {
            return Err(format!(
                "a start is refused with {}: {:?}",
                refusal, profile
            ));
        }
        line.feed(&WAKE_UP)?;
        // from bytes that are a state, and from bytes that are none
        for bytes in [
            &model::state_bytes(&state(Stage::Command))[..],
            &fresh.state,
        ] {
            let mut lent = fresh.clone();
            lent.state = bytes.to_vec();
            let mut line = Line::new(pair, &lent);
            line.feed(&command(packets::INQUIRY, &[]))?;
            line.reset()?;
            line.feed(&[])?;
        }
    }
    Ok(())
}

/// The largest image there may be, and one byte more.
fn largest(pair: &Pair) -> Outcome {
    let of_size = |size: u32| {
        made::of_areas(&[
            made::area(made::USER, 0x1000, size - 16, 0, 0),
            made::area(made::CONFIG, 0x2000_0000, 16, 0, 0),
        ])
    };
    for size in [16_777_216, 16_777_217] {
        let profile = of_size(size);
        let mut line = Line::new(pair, &Lent::new(&profile, vec![0xFF; size as usize]));
        let refusal = line.start()?;
        if (refusal == 0) != (size == 16_777_216) {
            return Err(format!("{} bytes are refused with {}", size, refusal));
        }
        line.feed(&WAKE_UP)?;
    }
    Ok(())
}

/// Profile, image and state slices of other lengths than they have.
fn slices(pair: &Pair) -> Outcome {
    let profile = made::top();
    let total = made::total(&profile);
    for stage in [Stage::Setting(Pulse::None), Stage::Command] {
        let fresh = Lent::with_state(&profile, made::blank(&profile), &state(stage));
        for profile_count in [
            0,
            1,
            20,
            PROFILE_BYTES - 1,
            PROFILE_BYTES,
            PROFILE_BYTES + 1,
            300,
        ] {
            for image_count in [0, 1, total - 1, total, total + 1, 2 * total] {
                for state_count in [0, 1, STATE_BYTES - 1, STATE_BYTES, STATE_BYTES + 1, 66] {
                    for (receive, reply) in [(1030, 1030), (0, 1030), (1030, 0), (0, 0)] {
                        let mut lent = fresh.clone();
                        lent.profile.resize(profile_count, 0);
                        lent.image.resize(image_count, 0xFF);
                        lent.state.resize(state_count, 0);
                        lent.receive.resize(receive, 0);
                        lent.reply.resize(reply, 0);
                        let mut line = Line::new(pair, &lent);
                        line.feed(&[])?;
                        line.feed(&WAKE_UP)?;
                        line.reset()?;
                        line.start()?;
                        line.feed(&[0x00])?;
                    }
                }
            }
        }
    }
    Ok(())
}

/// Packets of every length and both kinds, with every flaw, asked for with counts on both sides.
fn payloads(pair: &Pair) -> Outcome {
    for start in [0x01, 0x81, 0x00, 0x80] {
        let many = (1..=20).chain(250..=262).chain((300..1020).step_by(97));
        for length in many.chain(1020..=1030) {
            let right = packets::packet(start, &Noise::new(length).bytes(length as usize));
            let flaws = [
                Flaw::None,
                Flaw::Etx(1),
                Flaw::Sum(1),
                Flaw::Length(length as u16 + 1),
                Flaw::Length(length as u16 - 1),
                Flaw::Content {
                    place: length / 2,
                    by: 0x10,
                },
            ];
            for flaw in flaws {
                let mut packet = right.clone();
                flaw.apply(&mut packet);
                let count = packet.len();
                let mut longer = packet.clone();
                longer.resize(1100, 0);
                for receive in [&packet[..], &longer, &packet[..count - 1]] {
                    for asked in [count, count - 1, count + 1] {
                        pair.payload(receive, asked)?;
                    }
                }
            }
            for asked in [0, 1, 5, 6, usize::MAX, usize::MAX - 4, 1 << 32] {
                pair.payload(&right, asked)?;
            }
        }
    }
    // stated lengths that are no length, with all that would make the packet right otherwise
    for (start, length) in [(0x01, 0), (0x01, 257), (0x81, 0), (0x81, 1026)] {
        let packet = packets::packet(start, &vec![0; length]);
        pair.payload(&packet, packet.len())?;
    }
    for count in 0..8 {
        pair.payload(&[], count)?;
        pair.payload(&[0x81, 0x00, 0x01, 0x13, 0xEC, 0x03][..count.min(6)], count)?;
    }
    Ok(())
}
