//! The line's record and its replay.

use crate::bench::*;
use indraveck_model::*;

/// Runs a line and writes its record. What the device holds tells which
/// bytes made the request, so that the record needs nothing but the calls.
pub fn run(bench: &mut Bench, parts: &[Option<Vec<u8>>]) -> Vec<Entry> {
    let mut record = vec![];
    for part in parts {
        let mut rest = match part {
            Some(bytes) => &bytes[..],
            None => {
                assert_eq!(bench.reset(), 0);
                record.push(Entry::Reset);
                continue;
            }
        };
        while !rest.is_empty() {
            // One byte at a time, so that the last one completes the request.
            let mut request = bench.receive[..bench.state.held as usize].to_vec();
            request.push(rest[0]);
            let setting = matches!(bench.state.stage, Stage::Setting(_));
            let (fed, reply) = bench.feed(&rest[..1]);
            assert_eq!(fed.refusal, 0);
            if fed.count > 0 && !setting {
                record.push(Entry::Exchange { request, reply });
            }
            rest = &rest[1..];
        }
    }
    record
}

/// A line that is mostly sensible, with resets and broken packets in it.
pub fn some_line(dice: &mut Dice, id: &[u8; 16]) -> Vec<Option<Vec<u8>>> {
    let wake = hex("00 00 55");
    let mut line = vec![Some(wake.clone()), Some(command(0x30, id))];
    for _ in 0..60 {
        let unit = 0x80 * dice.below(12) as u32;
        let block = 0x200 * dice.below(3) as u32;
        let fill = dice.below(256) as u8;
        let size = *dice.pick(&[0x80, 0x100, 0x180, 0x10, 0x7F, 0]);
        let mut next = match dice.below(16) {
            0 | 1 => {
                line.push(None);
                line.push(Some(wake.clone()));
                command(0x30, id)
            }
            2 => hex(TOTAL_ERASE),
            3 => ranged(0x12, block, block + 0x1FF),
            4 => ranged(0x12, block, block + 0x1FE),
            5 => ranged(0x15, unit, 0x5FF),
            6 => hex(NEXT_READ),
            7 => ranged(0x13, 0x0100_0000, 0x0100_000F),
            8..=10 => ranged(0x13, unit, unit + 0x17F),
            _ => data(0x13, &vec![fill; size]),
        };
        if dice.below(12) == 0 {
            let place = dice.below(next.len());
            next[place] ^= 1 << dice.below(8);
        }
        if dice.below(12) == 0 {
            next.truncate(dice.below(next.len()));
        }
        line.push(Some(next));
    }
    line
}

pub fn small_profile() -> Profile {
    profile(&[
        area(0, 0, 0x3FF, 0x200, 0x80),
        area(1, 0x400, 0x5FF, 0x200, 0x80),
        area(2, 0x0100_0000, 0x0100_003F, 0, 0x10),
    ])
}

fn replayed(bench: &Bench, mut image: Vec<u8>, record: &[Entry]) -> Vec<u8> {
    let used = usize::from(bench.p.noa);
    replay(&bench.p.areas[..used], &mut image, record);
    image
}

#[test]
fn the_flash_is_the_record_replayed() {
    let mut written = 0;
    for seed in 0..120 {
        let mut dice = Dice::new(seed);
        let mut id = [0xFF; 16];
        if dice.below(2) == 0 {
            id = [*dice.pick(&[0xF0, 0xB0, 0x70]); 16];
        }
        let mut image: Vec<u8> = vec![0xFF; 0x640];
        image[0x600..0x610].copy_from_slice(&id);
        let mut bench = Bench::with(None, small_profile(), image.clone());
        let record = run(&mut bench, &some_line(&mut dice, &id));
        assert!(bench.image == replayed(&bench, image.clone(), &record));
        written += usize::from(bench.image != image);
    }
    // Lines that change nothing would show nothing.
    assert!(written > 30, "{written}");
}

#[test]
fn one_that_stores_the_first_packet_only_is_found_out() {
    let fault = Some(Fault::StoresFirstPacketOnly);
    let image = vec![0xFF; 0x640];
    let mut bench = Bench::with(fault, small_profile(), image.clone());
    let line = [
        Some(hex("00 00 55")),
        Some(ranged(0x13, 0, 0x17F)),
        Some(data(0x13, &[1; 0x80])),
        Some(data(0x13, &[2; 0x80])),
        Some(data(0x13, &[3; 0x80])),
    ];
    let record = run(&mut bench, &line);
    let told = replayed(&bench, image, &record);
    assert_eq!(told[..0x80], bench.image[..0x80]);
    assert_eq!(told[0x80..0x100], [2; 0x80]);
    assert_eq!(told[0x100..0x180], [3; 0x80]);
    assert_eq!(bench.image[0x80..], [0xFF; 0x5C0]);
}

#[test]
fn records_that_no_honest_device_makes() {
    let areas = [
        area(0, 0x100, 0x10F, 0x10, 1),
        area(2, 0x120, 0x12F, 0, 1),
        area(1, 0xFFFF_FFF0, 0xFFFF_FFFE, 0, 1),
    ];
    let exchange = |request: Vec<u8>, reply: &str| Entry::Exchange {
        request,
        reply: hex(reply),
    };
    let apply = |record: &[Entry]| {
        let mut image = vec![0x55; 16 + 16 + 15];
        replay(&areas, &mut image, record);
        image
    };
    let untouched = apply(&[]);
    let broken = |mut packet: Vec<u8>| {
        packet[5] ^= 1;
        packet
    };
    let idle = [
        Entry::Reset,
        // Data before any write command.
        exchange(data(0x13, &[1]), OK_WRITE),
        // Not answered OK, or with another OK, or not a good packet.
        exchange(ranged(0x12, 0x100, 0x10F), "81 00 02 92 D0 9C 03"),
        exchange(ranged(0x12, 0x100, 0x10F), OK_WRITE),
        exchange(ranged(0x12, 0x100, 0x10F), ""),
        exchange(broken(ranged(0x12, 0x100, 0x10F)), OK_ERASE),
        exchange(command(0x12, &[0; 7]), OK_ERASE),
        exchange(hex("01 01 01"), "81 00 02 80 C1 BD 03"),
        // Kinds of packets that have no effect.
        exchange(data(0x12, &[0, 0, 1, 0, 0, 0, 1, 0xF]), OK_ERASE),
        exchange(command(0x30, &[0xFF; 16]), OK_AUTHENTICATE),
        exchange(ranged(0x12, 0x10F, 0x100), OK_ERASE),
        exchange(ranged(0x12, 0x110, 0x11F), OK_ERASE),
    ];
    assert_eq!(apply(&idle), untouched);

    // Over the gap: what lands in no area is dropped.
    let bytes: Vec<u8> = (0..0x20).collect();
    let record = [
        exchange(ranged(0x13, 0x108, 0), OK_WRITE),
        Entry::Reset,
        exchange(data(0x13, &bytes), OK_WRITE),
        exchange(data(0x13, &[0xEE]), OK_WRITE),
    ];
    let mut expected = untouched.clone();
    expected[8..16].copy_from_slice(&bytes[..8]);
    expected[16..24].copy_from_slice(&bytes[0x18..]);
    expected[24] = 0xEE;
    assert_eq!(apply(&record), expected);

    // Over the top of the addresses, and an erase of everything.
    let record = [
        exchange(ranged(0x13, 0xFFFF_FFFC, 0), OK_WRITE),
        exchange(data(0x13, &bytes), OK_WRITE),
        exchange(data(0x13, &bytes), OK_WRITE),
    ];
    let mut expected = untouched.clone();
    expected[44..].copy_from_slice(&bytes[..3]);
    assert_eq!(apply(&record), expected);
    let record = [exchange(ranged(0x12, 0, 0xFFFF_FFFF), OK_ERASE)];
    assert_eq!(apply(&record), [0xFF; 47]);
    let record = [exchange(hex(TOTAL_ERASE), OK_AUTHENTICATE)];
    assert_eq!(apply(&record), [0xFF; 47]);
}
