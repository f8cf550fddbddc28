//! Recordings as bytes: records read, written and replayed.

use crate::bench::*;
use indraveck_model::*;

/// A record of any direction that states the length of its contents.
pub fn record(direction: u8, contents: &[u8]) -> Vec<u8> {
    let length = (contents.len() as u16).to_be_bytes();
    [&[0x52, 0x4C, direction], &length[..], contents].concat()
}

/// An erase of the first block, and its OK.
pub fn erased() -> [Vec<u8>; 2] {
    [
        record(0x48, &ranged(0x12, 0, 0x1FFF)),
        record(0x44, &hex(OK_ERASE)),
    ]
}

#[test]
fn fields_are_judged_one_by_one() {
    let table = [
        ("", 6),
        ("52", 4),
        ("00", 4),
        ("52 00", 1),
        ("4C 52", 1),
        ("00 4C 49 FF FF", 1),
        ("52 4C", 4),
        ("52 4C 49", 2),
        ("52 4C 00 00 00", 2),
        ("52 4C 48", 4),
        ("52 4C 48 FF", 4),
        ("52 4C 52 00", 4),
        ("52 4C 48 FF FF", 3),
        ("52 4C 48 04 07", 3),
        ("52 4C 44 00 00", 3),
        ("52 4C 52 00 01", 3),
        ("52 4C 48 04 06", 4),
        ("52 4C 48 00 02 00", 4),
    ];
    for (bytes, answer) in table {
        let bytes = hex(bytes);
        for before in [0, 1, 9] {
            let recording = [vec![0x52; before], bytes.clone()].concat();
            let (from, to) = (before, before);
            let found = Found { answer, from, to };
            assert_eq!(read_record(&recording, before), found, "{bytes:02X?}");
        }
    }
}

#[test]
fn records_of_every_length_are_read_and_written() {
    for direction in [0x48, 0x44, 0x52] {
        for count in 0..=1032 {
            let contents = vec![0x4C; count];
            let recording = record(direction, &contents);
            let good = if direction == 0x52 {
                count == 0
            } else {
                (1..=1030).contains(&count)
            };
            let (answer, from, to) = match good {
                true => (u32::from(direction), 5, 5 + count),
                false => (3, 0, 0),
            };
            assert_eq!(read_record(&recording, 0), Found { answer, from, to });
            let mut buffer = vec![UNTOUCHED; 5 + count];
            let written = write_record(&mut buffer, 0, direction.into(), &contents);
            match good {
                true => {
                    assert_eq!(written, (7, to));
                    assert_eq!(buffer, recording);
                }
                false => {
                    assert_eq!(written, (answer, to));
                    assert!(buffer.iter().all(|byte| *byte == UNTOUCHED));
                }
            }
        }
    }
}

#[test]
fn places_behind_the_end_are_cut_short() {
    let recording = hex("52 4C 52 00 00");
    for at in [6, 10, usize::MAX - 5, usize::MAX] {
        let (answer, from, to) = (4, at, at);
        assert_eq!(read_record(&recording, at), Found { answer, from, to });
    }
    let (answer, from, to) = (6, 5, 5);
    assert_eq!(read_record(&recording, 5), Found { answer, from, to });
}

#[test]
fn what_cannot_be_written_leaves_the_buffer() {
    let table = [
        (0x49, 0, 0, 2),
        (2, 0, 1, 2),
        (0x148, 0, 1, 2),
        (u32::MAX, usize::MAX, 0, 2),
        (0x48, usize::MAX, 0, 3),
        (0x44, 0, 1031, 3),
        (0x52, 99, 1, 3),
        (0x48, 5, 1, 5),
        (0x48, 0, 6, 5),
        (0x52, 6, 0, 5),
        (0x52, usize::MAX - 4, 0, 5),
        (0x48, usize::MAX, 1, 5),
    ];
    for (direction, at, count, answer) in table {
        let mut buffer = [UNTOUCHED; 10];
        let written = write_record(&mut buffer, at, direction, &vec![1; count]);
        assert_eq!(written, (answer, at), "{direction:X}h at {at}");
        assert_eq!(buffer, [UNTOUCHED; 10]);
    }
    let mut buffer = [UNTOUCHED; 10];
    assert_eq!(write_record(&mut buffer, 3, 0x48, &[9, 8]), (7, 10));
    assert_eq!(buffer[..3], [UNTOUCHED; 3]);
    assert_eq!(buffer[3..], [0x52, 0x4C, 0x48, 0, 2, 9, 8]);
}

#[test]
fn a_recording_is_replayed_up_to_what_cannot_be_read() {
    let p = bench_profile();
    let size = total(&p) as usize;
    let [request, reply] = erased();
    let whole = [&request[..], &reply].concat();
    let reset = hex("52 4C 52 00 00");
    let strays = [
        [&request[..], &reset, &reply].concat(),
        [&reply[..], &request].concat(),
        [&request[..], &record(0x48, &[0x55]), &reply].concat(),
        record(0x48, &request[5..]),
    ];
    let run = |recording: &[u8], missing: usize| {
        let mut image = vec![0x5A; size - missing];
        let told = replay_recording(&p, &mut image, recording);
        let erased = image.iter().filter(|byte| **byte == 0xFF).count();
        (told.refusal, told.read, told.ended, erased)
    };
    assert_eq!(run(&[], 0), (0, 0, 6, 0));
    assert_eq!(run(&whole, 0), (0, whole.len(), 6, 0x2000));
    assert_eq!(run(&whole, 1), (1, 0, 0, 0));
    for stray in strays {
        assert_eq!(run(&stray, 0), (0, stray.len(), 6, 0));
    }
    for (rest, ended) in [
        ("00 00", 1),
        ("52 4C 00", 2),
        ("52 4C 44 00 00", 3),
        ("52 4C 44 04 06", 4),
    ] {
        let broken = [&whole[..], &hex(rest)].concat();
        assert_eq!(run(&broken, 0), (0, whole.len(), ended, 0x2000));
        let broken = [&hex(rest)[..], &whole].concat();
        assert_eq!(run(&broken, 0), (0, 0, ended, 0));
    }
    let unacceptable = Profile { sci: 0, ..p };
    let mut image = vec![0x5A; size];
    let told = replay_recording(&unacceptable, &mut image, &whole);
    assert_eq!((told.refusal, told.read, told.ended), (4, 0, 0));
    assert!(image.iter().all(|byte| *byte == 0x5A));
}
