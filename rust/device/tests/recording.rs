//! Records, read and written one by one.

use indraveck::recording::{
    append, read, records, write, Direction, Found, Record, Unreadable, UnreadableAt, Unwritable,
};
use indraveck::recording::{HEAD_BYTES, MOST_BYTES};
use std::error::Error;

/// An inquiry, its OK and a reset, as the protocol writes them out.
const EXAMPLE: [u8; 28] = [
    0x52, 0x4C, 0x48, 0x00, 0x06, 0x01, 0x00, 0x01, 0x00, 0xFF, 0x03, 0x52, 0x4C, 0x44, 0x00, 0x07,
    0x81, 0x00, 0x02, 0x00, 0x00, 0xFE, 0x03, 0x52, 0x4C, 0x52, 0x00, 0x00,
];

fn example() -> [Record<'static>; 3] {
    let record = |direction, bytes| Record { direction, bytes };
    [
        record(Direction::Host, &EXAMPLE[5..11]),
        record(Direction::Device, &EXAMPLE[16..23]),
        record(Direction::Reset, &[]),
    ]
}

/// A record of any direction that states the length of its bytes.
fn made(direction: u8, bytes: &[u8]) -> Vec<u8> {
    let length = (bytes.len() as u16).to_be_bytes();
    [&[0x52, 0x4C, direction], &length[..], bytes].concat()
}

#[test]
fn the_protocols_example_is_read_and_written() {
    let all: Result<Vec<Record>, UnreadableAt> = records(&EXAMPLE).collect();
    assert_eq!(all.as_deref(), Ok(&example()[..]));
    let mut recording = Vec::new();
    let mut buffer = [0; EXAMPLE.len()];
    let mut at = 0;
    for record in example() {
        append(&mut recording, record.direction.byte(), record.bytes).unwrap();
        at = write(&mut buffer, at, record.direction.byte(), record.bytes).unwrap();
        assert_eq!(at, recording.len());
    }
    assert_eq!(recording, EXAMPLE);
    assert_eq!(buffer, EXAMPLE);
}

#[test]
fn fields_are_judged_in_order_and_as_soon_as_they_are_whole() {
    use Unreadable::*;
    let mut judged = 0;
    for (bytes, reason) in [
        (&[0x52][..], CutShort),
        (&[0x00], CutShort),
        (&[0x52, 0x00], BadMark),
        (&[0x4C, 0x52], BadMark),
        (&[0x52, 0x4D, 0x49, 0xFF, 0xFF], BadMark),
        (&[0x52, 0x4C], CutShort),
        (&[0x52, 0x4C, 0x49], BadDirection),
        (&[0x52, 0x4C, 0x00, 0xFF, 0xFF], BadDirection),
        (&[0x52, 0x4C, 0x48], CutShort),
        (&[0x52, 0x4C, 0x48, 0xFF], CutShort),
        (&[0x52, 0x4C, 0x52, 0x01], CutShort),
        (&[0x52, 0x4C, 0x48, 0xFF, 0xFF], BadLength),
        (&[0x52, 0x4C, 0x48, 0x04, 0x07], BadLength),
        (&[0x52, 0x4C, 0x48, 0x00, 0x00], BadLength),
        (&[0x52, 0x4C, 0x44, 0x00, 0x00], BadLength),
        (&[0x52, 0x4C, 0x52, 0x00, 0x01], BadLength),
        (&[0x52, 0x4C, 0x52, 0x00, 0x01, 0x00], BadLength),
        (&[0x52, 0x4C, 0x48, 0x04, 0x06], CutShort),
        (&[0x52, 0x4C, 0x44, 0x00, 0x02, 0x81], CutShort),
    ] {
        assert_eq!(read(bytes, 0), Err(reason), "{:02X?}", bytes);
        // the same behind a record
        let recording = [&EXAMPLE[..], bytes].concat();
        assert_eq!(read(&recording, EXAMPLE.len()), Err(reason));
        let place = EXAMPLE.len();
        let last = records(&recording).last();
        assert_eq!(last, Some(Err(UnreadableAt { place, reason })));
        judged += 1;
    }
    assert_eq!(judged, 19);
}

#[test]
fn the_end_is_one_place() {
    for recording in [&[][..], &EXAMPLE] {
        let end = recording.len();
        assert_eq!(read(recording, end), Ok(Found::End));
        for at in [end + 1, end + 5, usize::MAX / 2, usize::MAX - 4, usize::MAX] {
            assert_eq!(read(recording, at), Err(Unreadable::CutShort));
        }
    }
    assert_eq!(records(&[]).next(), None);
}

#[test]
fn a_direction_is_one_of_three_bytes() {
    let mut known = Vec::new();
    for byte in 0..=0xFF {
        let recording = made(byte, if byte == 0x52 { &[] } else { &[0x81] });
        let mut buffer = [0xEE; 6];
        let written = write(&mut buffer, 0, byte, &recording[5..]);
        match Direction::of_byte(byte) {
            Some(direction) => {
                assert_eq!(direction.byte(), byte);
                let record = Record {
                    direction,
                    bytes: &recording[5..],
                };
                let next = recording.len();
                assert_eq!(read(&recording, 0), Ok(Found::Record { record, next }));
                assert_eq!(written, Ok(next));
                assert_eq!(buffer[..next], recording);
                known.push(direction);
            }
            None => {
                assert_eq!(read(&recording, 0), Err(Unreadable::BadDirection));
                assert_eq!(written, Err(Unwritable::BadDirection));
                assert_eq!(buffer, [0xEE; 6]);
            }
        }
    }
    assert_eq!(
        known,
        [Direction::Device, Direction::Host, Direction::Reset]
    );
}

#[test]
fn lengths_are_1_to_1030_and_a_resets_0() {
    let bytes = [0x5A; MOST_BYTES + 1];
    for (direction, length, good) in [
        (Direction::Host, 0, false),
        (Direction::Host, 1, true),
        (Direction::Host, MOST_BYTES, true),
        (Direction::Host, MOST_BYTES + 1, false),
        (Direction::Device, 0, false),
        (Direction::Device, 1, true),
        (Direction::Device, MOST_BYTES, true),
        (Direction::Device, MOST_BYTES + 1, false),
        (Direction::Reset, 0, true),
        (Direction::Reset, 1, false),
        (Direction::Reset, MOST_BYTES, false),
    ] {
        let bytes = &bytes[..length];
        let recording = made(direction.byte(), bytes);
        let mut grown = vec![0xA1, 0xA2];
        let appended = append(&mut grown, direction.byte(), bytes);
        if good {
            let record = Record { direction, bytes };
            let next = HEAD_BYTES + length;
            assert_eq!(read(&recording, 0), Ok(Found::Record { record, next }));
            assert_eq!(appended, Ok(()));
            assert_eq!(grown, [&[0xA1, 0xA2], &recording[..]].concat());
        } else {
            assert_eq!(read(&recording, 0), Err(Unreadable::BadLength));
            assert_eq!(appended, Err(Unwritable::BadLength));
            assert_eq!(grown, [0xA1, 0xA2]);
        }
    }
}

#[test]
fn a_record_fits_whole_or_is_not_written() {
    let host = Direction::Host.byte();
    let reply = [0x81, 0x00, 0x02];
    for room in 0..16 {
        for at in (0..18).chain([usize::MAX - 8, usize::MAX - 7, usize::MAX]) {
            let mut buffer = vec![0xEE; room];
            let mut expected = buffer.clone();
            let written = write(&mut buffer, at, host, &reply);
            if at <= room && room - at >= 8 {
                expected[at..at + 8].copy_from_slice(&made(host, &reply));
                assert_eq!(written, Ok(at + 8));
            } else {
                assert_eq!(written, Err(Unwritable::NoRoom));
            }
            assert_eq!(buffer, expected);
        }
    }
}

#[test]
fn the_first_fault_of_a_record_is_told() {
    let mut none: [u8; 0] = [];
    let far = usize::MAX;
    let reset = Direction::Reset.byte();
    // the numbers of refusals are bad directions too, and never taken for written records
    for direction in [0x00, 0x02, 0x03, 0x05, 0x06, 0x49] {
        let written = write(&mut none, far, direction, &[]);
        assert_eq!(written, Err(Unwritable::BadDirection));
    }
    let written = write(&mut none, far, reset, &[0x00]);
    assert_eq!(written, Err(Unwritable::BadLength));
    let written = write(&mut none, far, reset, &[]);
    assert_eq!(written, Err(Unwritable::NoRoom));
}

#[test]
fn records_end_behind_the_one_that_cannot_be_read() {
    // the last record would be readable, if anybody went on behind the broken one
    let broken = [&EXAMPLE[..11], &[0x00], &EXAMPLE[11..]].concat();
    let mut read = records(&broken);
    assert_eq!(read.place(), 0);
    assert_eq!(read.next(), Some(Ok(example()[0])));
    assert_eq!(read.place(), 11);
    let error = UnreadableAt {
        place: 11,
        reason: Unreadable::BadMark,
    };
    assert_eq!(read.next(), Some(Err(error)));
    assert_eq!(read.place(), 11);
    assert_eq!((read.next(), read.next()), (None, None));
}

#[test]
fn errors_say_what_to_do() {
    let errors: [&dyn Error; 7] = [
        &Unreadable::BadMark,
        &Unreadable::BadDirection,
        &Unreadable::BadLength,
        &Unreadable::CutShort,
        &Unwritable::BadDirection,
        &Unwritable::BadLength,
        &Unwritable::NoRoom,
    ];
    let words: Vec<String> = errors.iter().map(|error| error.to_string()).collect();
    for (at, told) in words.iter().enumerate() {
        let (what, to_do) = told
            .split_once(": ")
            .expect("what is wrong, then what to do");
        assert!(what.len() > 20 && to_do.len() > 10, "{}", told);
        assert!(!words[..at].contains(told), "told twice: {}", told);
    }
    let place = 1234;
    for reason in [Unreadable::BadMark, Unreadable::CutShort] {
        let told = UnreadableAt { place, reason }.to_string();
        assert_eq!(told, format!("at byte 1234 of the recording: {}", reason));
    }
}
