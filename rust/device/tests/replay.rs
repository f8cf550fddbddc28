//! The replay: a device's own line, recorded as it went, makes its image again.

mod common;

use common::{packet, range};
use indraveck::recording::{append, records, Direction, Unreadable, UnreadableAt};
use indraveck::{replay, Area, Device, Ended, Kind, Profile, Refusal, Replayed};

fn record(recording: &mut Vec<u8>, direction: Direction, bytes: &[u8]) {
    append(recording, direction.byte(), bytes).unwrap();
}

/// A bench device's image before and after an erase, a write and a refused write, and the recording of its line.
fn session() -> (Vec<u8>, Vec<u8>, Vec<u8>) {
    let profile = Profile::bench();
    let mut before = vec![0x5A; profile.total() as usize];
    before[0x1_0000..].fill(0xFF);
    let mut device = Device::start(&profile, before.clone()).unwrap();
    device.feed(&[0x00, 0x00, 0x55], |_| ());
    let data: Vec<u8> = (0..128).collect();
    let mut contents = vec![0x13];
    contents.extend_from_slice(&data);
    let requests = [
        range(0x12, 0x2000, 0x3FFF),
        range(0x13, 0x2000, 0x207F),
        packet(0x81, &contents),
        range(0x13, 0x2000, 0x2001),
    ];
    let mut recording = Vec::new();
    for request in &requests {
        record(&mut recording, Direction::Host, request);
        device.feed(request, |reply| {
            record(&mut recording, Direction::Device, reply)
        });
    }
    (before, device.into_image(), recording)
}

#[test]
fn a_recorded_line_makes_the_image_again() {
    let (before, after, recording) = session();
    assert_ne!(before, after);
    assert_eq!(after[0x2000..0x2003], [0, 1, 2]);
    let mut image = before;
    let replayed = replay(&Profile::bench(), &mut image, &recording).unwrap();
    assert_eq!(replayed.read, recording.len());
    assert_eq!(replayed.ended, Ended::AtEnd);
    assert_eq!(replayed.whole(), Ok(()));
    assert_eq!(image, after);
}

/// What is read of a recording, and that the image is then what it should be.
fn replayed(before: &[u8], recording: &[u8], expected: &[u8]) -> Replayed {
    let mut image = before.to_vec();
    let replayed = replay(&Profile::bench(), &mut image, recording).unwrap();
    assert_eq!(image, expected);
    replayed
}

#[test]
fn a_record_that_cannot_be_read_ends_the_reading() {
    let (before, after, recording) = session();
    let read = recording.len();
    // behind the record that cannot be read everything is erased: that has to be left
    let mut erased = Vec::new();
    record(&mut erased, Direction::Host, &range(0x12, 0, 0xFFFF));
    let ok = packet(0x81, &[0x12, 0x00]);
    record(&mut erased, Direction::Device, &ok);
    let blank = vec![0xFF; before.len()];
    assert_eq!(replayed(&before, &erased, &blank).whole(), Ok(()));
    let longer = [&[0x52, 0x4C, 0x48, 0x04, 0x07][..], &[0x00; 1031]].concat();
    let unreadable: [(&[u8], Unreadable); 6] = [
        (&[0x00], Unreadable::BadMark),
        (&[0x52, 0x4C, 0x00], Unreadable::BadDirection),
        (&[0x52, 0x4C, 0x44, 0x00, 0x00], Unreadable::BadLength),
        (&[0x52, 0x4C, 0x52, 0x00, 0x01, 0x00], Unreadable::BadLength),
        (&longer, Unreadable::BadLength),
        (&[0x52, 0x4C, 0x44, 0x04, 0x06], Unreadable::CutShort),
    ];
    for (bytes, reason) in unreadable {
        let broken = [&recording, bytes, &erased].concat();
        let ended = Ended::Unreadable(reason);
        let stopped = replayed(&before, &broken, &after);
        assert_eq!(stopped, Replayed { read, ended });
        let place = read;
        assert_eq!(stopped.whole(), Err(UnreadableAt { place, reason }));
    }
}

#[test]
fn a_replay_ends_where_reading_the_records_ends() {
    let (before, _, recording) = session();
    let mut whole = 0;
    for cut in 0..=recording.len() {
        let mut image = before.clone();
        let replayed = replay(&Profile::bench(), &mut image, &recording[..cut]).unwrap();
        let mut read = records(&recording[..cut]);
        let unreadable = read.by_ref().find_map(|record| record.err());
        assert_eq!(replayed.whole().err(), unreadable, "cut at {}", cut);
        assert_eq!(replayed.read, read.place(), "cut at {}", cut);
        whole += usize::from(unreadable.is_none());
    }
    // in front of the first record, and behind each: four requests and their replies
    assert_eq!(whole, 9);
}

#[test]
fn a_refused_replay_leaves_the_image() {
    let (before, _, recording) = session();
    let mut image = before[1..].to_vec();
    let error = replay(&Profile::bench(), &mut image, &recording);
    assert_eq!(error, Err(Refusal::WrongImageLength));
    assert_eq!(image, before[1..]);
    let area = Area {
        kind: Kind::User,
        sad: 0,
        ead: 0,
        eau: 0,
        wau: 0,
    };
    for profile in [
        Profile {
            sci: 0,
            ..Profile::bench()
        },
        Profile {
            areas: vec![area; 9],
            ..Profile::bench()
        },
    ] {
        let mut image = before.clone();
        let error = replay(&profile, &mut image, &recording);
        assert_eq!(error, Err(Refusal::UnacceptableProfile));
        assert_eq!(image, before);
    }
}
