//! A device that is saved and resumed, and saved states that are refused.

mod common;

use common::{awake, blank, range, session, write_data};
use indraveck::{raw, Device, Profile, Refusal, Saved, BUFFER_BYTES, STATE_BYTES};

#[test]
fn a_device_that_is_resumed_behind_any_byte_goes_on_as_if_unbroken() {
    let line = session();
    let mut unbroken = blank();
    let expected = unbroken.feed_all(&line);
    for cut in 0..=line.len() {
        let mut device = blank();
        let mut replies = device.feed_all(&line[..cut]);
        let saved = Saved::from_bytes(&device.save().to_bytes()).unwrap();
        let image = device.into_image();
        let mut device = Device::resume(&Profile::bench(), image, &saved).unwrap();
        assert_eq!(device.save(), saved);
        replies.extend(device.feed_all(&line[cut..]));
        assert_eq!(replies, expected, "resumed behind byte {}", cut);
        assert_eq!(device.image(), unbroken.image());
        assert_eq!(device.save(), unbroken.save());
    }
}

#[test]
fn a_device_can_be_saved_behind_every_byte() {
    let line = session();
    let mut unbroken = blank();
    let mut device = blank();
    for byte in &line {
        let saved = device.save();
        device = Device::resume(&Profile::bench(), device.into_image(), &saved).unwrap();
        assert_eq!(device.feed_all(&[*byte]), unbroken.feed_all(&[*byte]));
    }
    assert_eq!(device.image(), unbroken.image());
}

/// Of a device that holds 50 bytes of write data, with a write of 256 bytes at 2000h under way.
fn in_a_packet() -> (Vec<u8>, Vec<u8>) {
    let mut device = awake();
    device.feed(&range(0x13, 0x2000, 0x20FF), |_| ());
    device.feed(&write_data(7)[..50], |_| ());
    let saved = device.save().to_bytes();
    (saved, device.into_image())
}

fn refusal_of(bytes: &[u8], image: &mut [u8]) -> Option<Refusal> {
    let saved = Saved::from_bytes(bytes).unwrap();
    let resumed = Device::resume(&Profile::bench(), image, &saved);
    resumed.err().map(|error| error.refusal)
}

#[test]
fn a_state_that_does_not_fit_is_refused() {
    let (good, mut image) = in_a_packet();
    let changes: [(&str, usize, &[u8]); 9] = [
        ("stage 5, which is none", 0, &[5]),
        ("low pulses outside setting", 1, &[1]),
        ("a range outside its area", 2, &[0xFF]),
        ("a range that is not aligned", 5, &[0x01]),
        ("nothing left to write", 6, &[0, 0, 0, 0]),
        ("held bytes in setting", 0, &[0, 0, 0, 0, 0, 0, 0, 0, 0, 0]),
        ("held bytes of the wrong kind", 33, &[0x01]),
        ("a length that is not permitted", 34, &[0xFF]),
        ("a packet that is complete", 35, &[0x01]),
    ];
    assert_eq!(refusal_of(&good, &mut image), None);
    for (what, at, bytes) in changes {
        let mut unfit = good.clone();
        unfit[at..at + bytes.len()].copy_from_slice(bytes);
        let refusal = refusal_of(&unfit, &mut image);
        assert_eq!(refusal, Some(Refusal::UnfitState), "{}", what);
    }
    let mut too_many = good;
    too_many[29..33].copy_from_slice(&2000u32.to_be_bytes());
    too_many.resize(STATE_BYTES + 2000, 0);
    let refusal = refusal_of(&too_many, &mut image);
    assert_eq!(refusal, Some(Refusal::UnfitState));
}

/// What the library says to a feed with the same state and held bytes.
fn library_says(bytes: &[u8], image: &mut [u8]) -> Result<(), Refusal> {
    let profile = Profile::bench().to_bytes().unwrap();
    let (state, held) = bytes.split_at(STATE_BYTES);
    let (mut receive, mut reply) = ([0xA5; BUFFER_BYTES], [0; BUFFER_BYTES]);
    receive[..held.len()].copy_from_slice(held);
    let mut state = state.to_vec();
    let fed = raw::feed(
        &profile,
        image,
        &mut state,
        &mut receive,
        &mut reply,
        &[0x00],
    );
    Refusal::check(fed.refusal)
}

#[test]
fn resuming_is_refused_exactly_where_feeding_is() {
    let (good, mut image) = in_a_packet();
    let mut refused = 0;
    for at in (0..29).chain(33..good.len()) {
        for value in 0..=255 {
            let mut bytes = good.clone();
            bytes[at] = value;
            let resumed = refusal_of(&bytes, &mut image);
            assert_eq!(resumed, library_says(&bytes, &mut image).err());
            refused += usize::from(resumed.is_some());
        }
    }
    assert!(refused > 1000, "only {} were refused", refused);
}

#[test]
fn a_refused_resumption_gives_the_image_back_and_says_the_first_reason() {
    let (mut bytes, image) = in_a_packet();
    bytes[0] = 5;
    let unfit = Saved::from_bytes(&bytes).unwrap();
    let no_clock = Profile {
        sci: 0,
        ..Profile::bench()
    };
    let mut nine_areas = Profile::bench();
    nine_areas.areas = vec![nine_areas.areas[0]; 9];
    for (profile, image, refusal) in [
        (&no_clock, vec![1, 2, 3], Refusal::UnacceptableProfile),
        (&nine_areas, vec![1, 2, 3], Refusal::UnacceptableProfile),
        (&Profile::bench(), vec![1, 2, 3], Refusal::WrongImageLength),
        (&Profile::bench(), image, Refusal::UnfitState),
    ] {
        let error = Device::resume(profile, image.clone(), &unfit).unwrap_err();
        assert_eq!(error.refusal, refusal);
        assert_eq!(error.image, image);
    }
}

#[test]
fn bytes_that_are_no_saved_state_are_refused() {
    let (bytes, _) = in_a_packet();
    assert_eq!(bytes.len(), STATE_BYTES + 50);
    for length in 0..bytes.len() {
        let refused = Saved::from_bytes(&bytes[..length]);
        assert_eq!(refused, Err(Refusal::UnfitState));
    }
    let longer = [&bytes[..], &[0]].concat();
    assert_eq!(Saved::from_bytes(&longer), Err(Refusal::UnfitState));
}

#[test]
fn a_saved_state_is_shown_in_short() {
    let (bytes, _) = in_a_packet();
    let saved = Saved::from_bytes(&bytes).unwrap();
    assert_eq!(format!("{:?}", saved), "Saved { stage: 3, held: 50, .. }");
    assert_ne!(saved, blank().save());
}
