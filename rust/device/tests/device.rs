//! The wrapper: owned devices, replies in order, refusals in words.

mod common;

use common::{packet, range, write_data, WAKE};
use indraveck::{Area, Device, Kind, Profile, Refusal, Stage};
use std::error::Error;
use std::panic::{catch_unwind, AssertUnwindSafe};

const OK_13: [u8; 7] = [0x81, 0x00, 0x02, 0x13, 0x00, 0xEB, 0x03];
const OK_12: [u8; 7] = [0x81, 0x00, 0x02, 0x12, 0x00, 0xEC, 0x03];

fn awake() -> Device<Vec<u8>> {
    let profile = Profile::bench();
    let image = vec![0xFF; profile.total() as usize];
    let mut device = Device::start(&profile, image).unwrap();
    let mut replies = Vec::new();
    device.feed(&WAKE, |reply| replies.push(reply.to_vec()));
    assert_eq!(replies, [vec![0x00], vec![0xC3]]);
    device
}

#[test]
fn a_session_in_one_delivery() {
    let mut device = awake();
    assert_eq!(device.state().stage, Stage::Command);
    let data: Vec<u8> = (0..128).collect();
    let mut contents = vec![0x13];
    contents.extend_from_slice(&data);
    let mut line = range(0x13, 0x2000, 0x20FF);
    line.extend(packet(0x81, &contents));
    let mut replies = Vec::new();
    device.feed(&line, |reply| replies.push(reply.to_vec()));
    assert_eq!(replies, [OK_13.to_vec(), OK_13.to_vec()]);
    assert_eq!(&device.image()[0x2000..0x2080], &data[..]);
    assert!(device.image()[0x2080..].iter().all(|b| *b == 0xFF));
    let writing = Stage::Writing {
        next: 0x2080,
        left: 0x80,
    };
    assert_eq!(device.state().stage, writing);
    assert_eq!(device.payload(contents.len() + 5), Some(&contents[..]));
    assert_eq!(device.payload(contents.len() + 4), None);
}

#[test]
fn a_reset_keeps_the_flash() {
    let mut device = awake();
    device.feed(&range(0x12, 0, 0x1FFF), |reply| assert_eq!(reply, OK_12));
    device.feed(&[0x01, 0x00], |_| panic!("no reply to two bytes"));
    assert_eq!(device.state().held, 2);
    device.reset();
    assert_eq!(device.state().held, 0);
    assert_eq!(device.state().stage, Stage::Setting { low_pulses: 0 });
    assert!(device.into_image().iter().all(|b| *b == 0xFF));
}

#[test]
fn a_refused_start_gives_the_image_back() {
    let profile = Profile::bench();
    let error = Device::start(&profile, vec![0x5A; 3]).err().unwrap();
    assert_eq!(error.refusal, Refusal::WrongImageLength);
    assert_eq!(error.image, [0x5A; 3]);
    assert!(error.to_string().contains("as long as"));
    let no_clock = Profile {
        sci: 0,
        ..Profile::bench()
    };
    let image = vec![0; no_clock.total() as usize];
    let error = Device::start(&no_clock, image).err().unwrap();
    assert_eq!(error.refusal, Refusal::UnacceptableProfile);
    let area = Area {
        kind: Kind::Data,
        sad: 0,
        ead: 0,
        eau: 0,
        wau: 0,
    };
    let too_many = Profile {
        areas: vec![area; 9],
        ..Profile::bench()
    };
    let error = Device::start(&too_many, vec![0; 9]).err().unwrap();
    assert_eq!(error.refusal.number(), 4);
}

#[test]
fn replies_come_back_together_or_one_by_one() {
    let inquiry = packet(0x01, &[0x00]);
    let ok = packet(0x81, &[0x00, 0x00]);
    let line = [&inquiry[..], &inquiry, &inquiry[..3]].concat();
    assert_eq!(awake().feed_all(&line), [&ok[..], &ok].concat());
    let mut device = awake();
    assert_eq!(device.feed_each(&line), [&ok[..], &ok]);
    assert_eq!(device.state().held, 3);
    assert_eq!(device.feed_all(&[]), []);
    assert_eq!(device.feed_each(&[]), Vec::<Vec<u8>>::new());
}

#[test]
fn a_device_sees_what_was_changed_behind_its_back() {
    let mut device = awake();
    device.image_mut()[0x207F] = 0xFE;
    assert_eq!(device.feed_all(&range(0x13, 0x2000, 0x207F)), OK_13);
    let not_blank = [0x81, 0x00, 0x02, 0x93, 0xE2, 0x89, 0x03];
    assert_eq!(device.feed_all(&write_data(0)), not_blank);
    let read = device.feed_all(&range(0x15, 0x207F, 0x207F));
    assert_eq!(read, packet(0x81, &[0x15, 0xFE]));
}

#[test]
fn an_image_of_another_length_is_refused_until_it_has_its_length_back() {
    let mut device = awake();
    let inquiry = packet(0x01, &[0x00]);
    device.feed(&inquiry[..3], |_| panic!("no reply to three bytes"));
    let saved = device.save();
    let last = device.image_mut().pop().unwrap();
    let refused = device.try_feed_once(&inquiry[3..]).unwrap_err();
    assert_eq!(refused, Refusal::WrongImageLength);
    assert_eq!(device.try_reset(), Err(Refusal::WrongImageLength));
    let feeding = catch_unwind(AssertUnwindSafe(|| device.feed_all(&inquiry[3..])));
    assert!(feeding.is_err(), "feed_all says that it panics");
    assert_eq!(device.save(), saved);
    device.image_mut().push(last);
    let (consumed, reply) = device.try_feed_once(&inquiry[3..]).unwrap();
    assert_eq!((consumed, reply), (3, &packet(0x81, &[0x00, 0x00])[..]));
    assert_eq!(device.try_reset(), Ok(()));
}

#[test]
fn a_device_is_shown_in_short() {
    let mut device = awake();
    device.feed(&range(0x13, 0x2000, 0x207F)[..5], |_| ());
    let shown = format!("{:?}", device);
    let expected =
        "Device { areas: 2, sci: 60000000, stage: Command, held: 5, image_len: 65792, .. }";
    assert_eq!(shown, expected);
}

/// Lends its bytes and does nothing else: it cannot be shown or cloned.
struct Plain(Vec<u8>);

impl AsRef<[u8]> for Plain {
    fn as_ref(&self) -> &[u8] {
        &self.0
    }
}

impl AsMut<[u8]> for Plain {
    fn as_mut(&mut self) -> &mut [u8] {
        &mut self.0
    }
}

#[test]
fn an_error_is_shown_in_short_whatever_the_image_is() {
    let started = |length| -> Result<Device<Plain>, Box<dyn Error>> {
        Ok(Device::start(&Profile::bench(), Plain(vec![0x5A; length]))?)
    };
    assert!(started(65792).is_ok());
    let error = started(65793).unwrap_err();
    let expected = "StartError { refusal: WrongImageLength, .. }";
    assert_eq!(format!("{:?}", error), expected);
    assert_eq!(error.to_string(), Refusal::WrongImageLength.to_string());
}
