//! A cloned device, and devices on several threads.

mod common;

use common::{awake, blank, range, session, write_data};
use indraveck::{Device, Stage};
use std::thread;

const OK_13: [u8; 7] = [0x81, 0x00, 0x02, 0x13, 0x00, 0xEB, 0x03];

/// In the middle of the first data packet of a write of 256 bytes at 2000h.
fn in_a_packet() -> (Device<Vec<u8>>, Vec<u8>) {
    let mut device = awake();
    let data = write_data(7);
    assert_eq!(device.feed_all(&range(0x13, 0x2000, 0x20FF)), OK_13);
    assert_eq!(device.feed_all(&data[..50]), []);
    (device, data)
}

#[test]
fn a_snapshot_in_the_middle_of_a_packet_goes_on_as_the_device_does() {
    let (mut device, data) = in_a_packet();
    let mut snapshot = device.clone();
    let rest = [&data[50..], &write_data(9), &range(0x15, 0x1FFF, 0x2101)].concat();
    let replies = device.feed_each(&rest);
    assert_eq!(replies.len(), 3);
    assert_eq!(replies[..2], [OK_13, OK_13]);
    assert_eq!(snapshot.feed_each(&rest), replies);
    assert_eq!(snapshot.image(), device.image());
    assert_eq!(snapshot.save(), device.save());
}

#[test]
fn a_snapshot_and_its_device_are_independent() {
    let (mut device, data) = in_a_packet();
    let snapshot = device.clone();
    let saved = snapshot.save();
    device.feed(&data[50..], |_| ());
    device.image_mut()[0] = 0;
    device.reset();
    assert_eq!(device.image()[0x2000], 7);
    assert!(snapshot.image().iter().all(|byte| *byte == 0xFF));
    assert_eq!(snapshot.save(), saved);
    assert_eq!(snapshot.state().held, 50);
    let writing = Stage::Writing {
        next: 0x2000,
        left: 0x100,
    };
    assert_eq!(snapshot.state().stage, writing);
}

#[test]
fn devices_on_several_threads_do_not_disturb_each_other() {
    let line = session();
    let mut alone = blank();
    let replies = alone.feed_all(&line);
    let threads: Vec<_> = (0..4)
        .map(|_| {
            let line = line.clone();
            thread::spawn(move || {
                let mut device = blank();
                let mut replies = Vec::new();
                for byte in line {
                    replies.extend(device.feed_all(&[byte]));
                }
                (replies, device)
            })
        })
        .collect();
    for thread in threads {
        let (here, device) = thread.join().unwrap();
        assert_eq!(here, replies);
        assert_eq!(device.image(), alone.image());
        assert_eq!(device.save(), alone.save());
    }
}
