//! Packets and sessions, for the tests of the wrapper.

// each test file is a program of its own, and uses what it needs
#![allow(dead_code)]

use indraveck::{Device, Profile};

pub const WAKE: [u8; 3] = [0x00, 0x00, 0x55];

/// With its length, SUM and ETX.
pub fn packet(start: u8, contents: &[u8]) -> Vec<u8> {
    let mut bytes = vec![start];
    bytes.extend_from_slice(&(contents.len() as u16).to_be_bytes());
    bytes.extend_from_slice(contents);
    let sum = bytes[1..].iter().fold(0u8, |sum, b| sum.wrapping_add(*b));
    bytes.push(sum.wrapping_neg());
    bytes.push(0x03);
    bytes
}

/// A command for a range of addresses.
pub fn range(com: u8, sad: u32, ead: u32) -> Vec<u8> {
    let mut contents = vec![com];
    contents.extend_from_slice(&sad.to_be_bytes());
    contents.extend_from_slice(&ead.to_be_bytes());
    packet(0x01, &contents)
}

/// A data packet of 128 bytes for a write.
pub fn write_data(first: u8) -> Vec<u8> {
    let data = (0..128).map(|n| first.wrapping_add(n));
    let contents: Vec<u8> = [0x13].iter().copied().chain(data).collect();
    packet(0x81, &contents)
}

/// A device of the bench profile, with a blank flash.
pub fn blank() -> Device<Vec<u8>> {
    let profile = Profile::bench();
    let image = vec![0xFF; profile.total() as usize];
    Device::start(&profile, image).unwrap()
}

/// The same, awake.
pub fn awake() -> Device<Vec<u8>> {
    let mut device = blank();
    assert_eq!(device.feed_all(&WAKE), [0x00, 0xC3]);
    device
}

/// A line that goes through every stage but authentication, with bytes that are skipped and packets that are refused.
pub fn session() -> Vec<u8> {
    [
        vec![0x00, 0x12, 0x00, 0x00, 0x00, 0x55, 0xAA, 0x55],
        packet(0x01, &[0x3A]),
        vec![0x01, 0x00, 0x00],
        packet(0x01, &[0x34, 0x00, 0x0F, 0x42, 0x40]),
        range(0x12, 0x2000, 0x3FFF),
        range(0x13, 0x2000, 0x20FF),
        vec![0x01, 0x7F],
        write_data(0),
        write_data(100),
        range(0x13, 0x2080, 0x20FF),
        write_data(0),
        range(0x15, 0x1FF0, 0x2FFF),
        packet(0x81, &[0x15, 0x00]),
        packet(0x81, &[0x15, 0x01]),
        packet(0x01, &[0x00]),
        vec![0x01, 0x00, 0x01],
    ]
    .concat()
}
