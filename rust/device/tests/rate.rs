//! The line's rate beside the tables of source 001 and the edges of document 01.

mod common;

use common::{packet, WAKE};
use indraveck::{Device, Profile, State};

const OK: [u8; 7] = [0x81, 0x00, 0x02, 0x34, 0x00, 0xCA, 0x03];
const D4: [u8; 7] = [0x81, 0x00, 0x02, 0xB4, 0xD4, 0x76, 0x03];

/// An awake device with this clock, and any rate allowed.
fn with_clock(sci: u32) -> Device<Vec<u8>> {
    let profile = Profile {
        sci,
        rmb: u32::MAX,
        ..Profile::bench()
    };
    let image = vec![0xFF; profile.total() as usize];
    let mut device = Device::start(&profile, image).unwrap();
    device.feed(&WAKE, |_| ());
    device
}

fn ask_for(device: &mut Device<Vec<u8>>, brt: u32) -> Vec<u8> {
    let mut contents = vec![0x34];
    contents.extend_from_slice(&brt.to_be_bytes());
    device.feed_all(&packet(0x01, &contents))
}

/// SCI, BRT, ABCS, BRR, MDDR and the exact rate as a fraction in lowest terms: tables 23 and 24.
const TABLES: [(u32, u32, u8, u8, u8, (u64, u64)); 10] = [
    (60_000_000, 9600, 0, 0xC2, 0xFF, (3_984_375, 416)),
    (60_000_000, 1_000_000, 0, 0x00, 0x88, (3_984_375, 4)),
    (60_000_000, 1_500_000, 0, 0x00, 0xCC, (11_953_125, 8)),
    (60_000_000, 2_000_000, 1, 0x00, 0x88, (3_984_375, 2)),
    (60_000_000, 3_000_000, 1, 0x00, 0xCC, (11_953_125, 4)),
    (60_000_000, 3_500_000, 1, 0x00, 0xEE, (27_890_625, 8)),
    (60_000_000, 3_750_000, 1, 0x00, 0x00, (3_750_000, 1)),
    (24_000_000, 9600, 0, 0x4D, 0xFF, (3_984_375, 416)),
    (24_000_000, 1_000_000, 1, 0x00, 0xAA, (3_984_375, 4)),
    (24_000_000, 1_500_000, 1, 0x00, 0x00, (1_500_000, 1)),
];

#[test]
fn the_rates_are_those_of_tables_23_and_24() {
    for (sci, brt, abcs, brr, mddr, (over, under)) in TABLES {
        let mut device = with_clock(sci);
        assert_eq!(ask_for(&mut device, brt), OK, "{} at {}", brt, sci);
        let state = device.state();
        assert_eq!((state.abcs, state.brr, state.mddr), (abcs, brr, mddr));
        let (numerator, denominator) = state.exact_rate(sci);
        assert_eq!(numerator * under, over * denominator, "{} at {}", brt, sci);
        let rounded = (numerator as f64 / denominator as f64).round() as u32;
        assert_eq!(state.rate(sci), rounded);
        assert_eq!(device.line_rate(), rounded);
        assert!(device.matches_rate(brt));
    }
}

#[test]
fn rates_are_rounded_to_the_nearest_halves_up() {
    let state = with_clock(60_000_000).state();
    let rate = |sci| {
        let plain = State {
            abcs: 1,
            brr: 0,
            mddr: 0,
            ..state.clone()
        };
        plain.rate(sci)
    };
    assert_eq!(
        [rate(16 * 9), rate(16 * 9 + 7), rate(16 * 9 + 8), rate(1)],
        [9, 9, 10, 0]
    );
    assert_eq!(rate(u32::MAX), 268_435_456);
}

#[test]
fn four_per_cent_itself_matches_and_more_does_not() {
    let state = with_clock(60_000_000).state();
    let setting = |abcs, brr, mddr| State {
        abcs,
        brr,
        mddr,
        ..state.clone()
    };
    for (setting, rate, matches) in [
        (setting(1, 0x00, 0x00), 3_906_250, true),
        (setting(1, 0x00, 0x00), 3_906_251, false),
        (setting(1, 0x00, 0x00), 4_000_000, false),
        (setting(0, 0xFF, 0x80), 3522, true),
        (setting(0, 0xFF, 0x80), 3521, false),
        (setting(0, 0xFF, 0x80), 3500, false),
        (setting(0, 0xFF, 0x80), 3600, true),
        (setting(0, 0xFF, 0x80), 0, false),
        (setting(1, 0x00, 0x00), u32::MAX, false),
    ] {
        assert_eq!(setting.matches_rate(60_000_000, rate), matches, "{}", rate);
    }
}

#[test]
fn a_rate_that_the_device_took_matches_and_one_that_it_refused_leaves_the_line() {
    for sci in [1_000_000, 24_000_000, 60_000_000, u32::MAX] {
        let mut device = with_clock(sci);
        let (mut taken, mut refused) = (0, 0);
        for brt in (1..20_000).map(|n: u32| n * n / 50) {
            let before = device.line_rate();
            let answer = ask_for(&mut device, brt);
            if answer == OK {
                taken += 1;
                assert!(device.matches_rate(brt), "{} at {}", brt, sci);
            } else {
                refused += 1;
                assert_eq!(answer, D4);
                assert_eq!(device.line_rate(), before);
            }
        }
        assert!(taken > 0 && refused > 0, "{}: {}, {}", sci, taken, refused);
    }
}

#[test]
fn a_host_follows_the_device_to_its_new_rate() {
    let mut device = with_clock(60_000_000);
    assert!(device.matches_rate(9600) && !device.matches_rate(115_200));
    assert_eq!(ask_for(&mut device, 115_200), OK);
    assert!(device.matches_rate(115_200) && !device.matches_rate(9600));
    device.reset();
    assert!(device.matches_rate(9600));
    assert_eq!(device.line_rate(), 9578);
}
