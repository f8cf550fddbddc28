//! Baud rates: the makers' tables and the edges of the rule.

use crate::bench::*;
use indraveck_model::*;

/// Asks for a rate; the setting if it is granted.
fn ask(sci: u32, rmb: u32, brt: u32) -> Option<(u8, u8, u8)> {
    let mut bench = Bench::woken(Profile {
        sci,
        rmb,
        ..bench_profile()
    });
    let before = bench.state.clone();
    let reply = bench.exchange(&command(0x34, &brt.to_be_bytes()));
    if reply == hex(OK_RATE) {
        let Line { abcs, brr, mddr } = bench.state.line;
        return Some((abcs, brr, mddr));
    }
    assert_eq!(reply, status(0xB4, 0xD4));
    assert_eq!(bench.state, before);
    None
}

#[test]
fn printed_tables() {
    const UNUSED: u8 = 0;
    let tables: &[(u32, &[(u32, u8, u8, u8)])] = &[
        (
            60_000_000,
            &[
                (9600, 0, 0xC2, 0xFF),
                (1_000_000, 0, 0x00, 0x88),
                (1_500_000, 0, 0x00, 0xCC),
                (2_000_000, 1, 0x00, 0x88),
                (3_000_000, 1, 0x00, 0xCC),
                (3_500_000, 1, 0x00, 0xEE),
                (3_750_000, 1, 0x00, UNUSED),
                (115_200, 0, 0x0F, 0xFB),
                (500_000, 0, 0x02, 0xCC),
            ],
        ),
        (
            24_000_000,
            &[
                (9600, 0, 0x4D, 0xFF),
                (1_000_000, 1, 0x00, 0xAA),
                (1_500_000, 1, 0x00, UNUSED),
            ],
        ),
        (
            100_000_000,
            &[
                (9600, 0, 0xFF, 0xC9),
                (115_200, 0, 0x1A, 0xFE),
                (500_000, 0, 0x05, 0xF5),
                (1_000_000, 0, 0x02, 0xF5),
                (1_500_000, 0, 0x01, 0xF5),
                (2_000_000, 0, 0x00, 0xA3),
                (4_000_000, 1, 0x00, 0xA3),
                (6_000_000, 1, 0x00, 0xF5),
            ],
        ),
    ];
    for (sci, rows) in tables {
        for &(brt, abcs, brr, mddr) in *rows {
            let given = ask(*sci, 6_000_000, brt);
            assert_eq!(given, Some((abcs, brr, mddr)), "{sci} {brt}");
        }
    }
    assert_eq!(ask(24_000_000, 6_000_000, 2_000_000), None);
}

#[test]
fn edges() {
    let table = [
        (0, None),
        (1, None),
        (3500, None),
        (3521, None),
        (3522, Some((0, 0xFF, 0x80))),
        (3600, Some((0, 0xFF, 0x80))),
        // Rounding the rate first would give another MDDR.
        (4034, Some((0, 0xFF, 0x8C))),
        (4177, Some((0, 0xFF, 0x91))),
        (4549, Some((0, 0xFF, 0x9E))),
        (1_874_999, Some((0, 0x00, 0xFF))),
        (1_875_000, Some((0, 0x00, 0x00))),
        (1_875_001, Some((1, 0x00, 0x80))),
        // Off by exactly 4 %.
        (3_906_250, Some((1, 0x00, 0x00))),
        (3_906_251, None),
        (4_000_000, None),
        (u32::MAX, None),
    ];
    for (brt, expected) in table {
        let given = ask(60_000_000, u32::MAX, brt);
        assert_eq!(given, expected, "{brt}");
    }
}

#[test]
fn the_largest_rate_is_inclusive() {
    assert!(ask(60_000_000, 1_000_000, 1_000_000).is_some());
    assert!(ask(60_000_000, 999_999, 1_000_000).is_none());
}

#[test]
fn fresh_settings() {
    let table = [
        (1, (1, 0x00, 0x00)),
        (307_199, (1, 0x00, 0x80)),
        (307_200, (0, 0x00, 0x00)),
        (307_201, (0, 0x00, 0xFF)),
        (20_000_000, (0, 0x40, 0xFF)),
        (24_000_000, (0, 0x4D, 0xFF)),
        (60_000_000, (0, 0xC2, 0xFF)),
        (u32::MAX, (0, 0xFF, 0x80)),
    ];
    for (sci, (abcs, brr, mddr)) in table {
        // A largest rate below 9,600 doesn't matter.
        let bench = Bench::asleep(Profile {
            sci,
            rmb: 1,
            ..bench_profile()
        });
        assert_eq!(bench.state.line, Line { abcs, brr, mddr }, "{sci}");
    }
}

/// The rule again, in words of its own: fractions of 128 bits.
#[test]
fn the_rule_over_many_clocks() {
    let mut dice = Dice::new(4);
    for round in 0..20_000u32 {
        let sci = 1 + (dice.below(u32::MAX as usize) >> (round % 32)) as u32;
        let brt = 1 + (dice.below(u32::MAX as usize) >> (round / 32 % 32)) as u32;
        let (s, b) = (i128::from(sci), i128::from(brt));
        let halved = s < 32 * b;
        let d = if halved { 16 } else { 32 };
        let brr = if halved { 0 } else { 255.min(s / (32 * b) - 1) };
        let m = (256 * b * d * (brr + 1) / s).clamp(128, 256);
        let divisor = 256 * d * (brr + 1);
        let off = (s * m - b * divisor).abs();
        let expected = if 25 * off > b * divisor {
            None
        } else {
            Some((u8::from(halved), brr as u8, (m % 256) as u8))
        };
        assert_eq!(ask_quickly(sci, brt), expected, "{sci} {brt}");
    }
}

/// As [`ask`], from a state made by hand and a small image.
fn ask_quickly(sci: u32, brt: u32) -> Option<(u8, u8, u8)> {
    let p = Profile {
        sci,
        rmb: u32::MAX,
        ..profile(&[area(2, 0, 15, 0, 0)])
    };
    let mut bench = Bench::asleep(p);
    bench.state.stage = Stage::Command;
    let reply = bench.exchange(&command(0x34, &brt.to_be_bytes()));
    let Line { abcs, brr, mddr } = bench.state.line;
    if reply == hex(OK_RATE) {
        Some((abcs, brr, mddr))
    } else {
        None
    }
}
