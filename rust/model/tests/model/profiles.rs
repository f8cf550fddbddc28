//! Which profiles are acceptable.

use crate::bench::*;
use indraveck_model::*;

fn changed(change: impl Fn(&mut Profile)) -> Profile {
    let mut p = bench_profile();
    change(&mut p);
    p
}

#[test]
fn the_bench_profile() {
    let p = bench_profile();
    assert!(acceptable(&p));
    assert_eq!(total(&p), 0x1_0100);
}

#[test]
fn either_side_of_each_rule() {
    type Change = fn(&mut Profile);
    let table: &[(&str, Change, bool)] = &[
        ("no area", |p| p.noa = 0, false),
        ("nine areas", |p| p.noa = 9, false),
        ("255 areas", |p| p.noa = 255, false),
        ("config not among the used", |p| p.noa = 1, false),
        (
            "an unused entry",
            |p| p.areas[2] = area(9, 5, 1, 7, 9999),
            true,
        ),
        ("SCI 0", |p| p.sci = 0, false),
        ("SCI 1", |p| p.sci = 1, true),
        ("RMB 0", |p| p.rmb = 0, false),
        ("RMB 1", |p| p.rmb = 1, true),
        ("KOA 1", |p| p.areas[0].koa = 1, true),
        ("KOA 3", |p| p.areas[0].koa = 3, false),
        ("two configs", |p| p.areas[0].koa = 2, false),
        ("no config", |p| p.areas[1].koa = 1, false),
        ("one byte", |p| p.areas[0] = area(0, 0, 0, 0, 0), true),
        ("SAD above EAD", |p| p.areas[0] = area(0, 1, 0, 0, 0), false),
        (
            "config of 15",
            |p| p.areas[1] = area(2, 0x0100_0000, 0x0100_000E, 0, 0),
            false,
        ),
        (
            "config of 16",
            |p| p.areas[1] = area(2, 0x0100_0000, 0x0100_000F, 0, 0),
            true,
        ),
        (
            "EAD at the top",
            |p| p.areas[1] = area(2, 0xFFFF_FF00, 0xFFFF_FFFF, 0, 0),
            false,
        ),
        (
            "EAD below the top, units 3 and 15",
            |p| p.areas[1] = area(2, 0xFFFF_FFE1, 0xFFFF_FFFE, 3, 15),
            true,
        ),
        (
            "adjacent",
            |p| p.areas[1] = area(2, 0x1_0000, 0x1_00FF, 0, 0x10),
            true,
        ),
        (
            "overlapping by one",
            |p| p.areas[1] = area(2, 0xFFFF, 0x1_00FE, 0, 0),
            false,
        ),
        ("descending", |p| p.areas.swap(0, 1), false),
        ("EAU divides neither", |p| p.areas[0].eau = 3, false),
        (
            "EAU divides the size only",
            |p| p.areas[0] = area(0, 0x80, 0x107F, 0x1000, 0),
            false,
        ),
        (
            "EAU divides SAD only",
            |p| p.areas[0] = area(0, 0x1000, 0x107F, 0x1000, 0),
            false,
        ),
        (
            "WAU divides the size only",
            |p| p.areas[0] = area(0, 0x40, 0xBF, 0, 0x80),
            false,
        ),
        (
            "WAU not a power of two",
            |p| p.areas[0] = area(0, 0, 0x2FF, 0, 3),
            true,
        ),
        ("WAU 1024", |p| p.areas[0].wau = 1024, true),
        ("WAU 2048", |p| p.areas[0].wau = 2048, false),
        ("EAU of the whole", |p| p.areas[0].eau = 0x1_0000, true),
        (
            "EAU of twice the whole",
            |p| p.areas[0].eau = 0x2_0000,
            false,
        ),
        (
            "both units 0",
            |p| p.areas[0] = area(0, 0, 0xFFFF, 0, 0),
            true,
        ),
        (
            "largest total",
            |p| p.areas[0] = area(0, 0, 0xFF_FEFF, 0, 0),
            true,
        ),
        (
            "total too large by one",
            |p| p.areas[0] = area(0, 0, 0xFF_FF00, 0, 0),
            false,
        ),
        ("low below high", |p| p.high = 1, true),
        ("low equal to high", |p| (p.low, p.high) = (5, 5), true),
        ("low above high", |p| p.low = 1, false),
        ("window at the top", |p| p.high = u32::MAX, true),
    ];
    for (name, change, expected) in table {
        let p = changed(change);
        assert_eq!(acceptable(&p), *expected, "{name}");
        let image = vec![0; total(&p) as usize];
        let refusal = if *expected { 0 } else { 4 };
        assert_eq!(start(&p, &image).0, refusal, "{name}");
    }
}

#[test]
fn a_printed_list_and_its_order() {
    let user = area(0, 0, 0x1_FFFF, 0x800, 8);
    let data = area(1, 0x4010_0000, 0x4010_0FFF, 0x400, 1);
    let config = area(2, 0x0101_0008, 0x0101_0033, 0, 4);
    assert!(!acceptable(&profile(&[user, data, config])));
    let ascending = profile(&[user, config, data]);
    assert!(acceptable(&ascending));
    assert_eq!(total(&ascending), 135_212);
}

#[test]
fn eight_areas() {
    let mut areas = [Area::default(); 8];
    for (number, area) in areas.iter_mut().enumerate() {
        let sad = 0x1000 * number as u32;
        *area = crate::bench::area(1, sad, sad + 0x1F, 0, 0x10);
    }
    areas[5].koa = 2;
    let mut bench = Bench::asleep(profile(&areas));
    // The ID stands behind five areas.
    bench.image[5 * 0x20..5 * 0x20 + 16].fill(0xAB);
    bench.wake();
    assert_eq!(bench.state.id, [0xAB; 16]);
}

#[test]
fn total_of_any_profile() {
    let mut p = profile(&[area(0, 0, u32::MAX, 0, 0); 8]);
    assert_eq!(total(&p), 8 << 32);
    p.noa = 255;
    assert_eq!(total(&p), 8 << 32);
    p.areas[0] = area(0, 2, 1, 0, 0);
    assert_eq!(total(&p), 7 << 32);
    p.noa = 0;
    assert_eq!(total(&p), 0);
}
