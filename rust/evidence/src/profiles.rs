//! Profiles to test with: acceptable ones, and what makes one unacceptable.

use indraveck_model::{Area, Profile};

pub const USER: u8 = 0;
pub const DATA: u8 = 1;
pub const CONFIG: u8 = 2;

const MOST_WAU: u32 = 1024;
const MOST_BYTES: u64 = 16_777_216;
const ID_BYTES: u64 = 16;

pub fn used(profile: &Profile) -> &[Area] {
    &profile.areas[..usize::from(profile.noa).min(8)]
}

pub fn area(koa: u8, sad: u32, size: u32, eau: u32, wau: u32) -> Area {
    Area {
        koa,
        sad,
        ead: sad + (size - 1),
        eau,
        wau,
    }
}

/// A profile of these areas with the bench profile's numbers and no window.
pub fn of_areas(areas: &[Area]) -> Profile {
    let mut table = [Area::default(); 8];
    table[..areas.len()].copy_from_slice(areas);
    Profile {
        noa: areas.len() as u8,
        typ: 1,
        bfv: 0x0100,
        sci: 60_000_000,
        rmb: 4_000_000,
        low: 0,
        high: 0,
        areas: table,
    }
}

/// The scope document's own.
pub fn bench() -> Profile {
    of_areas(&[
        area(USER, 0, 0x1_0000, 0x2000, 0x80),
        area(CONFIG, 0x0100_0000, 0x100, 0, 0x10),
    ])
}

/// Small, with a window inside a user area, touching areas and a gap, and units of 0.
pub fn small() -> Profile {
    Profile {
        low: 0x0200,
        high: 0x0E00,
        ..of_areas(&[
            area(USER, 0x0000, 0x1000, 0x100, 0x20),
            area(DATA, 0x1000, 0x0C00, 0x40, 0x04),
            area(CONFIG, 0x8000, 0x40, 0, 0x10),
            area(USER, 0x9000, 0x40, 0x20, 0),
        ])
    }
}

/// One area alone, without units, up to the last address that an area may have.
pub fn top() -> Profile {
    of_areas(&[area(CONFIG, 0xFFFF_FFFF - 0x50, 0x50, 1, 1)])
}

pub fn total(profile: &Profile) -> usize {
    indraveck_model::total(profile) as usize
}

pub fn blank(profile: &Profile) -> Vec<u8> {
    vec![0xFF; total(profile)]
}

pub fn size(area: &Area) -> u64 {
    (u64::from(area.ead) + 1).saturating_sub(u64::from(area.sad))
}

/// Where the ID code stands in the image.
pub fn id_place(profile: &Profile) -> usize {
    let before = used(profile).iter().take_while(|area| area.koa != CONFIG);
    before.map(size).sum::<u64>() as usize
}

/// Where an address stands in the image.
pub fn place(profile: &Profile, address: u32) -> Option<usize> {
    let mut before = 0;
    for area in used(profile) {
        if area.sad <= address && address <= area.ead {
            return Some(before + (address - area.sad) as usize);
        }
        before += size(area) as usize;
    }
    None
}

pub fn area_of(profile: &Profile, address: u32) -> Option<&Area> {
    let mut areas = used(profile).iter();
    areas.find(|area| area.sad <= address && address <= area.ead)
}

/// Addresses on both sides of every boundary that an area has: its ends, its units' edges at both ends, and the window's.
pub fn edges(profile: &Profile, area: &Area) -> Vec<u32> {
    let (sad, behind) = (i64::from(area.sad), i64::from(area.ead) + 1);
    let mut points = vec![sad, behind, (sad + behind) / 2];
    for unit in [i64::from(area.eau), i64::from(area.wau)] {
        if unit != 0 {
            points.extend([sad + unit, behind - unit]);
        }
    }
    for bound in [i64::from(profile.low), i64::from(profile.high)] {
        if sad <= bound && bound <= behind {
            points.push(bound);
            for unit in [i64::from(area.eau), i64::from(area.wau)] {
                if unit != 0 {
                    points.extend([bound / unit * unit, (bound / unit + 1) * unit]);
                }
            }
        }
    }
    let sides = points
        .iter()
        .flat_map(|point| [point - 1, *point, point + 1]);
    let mut edges: Vec<u32> = sides
        .filter(|side| (0..=i64::from(u32::MAX)).contains(side))
        .map(|side| side as u32)
        .collect();
    edges.sort_unstable();
    edges.dedup();
    edges
}

/// A range of an area that an erase or write by this unit is granted; `None` if there is none. It has at most `most` bytes, but
/// one unit at least.
pub fn granted(
    profile: &Profile,
    area: &Area,
    unit: u32,
    (from, count): (u32, u32),
    most: u64,
) -> Option<(u32, u32)> {
    let unit = u64::from(unit);
    if unit == 0 {
        return None;
    }
    let mut first = u64::from(area.sad);
    let mut behind = u64::from(area.ead) + 1;
    if area.koa == USER && profile.low < profile.high {
        let low = (u64::from(profile.low) + unit - 1) / unit * unit;
        first = first.max(low);
        behind = behind.min(u64::from(profile.high) / unit * unit);
    }
    if first >= behind {
        return None;
    }
    let units = (behind - first) / unit;
    let skipped = u64::from(from) % units;
    let fitting = (units - skipped).min((most / unit).max(1));
    let taken = 1 + u64::from(count) % fitting;
    let start = first + skipped * unit;
    Some((start as u32, (start + taken * unit - 1) as u32))
}

/// Rates that are exactly 4 % off for clocks that divide: above what SCI can divide, and below what M can slow down to.
pub fn four_percent_off(sci: u32) -> [u32; 2] {
    [384, 425_984].map(|divisor| (u64::from(sci) * 25 / divisor) as u32)
}

/// Rates near every place where the setting or its refusal turns, for this clock.
pub fn rates(sci: u32, rmb: u32) -> Vec<u32> {
    let clock = u64::from(sci);
    let mut points = vec![0, 1, u64::from(rmb), u64::from(u32::MAX)];
    // table 23's and the fresh state's
    points.extend([3500, 3600, 9600, 19_200, 115_200, 1_000_000, 2_000_000]);
    points.extend([3_750_000, 4_000_000]);
    // ABCS turns, BRR turns, BRR at its end
    points.extend([clock / 16, clock / 32, clock / 64, clock / 96]);
    points.extend([clock / (32 * 256), clock / (64 * 256)]);
    points.extend(four_percent_off(sci).map(u64::from));
    let sides = points
        .into_iter()
        .flat_map(|point| [point.saturating_sub(1), point, point + 1]);
    let mut rates: Vec<u32> = sides.map(|rate| rate.min(0xFFFF_FFFF) as u32).collect();
    rates.sort_unstable();
    rates.dedup();
    rates
}

/// What an acceptable profile keeps, one by one.
#[derive(Clone, Copy, Debug, PartialEq, Eq)]
pub enum Rule {
    SomeAreas,
    EightAreas,
    Clock,
    Rate,
    Kind,
    StartsBeforeEnd,
    EndsBelowTop,
    Ascends,
    EraseUnitDividesStart,
    EraseUnitDividesSize,
    WriteUnitDividesStart,
    WriteUnitDividesSize,
    WriteUnitLimit,
    SomeConfig,
    OneConfig,
    ConfigHoldsId,
    Total,
    Window,
}

pub const RULES: [Rule; 18] = [
    Rule::SomeAreas,
    Rule::EightAreas,
    Rule::Clock,
    Rule::Rate,
    Rule::Kind,
    Rule::StartsBeforeEnd,
    Rule::EndsBelowTop,
    Rule::Ascends,
    Rule::EraseUnitDividesStart,
    Rule::EraseUnitDividesSize,
    Rule::WriteUnitDividesStart,
    Rule::WriteUnitDividesSize,
    Rule::WriteUnitLimit,
    Rule::SomeConfig,
    Rule::OneConfig,
    Rule::ConfigHoldsId,
    Rule::Total,
    Rule::Window,
];

/// Eight areas so far apart that each rule can be broken without another.
pub fn roomy() -> Profile {
    of_areas(&[
        area(USER, 0x0_1000, 0x1000, 0x400, 0x80),
        area(DATA, 0x0_4000, 0x0800, 0x100, 0x10),
        area(CONFIG, 0x0_8000, 0x0100, 0, 0x10),
        area(USER, 0x1_0000, 0x0800, 0x800, 0x400),
        area(DATA, 0x2_0000, 0x0200, 0, 0),
        area(USER, 0x3_0000, 0x0100, 0x20, 0x20),
        area(USER, 0x4_0000, 0x0100, 0x20, 0),
        area(DATA, 0x5_0000, 0x0800, 0, 0x20),
    ])
}

/// Breaks a rule in the area chosen, where the rule is about areas. Of the roomy profile that breaks no other, but that a profile
/// without areas has no config either.
pub fn break_rule(profile: &mut Profile, rule: Rule, choice: u32) {
    let count = used(profile).len().max(1);
    let chosen = choice as usize % count;
    let config = used(profile).iter().position(|area| area.koa == CONFIG);
    let config = config.unwrap_or(0);
    let other = if chosen == config {
        (chosen + 1) % count
    } else {
        chosen
    };
    let areas = &mut profile.areas;
    let area = &mut areas[chosen];
    match rule {
        Rule::SomeAreas => profile.noa = 0,
        Rule::EightAreas => profile.noa = 9 + (choice % 247) as u8,
        Rule::Clock => profile.sci = 0,
        Rule::Rate => profile.rmb = 0,
        Rule::Kind => areas[other].koa = 3 + (choice % 253) as u8,
        Rule::StartsBeforeEnd => {
            let area = &mut areas[other];
            area.sad = area.sad.max(1);
            area.ead = area.sad - 1;
        }
        Rule::EndsBelowTop => {
            let last = &mut areas[count - 1];
            let size = last.ead.wrapping_sub(last.sad);
            last.ead = u32::MAX;
            last.sad = u32::MAX - size;
        }
        Rule::Ascends if count > 1 && choice & 0x100 == 0 => {
            let first = chosen.min(count - 2);
            areas.swap(first, first + 1);
        }
        Rule::Ascends if count > 1 => {
            let first = chosen.min(count - 2);
            let shared = areas[first].ead;
            let second = &mut areas[first + 1];
            second.sad = shared;
            second.eau = 0;
            second.wau = 0;
        }
        Rule::Ascends => {}
        Rule::EraseUnitDividesStart => {
            *area = moved(area);
            area.eau = 32;
        }
        Rule::EraseUnitDividesSize => {
            *area = longer(area);
            area.eau = 32;
        }
        Rule::WriteUnitDividesStart => {
            *area = moved(area);
            area.wau = 32;
        }
        Rule::WriteUnitDividesSize => {
            *area = longer(area);
            area.wau = 32;
        }
        Rule::WriteUnitLimit => {
            let area = &mut areas[other];
            area.sad &= !(2 * MOST_WAU - 1);
            area.ead = area.sad.saturating_add(2 * MOST_WAU - 1);
            area.eau = 0;
            area.wau = 2 * MOST_WAU;
        }
        Rule::SomeConfig => areas[config].koa = DATA,
        Rule::OneConfig => areas[other].koa = CONFIG,
        Rule::ConfigHoldsId => {
            let area = &mut areas[config];
            area.ead = area.sad.saturating_add(ID_BYTES as u32 - 2);
            area.eau = 0;
            area.wau = 0;
        }
        Rule::Total => {
            let last = &mut areas[count - 1];
            last.sad = last.sad.clamp(0x1000_0000, 0x8000_0000);
            last.ead = last.sad + MOST_BYTES as u32 - 1;
            last.eau = 0;
            last.wau = 0;
        }
        Rule::Window => {
            profile.high = profile.high.min(u32::MAX - 1);
            profile.low = profile.high + 1;
        }
    }
}

fn moved(area: &Area) -> Area {
    Area {
        sad: area.sad.saturating_add(16),
        ead: area.ead.saturating_add(16),
        eau: 0,
        wau: 0,
        ..*area
    }
}

fn longer(area: &Area) -> Area {
    Area {
        ead: area.ead.saturating_add(16),
        eau: 0,
        wau: 0,
        ..*area
    }
}

/// The rules that a profile breaks, read off the scope document once more.
pub fn broken_rules(profile: &Profile) -> Vec<Rule> {
    let areas = used(profile);
    let configs: Vec<&Area> = areas.iter().filter(|area| area.koa == CONFIG).collect();
    let any = |wrong: &dyn Fn(&Area) -> bool| areas.iter().any(wrong);
    let divides = |unit: u32, number: u64| unit == 0 || number % u64::from(unit) == 0;
    let broken = |rule: &Rule| match rule {
        Rule::SomeAreas => profile.noa == 0,
        Rule::EightAreas => profile.noa > 8,
        Rule::Clock => profile.sci == 0,
        Rule::Rate => profile.rmb == 0,
        Rule::Kind => any(&|area| area.koa > 2),
        Rule::StartsBeforeEnd => any(&|area| area.sad > area.ead),
        Rule::EndsBelowTop => any(&|area| area.ead == u32::MAX),
        Rule::Ascends => areas.windows(2).any(|pair| pair[0].ead >= pair[1].sad),
        Rule::EraseUnitDividesStart => any(&|area| !divides(area.eau, area.sad.into())),
        Rule::EraseUnitDividesSize => any(&|area| !divides(area.eau, size(area))),
        Rule::WriteUnitDividesStart => any(&|area| !divides(area.wau, area.sad.into())),
        Rule::WriteUnitDividesSize => any(&|area| !divides(area.wau, size(area))),
        Rule::WriteUnitLimit => any(&|area| area.wau > MOST_WAU),
        Rule::SomeConfig => configs.is_empty(),
        Rule::OneConfig => configs.len() > 1,
        Rule::ConfigHoldsId => configs.iter().any(|area| size(area) < ID_BYTES),
        Rule::Total => areas.iter().map(size).sum::<u64>() > MOST_BYTES,
        Rule::Window => profile.low > profile.high,
    };
    RULES.iter().filter(|rule| broken(rule)).copied().collect()
}
