//! What makes a profile acceptable, rule by rule and in words.
//!
//! The library decides: it refuses a profile or takes it, and that is proved. Here the rules are said once more, only to tell a person
//! which of them a refused profile breaks; the tests compare both.

use crate::profile::{Area, Kind, Profile, AREAS};
use std::fmt;

const LONGEST_WRITE_UNIT: u32 = 1024;
const LARGEST_TOTAL: u64 = 16_777_216;
const ID_BYTES: u64 = 16;

/// A rule that a profile breaks; areas are numbered from 0, as in the protocol.
#[derive(Clone, Copy, Debug, PartialEq, Eq)]
pub enum Rule {
    /// It has no area, or more than eight.
    AreaCount {
        /// How many it has.
        noa: usize,
    },
    /// SCI is 0.
    NoClock,
    /// RMB is 0.
    NoTopRate,
    /// EAD lies below SAD.
    EndsBeforeStart {
        /// The area's number.
        area: usize,
    },
    /// EAD is FFFFFFFFh.
    EndsAtTop {
        /// The area's number.
        area: usize,
    },
    /// It does not lie above the area before it.
    NotAbove {
        /// The area's number.
        area: usize,
    },
    /// EAU does not divide SAD and the area's size.
    EraseUnit {
        /// The area's number.
        area: usize,
        /// The unit, in bytes.
        unit: u32,
    },
    /// WAU does not divide SAD and the area's size.
    WriteUnit {
        /// The area's number.
        area: usize,
        /// The unit, in bytes.
        unit: u32,
    },
    /// WAU is above 1,024.
    LongWriteUnit {
        /// The area's number.
        area: usize,
        /// The unit, in bytes.
        unit: u32,
    },
    /// There is not exactly one config area.
    ConfigCount {
        /// How many there are.
        configs: usize,
    },
    /// The config area has no room for the ID code.
    ConfigSize {
        /// The area's number.
        area: usize,
        /// Its size in bytes.
        size: u64,
    },
    /// The areas have more than 16,777,216 bytes together.
    TooLarge {
        /// How many they have.
        total: u64,
    },
    /// Low lies above high.
    WindowReversed,
}

/// With commas between thousands.
fn grouped(number: u64) -> String {
    if number < 1000 {
        return number.to_string();
    }
    format!("{},{:03}", grouped(number / 1000), number % 1000)
}

impl fmt::Display for Rule {
    fn fmt(&self, f: &mut fmt::Formatter) -> fmt::Result {
        match self {
            Rule::AreaCount { noa } => write!(f, "it has {} areas: 1 to 8 are allowed", noa),
            Rule::NoClock => write!(f, "sci is 0: it has to be at least 1"),
            Rule::NoTopRate => write!(f, "rmb is 0: it has to be at least 1"),
            Rule::EndsBeforeStart { area } => {
                write!(f, "area {}: ead lies below sad", area)
            }
            Rule::EndsAtTop { area } => {
                write!(f, "area {}: ead has to be below 0xFFFFFFFF", area)
            }
            Rule::NotAbove { area } => write!(
                f,
                "area {}: sad does not lie above area {}; areas ascend and do not overlap",
                area,
                area - 1
            ),
            Rule::EraseUnit { area, unit } => write!(
                f,
                "area {}: the erase unit eau = {:#X} does not divide sad and the area's size",
                area, unit
            ),
            Rule::WriteUnit { area, unit } => write!(
                f,
                "area {}: the write unit wau = {:#X} does not divide sad and the area's size",
                area, unit
            ),
            Rule::LongWriteUnit { area, unit } => write!(
                f,
                "area {}: the write unit wau = {:#X} is longer than 1,024 bytes",
                area, unit
            ),
            Rule::ConfigCount { configs } => {
                write!(f, "it has {} config areas: exactly one is needed", configs)
            }
            Rule::ConfigSize { area, size } => write!(
                f,
                "area {}: the config area has {} bytes; the ID code needs 16",
                area, size
            ),
            Rule::TooLarge { total } => write!(
                f,
                "the areas have {} bytes together: at most 16,777,216 are allowed",
                grouped(*total)
            ),
            Rule::WindowReversed => write!(f, "window: low lies above high"),
        }
    }
}

impl Profile {
    /// All the rules that it breaks, in the protocol's order; none if it is acceptable.
    ///
    /// ```
    /// use indraveck::{Profile, Rule};
    ///
    /// let no_clock = Profile { sci: 0, ..Profile::bench() };
    /// assert_eq!(no_clock.broken_rules(), [Rule::NoClock]);
    /// assert_eq!(Rule::NoClock.to_string(), "sci is 0: it has to be at least 1");
    /// ```
    pub fn broken_rules(&self) -> Vec<Rule> {
        let mut broken = Vec::new();
        let noa = self.areas.len();
        let mut check = |breaks: bool, rule: Rule| {
            if breaks {
                broken.push(rule);
            }
        };
        check(noa < 1 || noa > AREAS, Rule::AreaCount { noa });
        check(self.sci < 1, Rule::NoClock);
        check(self.rmb < 1, Rule::NoTopRate);
        for (area, entry) in self.areas.iter().enumerate() {
            check(entry.ead < entry.sad, Rule::EndsBeforeStart { area });
            check(entry.ead == u32::MAX, Rule::EndsAtTop { area });
            let before = area.checked_sub(1).map(|previous| &self.areas[previous]);
            check(
                before.map_or(false, |previous| entry.sad <= previous.ead),
                Rule::NotAbove { area },
            );
            let unit = entry.eau;
            check(!divides(unit, entry), Rule::EraseUnit { area, unit });
            let unit = entry.wau;
            check(!divides(unit, entry), Rule::WriteUnit { area, unit });
            check(
                unit > LONGEST_WRITE_UNIT,
                Rule::LongWriteUnit { area, unit },
            );
        }
        let configs = |areas: &[Area]| areas.iter().filter(|a| a.kind == Kind::Config).count();
        let configs = configs(&self.areas);
        check(configs != 1, Rule::ConfigCount { configs });
        for (area, entry) in self.areas.iter().enumerate() {
            let size = entry.size();
            check(
                entry.kind == Kind::Config && size < ID_BYTES,
                Rule::ConfigSize { area, size },
            );
        }
        let total = self.total();
        check(total > LARGEST_TOTAL, Rule::TooLarge { total });
        check(self.low > self.high, Rule::WindowReversed);
        broken
    }
}

/// Whether a unit is none, or divides the area's start and size.
fn divides(unit: u32, area: &Area) -> bool {
    unit == 0 || (u64::from(area.sad) % u64::from(unit) == 0 && area.size() % u64::from(unit) == 0)
}
