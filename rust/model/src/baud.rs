//! The line setting for a bit rate.

use crate::faults::{Fault, Faults};
use crate::Line;

/// The rate of a fresh state.
const FRESH_RATE: u32 = 9600;

/// A setting with its exact rate: `sci * m / divisor`.
struct Setting {
    line: Line,
    m: u64,
    divisor: u64,
}

/// Worked out in 64 bits: `brt * divisor` stays below 2^44, since BRR is 0
/// whenever the rate is above what SCI can divide.
fn setting<F: Faults>(f: F, sci: u32, brt: u32) -> Setting {
    let (sci, brt) = (u64::from(sci), u64::from(brt));
    let (abcs, d, brr) = if sci < 32 * brt {
        (1, 16, 0)
    } else {
        (0, 32, (sci / (32 * brt) - 1).min(255))
    };
    let divisor = 256 * d * (brr + 1);
    let quotient = if f.has(Fault::RateRoundedTwice) {
        // The rate never rounds down to 0 here, but for a tiny SCI.
        256 * brt / (sci / (brr + 1) / d).max(1)
    } else {
        brt * divisor / sci
    };
    let (m, mddr) = match quotient {
        0..=127 => (128, 128),
        128..=255 => (quotient, quotient as u8),
        _ => (256, 0),
    };
    let brr = brr as u8;
    Setting {
        line: Line { abcs, brr, mddr },
        m,
        divisor,
    }
}

/// The setting of a fresh state, which no check can refuse.
pub(crate) fn fresh<F: Faults>(f: F, sci: u32) -> Line {
    unchecked(f, sci, FRESH_RATE)
}

/// The setting for any rate but 0, whether it may be had or not.
pub(crate) fn unchecked<F: Faults>(f: F, sci: u32, brt: u32) -> Line {
    setting(f, sci, brt).line
}

/// The setting for a requested rate, if it may be had.
pub(crate) fn requested<F: Faults>(f: F, sci: u32, rmb: u32, brt: u32) -> Option<Line> {
    if brt == 0 || brt > rmb {
        return None;
    }
    let Setting { line, m, divisor } = setting(f, sci, brt);
    // Both sides of the comparison are multiplied by 100 * divisor, so that
    // no rounding decides.
    let wanted = u64::from(brt) * divisor;
    let exact = u64::from(sci) * m;
    let off = 100 * wanted.max(exact) - 100 * wanted.min(exact);
    let allowed = 4 * wanted;
    let refused = off > allowed || (f.has(Fault::FourPercentRefused) && off == allowed);
    if refused {
        None
    } else {
        Some(line)
    }
}
