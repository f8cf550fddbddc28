//! The rate of the line, from its setting.

use crate::state::State;

/// The tolerance is one part in so many: 4 %.
const TOLERANCE: u128 = 25;

impl State {
    /// The exact rate in baud, as numerator and denominator, not reduced: SCI x M / (256 x D x (BRR + 1)). D is 16 if ABCS is 1,
    /// otherwise 32; M is MDDR, or 256 where it is not used. `sci` is the profile's.
    pub fn exact_rate(&self, sci: u32) -> (u64, u64) {
        let d = if self.abcs == 1 { 16 } else { 32 };
        let m = match self.mddr {
            0 => 256,
            mddr => u64::from(mddr),
        };
        (u64::from(sci) * m, 256 * d * (u64::from(self.brr) + 1))
    }

    /// The rate in baud, rounded to the nearest whole number, halves up.
    pub fn rate(&self, sci: u32) -> u32 {
        let (numerator, denominator) = self.exact_rate(sci);
        // at most SCI / 16
        ((2 * numerator + denominator) / (2 * denominator)) as u32
    }

    /// Whether the exact rate differs from `rate` by at most 4 % of `rate`, as the baud rate command asks: 4 % itself passes. No
    /// setting matches rate 0.
    pub fn matches_rate(&self, sci: u32, rate: u32) -> bool {
        let (numerator, denominator) = self.exact_rate(sci);
        let wanted = u128::from(rate) * u128::from(denominator);
        let exact = u128::from(numerator);
        let apart = wanted.max(exact) - wanted.min(exact);
        rate != 0 && TOLERANCE * apart <= wanted
    }
}
