//! The plan of a write: which requests make it, and with which data.

use super::{size, Request, MOST};
use crate::faults::{Fault, Faults, Right};
use std::ops::Range;

/// Why no write was planned, in order of check.
#[derive(Clone, Copy, Debug, PartialEq, Eq)]
pub enum Unplanned {
    /// SAD is above EAD.
    Reversed,
    /// WAU is 0.
    NoUnit,
    /// WAU is above 1,024: no packet carries a unit.
    LongUnit,
    /// WAU doesn't divide SAD.
    StartUnaligned,
    /// WAU doesn't divide EAD + 1.
    EndUnaligned,
    /// The data is not as long as the range.
    WrongAmount,
}

/// The requests of a write that are still to be made.
#[derive(Clone, Copy, Debug, PartialEq, Eq)]
pub struct Plan {
    sad: u32,
    ead: u32,
    /// How much data a full packet carries.
    part: usize,
    count: usize,
    /// How much of the data has been given out, once the write command was.
    given: Option<usize>,
}

/// Plans the write of `count` bytes to a range in an area with this WAU.
pub fn plan(sad: u32, ead: u32, wau: u32, count: usize) -> Result<Plan, Unplanned> {
    planning(Right, sad, ead, wau, count)
}

/// [`plan`] of a planner with a fault.
pub fn plan_with(
    f: Option<Fault>,
    sad: u32,
    ead: u32,
    wau: u32,
    count: usize,
) -> Result<Plan, Unplanned> {
    planning(f, sad, ead, wau, count)
}

fn planning<F: Faults>(
    f: F,
    sad: u32,
    ead: u32,
    wau: u32,
    count: usize,
) -> Result<Plan, Unplanned> {
    let longest = MOST as u32 + u32::from(f.has(Fault::Unit1025Planned))
        - u32::from(f.has(Fault::Unit1024Refused));
    let end = if f.has(Fault::PlanAlignsEadItself) {
        ead.into()
    } else if f.has(Fault::PlannedEndWraps) {
        ead.wrapping_add(1).into()
    } else {
        u64::from(ead) + 1
    };
    let wrong_amount = if f.has(Fault::LessDataPlanned) {
        count as u64 > size(sad, ead)
    } else {
        count as u64 != size(sad, ead)
    };

    if f.has(Fault::UnitBeforeRange) && wau == 0 {
        return Err(Unplanned::NoUnit);
    }
    if sad > ead {
        return Err(Unplanned::Reversed);
    }
    if wau == 0 {
        return Err(Unplanned::NoUnit);
    }
    if wau > longest {
        return Err(Unplanned::LongUnit);
    }
    let end_unaligned = end % u64::from(wau) != 0;
    if f.has(Fault::AmountBeforeAlignment) && wrong_amount {
        return Err(Unplanned::WrongAmount);
    }
    if f.has(Fault::EndBeforeStart) && end_unaligned {
        return Err(Unplanned::EndUnaligned);
    }
    if sad % wau != 0 {
        return Err(Unplanned::StartUnaligned);
    }
    if end_unaligned {
        return Err(Unplanned::EndUnaligned);
    }
    if wrong_amount {
        return Err(Unplanned::WrongAmount);
    }
    Ok(Plan {
        sad,
        ead,
        part: part(f, wau as usize),
        count,
        given: None,
    })
}

/// As many units as one packet carries.
fn part<F: Faults>(f: F, unit: usize) -> usize {
    if f.has(Fault::UnitsCut) {
        MOST
    } else if f.has(Fault::OneUnitAPart) || f.has(Fault::Unit1025Planned) && unit > MOST {
        unit
    } else {
        let most = MOST + usize::from(f.has(Fault::PartsOf1025));
        most / unit * unit
    }
}

impl Plan {
    /// [`Iterator::next`] of a plan with a fault.
    pub fn next_with(&mut self, f: Option<Fault>) -> Option<(Request, Range<usize>)> {
        self.next_by(f)
    }

    fn next_by<F: Faults>(&mut self, f: F) -> Option<(Request, Range<usize>)> {
        let (sad, ead) = (self.sad, self.ead);
        let from = match self.given {
            Some(given) => given,
            None if f.has(Fault::WriteNotAskedFor) => 0,
            None => {
                self.given = Some(0);
                return Some((Request::Write { sad, ead }, 0..0));
            }
        };
        let end = if f.has(Fault::LastPartFull) {
            (self.count + self.part - 1) / self.part * self.part
        } else {
            self.count
        };
        // A place behind the end says that this was done.
        if f.has(Fault::EmptyPartPlanned) && from == end {
            self.given = Some(end + 1);
            return Some((Request::WriteData, end..end));
        }
        if from >= end {
            return None;
        }
        let to = end.min(from + self.part);
        self.given = Some(to);
        Some((Request::WriteData, from..to))
    }
}

/// The next request of the write, and which part of the data goes with it.
impl Iterator for Plan {
    type Item = (Request, Range<usize>);

    fn next(&mut self) -> Option<(Request, Range<usize>)> {
        self.next_by(Right)
    }
}
