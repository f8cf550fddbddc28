//! The profile: what makes it acceptable, and where an address lies.

use crate::{Area, Profile};

pub(crate) const USER: u8 = 0;
pub(crate) const CONFIG: u8 = 2;
const LARGEST_KOA: u8 = 2;
const LARGEST_WAU: u32 = 1024;
const LARGEST_TOTAL: u64 = 16_777_216;
pub(crate) const ID_LENGTH: usize = 16;

impl Area {
    /// Exact, so that an area at the very top of the address space has its
    /// true size; an area that ends before it starts has none.
    pub(crate) fn size(&self) -> u64 {
        if self.sad <= self.ead {
            u64::from(self.ead - self.sad) + 1
        } else {
            0
        }
    }

    fn acceptable(&self) -> bool {
        if self.sad > self.ead || self.ead == u32::MAX {
            return false;
        }
        // With the end below the top of the addresses 32 bits hold the size.
        let size = self.ead - self.sad + 1;
        let suits = |unit: u32| unit == 0 || (self.sad % unit == 0 && size % unit == 0);
        self.koa <= LARGEST_KOA && self.wau <= LARGEST_WAU && suits(self.eau) && suits(self.wau)
    }
}

impl Profile {
    /// The entries that count. A number of areas above the table's size is
    /// not acceptable, but must not lead outside the table either.
    pub(crate) fn used(&self) -> &[Area] {
        let used = usize::from(self.noa).min(self.areas.len());
        &self.areas[..used]
    }

    /// The area that holds both addresses, and the place of the first one in
    /// the image.
    pub(crate) fn locate(&self, first: u32, last: u32) -> Option<(&Area, usize)> {
        if first > last {
            return None;
        }
        let mut before = 0;
        for area in self.used() {
            if area.sad <= first && last <= area.ead {
                let place = before + u64::from(first - area.sad);
                return Some((area, place as usize));
            }
            before += area.size();
        }
        None
    }

    /// Where the ID code stands in the image.
    pub(crate) fn id_place(&self) -> usize {
        let before = self.used().iter().take_while(|area| area.koa != CONFIG);
        before.map(Area::size).sum::<u64>() as usize
    }
}

/// The sum of the sizes of the used areas.
pub fn total(p: &Profile) -> u64 {
    p.used().iter().map(Area::size).sum()
}

/// Whether a device may be made of this profile.
pub fn acceptable(p: &Profile) -> bool {
    let areas = p.used();
    let mut config = areas.iter().filter(|area| area.koa == CONFIG);
    let one_config = match (config.next(), config.next()) {
        (Some(area), None) => area.size() >= ID_LENGTH as u64,
        _ => false,
    };
    (1..=8).contains(&p.noa)
        && p.sci >= 1
        && p.rmb >= 1
        && p.low <= p.high
        && one_config
        && areas.iter().all(Area::acceptable)
        && areas.windows(2).all(|pair| pair[0].ead < pair[1].sad)
        && total(p) <= LARGEST_TOTAL
}
