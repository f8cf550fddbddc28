//! The profile that a device is started with.

/// The kind of an area; its numbers are the protocol's.
#[derive(Clone, Copy, Debug, PartialEq, Eq)]
pub enum Kind {
    /// 0: program flash, where the window applies.
    User,
    /// 1: data flash.
    Data,
    /// 2: configuration; it starts with the ID code.
    Config,
}

impl Kind {
    /// KOA, its number in the protocol.
    pub fn number(self) -> u8 {
        match self {
            Kind::User => 0,
            Kind::Data => 1,
            Kind::Config => 2,
        }
    }

    /// The kind that has this number; `None` if there is none.
    pub fn of_number(number: u8) -> Option<Kind> {
        match number {
            0 => Some(Kind::User),
            1 => Some(Kind::Data),
            2 => Some(Kind::Config),
            _ => None,
        }
    }
}

/// An area of the flash: addresses `sad` to `ead`, both inclusive; units in bytes, 0 for none.
#[derive(Clone, Copy, Debug, PartialEq, Eq)]
pub struct Area {
    /// KOA.
    pub kind: Kind,
    /// The first address.
    pub sad: u32,
    /// The last address.
    pub ead: u32,
    /// The erase unit; 0 if it cannot be erased.
    pub eau: u32,
    /// The write unit; 0 if it cannot be written.
    pub wau: u32,
}

impl Area {
    /// How many bytes it has; none if it ends before it starts.
    pub fn size(&self) -> u64 {
        (u64::from(self.ead) + 1).saturating_sub(u64::from(self.sad))
    }
}

/// What a device is: its areas and the numbers of its signature. Which profiles are acceptable is the library's to say.
#[derive(Clone, Debug, PartialEq, Eq)]
pub struct Profile {
    /// In ascending order; the image is their bytes joined in this order.
    pub areas: Vec<Area>,
    /// The clock of the line, in Hz.
    pub sci: u32,
    /// The highest baud rate.
    pub rmb: u32,
    /// TYP of the signature.
    pub typ: u8,
    /// BFV of the signature, its first byte high.
    pub bfv: u16,
    /// Erase and write in user areas stay at or above `low` and below `high`; equal numbers are no limit.
    pub low: u32,
    /// The window's end: the first address that is not in it.
    pub high: u32,
}

/// How many bytes the library takes a profile in; `include/indraveck.h` says what stands where.
pub const PROFILE_BYTES: usize = 156;
/// How many areas a profile has room for.
pub const AREAS: usize = 8;

impl Profile {
    /// The image's length.
    pub fn total(&self) -> u64 {
        self.areas.iter().map(Area::size).sum()
    }

    /// Where the ID code stands in the image: at the start of the config area. The image's length where there is none.
    pub fn id_place(&self) -> usize {
        let before = self
            .areas
            .iter()
            .take_while(|area| area.kind != Kind::Config);
        before.map(Area::size).sum::<u64>() as usize
    }

    /// The profile as the library takes it; `None` if there are more areas than fit.
    pub fn to_bytes(&self) -> Option<[u8; PROFILE_BYTES]> {
        if self.areas.len() > AREAS {
            return None;
        }
        let mut bytes = [0; PROFILE_BYTES];
        bytes[0] = self.areas.len() as u8;
        bytes[1] = self.typ;
        bytes[2..4].copy_from_slice(&self.bfv.to_be_bytes());
        bytes[4..8].copy_from_slice(&self.sci.to_be_bytes());
        bytes[8..12].copy_from_slice(&self.rmb.to_be_bytes());
        bytes[12..16].copy_from_slice(&self.low.to_be_bytes());
        bytes[16..20].copy_from_slice(&self.high.to_be_bytes());
        for (area, at) in self.areas.iter().zip(bytes[20..].chunks_exact_mut(17)) {
            at[0] = area.kind.number();
            at[1..5].copy_from_slice(&area.sad.to_be_bytes());
            at[5..9].copy_from_slice(&area.ead.to_be_bytes());
            at[9..13].copy_from_slice(&area.eau.to_be_bytes());
            at[13..17].copy_from_slice(&area.wau.to_be_bytes());
        }
        Some(bytes)
    }

    /// The bench profile: 64 KB of user area, 256 bytes of config, no window.
    pub fn bench() -> Profile {
        Profile {
            areas: vec![
                Area {
                    kind: Kind::User,
                    sad: 0,
                    ead: 0xFFFF,
                    eau: 0x2000,
                    wau: 0x80,
                },
                Area {
                    kind: Kind::Config,
                    sad: 0x0100_0000,
                    ead: 0x0100_00FF,
                    eau: 0,
                    wau: 0x10,
                },
            ],
            sci: 60_000_000,
            rmb: 4_000_000,
            typ: 1,
            bfv: 0x0100,
            low: 0,
            high: 0,
        }
    }
}
