//! The device's state, to look at.

/// How many bytes the library keeps a state in; `include/indraveck.h` says what stands where.
pub const STATE_BYTES: usize = 33;

/// The stage, with the range of a transfer that is under way.
#[derive(Clone, Copy, Debug, PartialEq, Eq)]
pub enum Stage {
    /// Waking up.
    Setting {
        /// 0 none, 1 one, 2 acknowledged.
        low_pulses: u8,
    },
    /// Awake, and an ID code is wanted: only authenticate is permitted.
    Authentication,
    /// Awaiting a command.
    Command,
    /// Awaiting write data.
    Writing {
        /// The address that the next data goes to.
        next: u32,
        /// How many bytes are still to come, at least 1.
        left: u32,
    },
    /// Awaiting the word to send more.
    Reading {
        /// The address that the next data comes from.
        next: u32,
        /// How many bytes are still to be sent, at least 1.
        left: u32,
    },
}

impl Stage {
    /// Its number in the state's bytes: 0 setting, 1 authentication, 2 command, 3 writing, 4 reading.
    pub fn number(&self) -> u8 {
        match self {
            Stage::Setting { .. } => 0,
            Stage::Authentication => 1,
            Stage::Command => 2,
            Stage::Writing { .. } => 3,
            Stage::Reading { .. } => 4,
        }
    }
}

/// Where a device stands, apart from its flash and the bytes that it holds.
#[derive(Clone, Debug, PartialEq, Eq)]
pub struct State {
    /// The stage.
    pub stage: Stage,
    /// The ID code as latched at the last wake-up; sixteen FFh for none.
    pub id: [u8; 16],
    /// Of the line setting: 1 if the clock is divided by 16, 0 if by 32.
    pub abcs: u8,
    /// Of the line setting: the divisor is one more.
    pub brr: u8,
    /// Of the line setting: the rate is so many 256ths; 0 if it is not used.
    pub mddr: u8,
    /// How many bytes of an incomplete packet are held.
    pub held: u32,
}

fn four(bytes: &[u8]) -> u32 {
    u32::from_be_bytes([bytes[0], bytes[1], bytes[2], bytes[3]])
}

impl State {
    /// The state that the library left in its 33 bytes.
    pub(crate) fn of_library(bytes: &[u8; STATE_BYTES]) -> State {
        let next = four(&bytes[2..6]);
        let left = four(&bytes[6..10]);
        let mut id = [0; 16];
        id.copy_from_slice(&bytes[10..26]);
        State {
            stage: match bytes[0] {
                0 => Stage::Setting {
                    low_pulses: bytes[1],
                },
                1 => Stage::Authentication,
                2 => Stage::Command,
                3 => Stage::Writing { next, left },
                4 => Stage::Reading { next, left },
                n => panic!("the library left stage {}, which is none", n),
            },
            id,
            abcs: bytes[26],
            brr: bytes[27],
            mddr: bytes[28],
            held: four(&bytes[29..33]),
        }
    }
}
