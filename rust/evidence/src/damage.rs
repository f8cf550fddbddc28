//! What may happen to bytes on their way, for random cases. What is generated are plain numbers, so that a failure shrinks.

use proptest::prelude::*;

#[derive(Clone, Copy, Debug)]
pub enum Damage {
    /// The rest is missing.
    Cut(u32),
    /// One byte is another.
    Byte { place: u32, by: u8 },
    /// A byte is missing.
    Lost(u32),
    /// There is a byte too many.
    Added { place: u32, byte: u8 },
}

pub fn cut() -> impl Strategy<Value = Damage> {
    any::<u32>().prop_map(Damage::Cut)
}

pub fn another_byte() -> impl Strategy<Value = Damage> {
    any::<(u32, u8)>().prop_map(|(place, by)| Damage::Byte { place, by })
}

pub fn lost() -> impl Strategy<Value = Damage> {
    any::<u32>().prop_map(Damage::Lost)
}

pub fn added() -> impl Strategy<Value = Damage> {
    any::<(u32, u8)>().prop_map(|(place, byte)| Damage::Added { place, byte })
}

impl Damage {
    /// Of no bytes nothing can be missing or another.
    pub fn apply(self, bytes: &mut Vec<u8>) {
        let place = |number: u32| number as usize % bytes.len();
        match self {
            Damage::Added { place, byte } => {
                let place = place as usize % (bytes.len() + 1);
                bytes.insert(place, byte);
            }
            _ if bytes.is_empty() => {}
            Damage::Cut(number) => bytes.truncate(place(number)),
            Damage::Lost(number) => {
                bytes.remove(place(number));
            }
            Damage::Byte { place: number, by } => {
                let place = place(number);
                bytes[place] ^= by.max(1);
            }
        }
    }
}
