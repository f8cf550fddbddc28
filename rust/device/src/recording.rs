//! A recorded line as bytes: its records, read and written one by one.
//!
//! A recording is records one behind the other, with nothing before, between or behind them. A record is a mark 52h 4Ch, a direction (48h
//! host, 44h device, 52h reset), a length in two bytes, high byte first, and that many bytes: 1 to 1,030, but none for a reset.
//!
//! ```
//! use indraveck::recording::{append, records, Direction, Record, Unwritable};
//!
//! fn main() -> Result<(), Unwritable> {
//!     let inquiry = [0x01, 0x00, 0x01, 0x00, 0xFF, 0x03];
//!     let mut recording = Vec::new();
//!     append(&mut recording, Direction::Host.byte(), &inquiry)?;
//!     append(&mut recording, Direction::Reset.byte(), &[])?;
//!
//!     let mut read = records(&recording);
//!     let host = Record { direction: Direction::Host, bytes: &inquiry };
//!     let reset = Record { direction: Direction::Reset, bytes: &[] };
//!     assert_eq!(read.next(), Some(Ok(host)));
//!     assert_eq!(read.next(), Some(Ok(reset)));
//!     assert_eq!(read.next(), None);
//!     Ok(())
//! }
//! ```
//!
//! [`replay()`](crate::replay()) does a recording over again on a flash image, and says which of its records belong together.

use crate::raw;
use std::error::Error;
use std::fmt;
use std::iter::FusedIterator;

/// How many bytes of a record stand before its own: mark, direction and length.
pub const HEAD_BYTES: usize = 5;

/// How many bytes of its own a record has at most: those of the longest packet.
pub const MOST_BYTES: usize = 1030;

/// What the library answers at a recording's end.
pub(crate) const END: u32 = 6;

/// What the library answers when a record was written.
const WRITTEN: u32 = 7;

/// Who sent a record's bytes, or that the device was reset.
#[derive(Clone, Copy, Debug, PartialEq, Eq)]
pub enum Direction {
    /// 48h: what a host sent.
    Host,
    /// 44h: what the device sent.
    Device,
    /// 52h: the device was reset; such a record has no bytes of its own.
    Reset,
}

impl Direction {
    /// Its byte in a record, and its number in `include/indraveck.h`.
    pub fn byte(self) -> u8 {
        match self {
            Direction::Host => 0x48,
            Direction::Device => 0x44,
            Direction::Reset => 0x52,
        }
    }

    /// The direction that has this byte; `None` for a bad one.
    pub fn of_byte(byte: u8) -> Option<Direction> {
        Direction::of_answer(u32::from(byte))
    }

    /// The direction among the answers of the library.
    fn of_answer(answer: u32) -> Option<Direction> {
        match answer {
            0x48 => Some(Direction::Host),
            0x44 => Some(Direction::Device),
            0x52 => Some(Direction::Reset),
            _ => None,
        }
    }
}

/// One record of a recording.
#[derive(Clone, Copy, Debug, PartialEq, Eq)]
pub struct Record<'a> {
    /// Who sent the bytes, or that it is a reset.
    pub direction: Direction,
    /// The record's own bytes: 1 to 1,030, and none for a reset.
    pub bytes: &'a [u8],
}

/// What stands at a place of a recording from which it can be read.
#[derive(Clone, Copy, Debug, PartialEq, Eq)]
pub enum Found<'a> {
    /// A record.
    Record {
        /// The record.
        record: Record<'a>,
        /// The place behind it, where the next one begins.
        next: usize,
    },
    /// Nothing more: the place is the recording's end.
    End,
}

/// Why no record can be read at a place. The first that applies, looked for in this order; each field is judged as soon as it is whole,
/// and before the next one is looked for.
#[derive(Clone, Copy, Debug, PartialEq, Eq)]
pub enum Unreadable {
    /// 1: the record does not begin with 52h 4Ch.
    BadMark,
    /// 2: its direction is none of the three.
    BadDirection,
    /// 3: its length is not 1 to 1,030, or that of a reset not 0.
    BadLength,
    /// 4: the recording ends before a field does that would have to be looked at, or before the place.
    CutShort,
}

impl Unreadable {
    /// The reason of a number among the answers of the library.
    pub(crate) fn of_answer(answer: u32) -> Unreadable {
        match answer {
            1 => Unreadable::BadMark,
            2 => Unreadable::BadDirection,
            3 => Unreadable::BadLength,
            4 => Unreadable::CutShort,
            _ => panic!("the library answered {}, which a reader never does", answer),
        }
    }

    /// Its number in `include/indraveck.h`.
    pub fn number(self) -> u32 {
        match self {
            Unreadable::BadMark => 1,
            Unreadable::BadDirection => 2,
            Unreadable::BadLength => 3,
            Unreadable::CutShort => 4,
        }
    }
}

impl fmt::Display for Unreadable {
    fn fmt(&self, f: &mut fmt::Formatter) -> fmt::Result {
        f.write_str(match self {
            Unreadable::BadMark => {
                "no record begins here, its mark is not 52h 4Ch: begin where a record does, or record the line again"
            }
            Unreadable::BadDirection => {
                "the record's direction is none of 48h host, 44h device and 52h reset: record the line again"
            }
            Unreadable::BadLength => {
                "the record's length is not 1 to 1,030, or that of a reset not 0: record the line again, each packet by itself"
            }
            Unreadable::CutShort => {
                "the recording ends before the record does: wait for the rest of it, or leave out the record that was begun"
            }
        })
    }
}

impl Error for Unreadable {}

/// A record that cannot be read, with its place.
#[derive(Clone, Copy, Debug, PartialEq, Eq)]
pub struct UnreadableAt {
    /// Where in the recording it begins; all before it was read.
    pub place: usize,
    /// Why it cannot be read.
    pub reason: Unreadable,
}

impl fmt::Display for UnreadableAt {
    fn fmt(&self, f: &mut fmt::Formatter) -> fmt::Result {
        write!(
            f,
            "at byte {} of the recording: {}",
            self.place, self.reason
        )
    }
}

// Display says all that the reason says, so that it is not its source.
impl Error for UnreadableAt {}

/// Why a record was not written: the first that applies, looked for in this order.
#[derive(Clone, Copy, Debug, PartialEq, Eq)]
pub enum Unwritable {
    /// 2: the direction is none of the three.
    BadDirection,
    /// 3: there are not 1 to 1,030 bytes, or for a reset not none.
    BadLength,
    /// 5: the record does not fit whole behind the place.
    NoRoom,
}

impl Unwritable {
    /// Its number in `include/indraveck.h`.
    pub fn number(self) -> u32 {
        match self {
            Unwritable::BadDirection => 2,
            Unwritable::BadLength => 3,
            Unwritable::NoRoom => 5,
        }
    }
}

impl fmt::Display for Unwritable {
    fn fmt(&self, f: &mut fmt::Formatter) -> fmt::Result {
        f.write_str(match self {
            Unwritable::BadDirection => {
                "the direction is none of 48h host, 44h device and 52h reset: pass one of these"
            }
            Unwritable::BadLength => {
                "a record has 1 to 1,030 bytes, and a reset none: record each packet by itself, and a reset without bytes"
            }
            Unwritable::NoRoom => {
                "the record does not fit into the buffer: lend one that has the record's bytes and 5 more behind the place"
            }
        })
    }
}

impl Error for Unwritable {}

/// Reads the record that begins at a place. Any place may be asked for; one behind the recording's end is cut short.
///
/// ```
/// use indraveck::recording::{read, Direction, Found, Record, Unreadable};
///
/// let recording = [0x52, 0x4C, 0x44, 0x00, 0x01, 0xC3, 0x52, 0x4C, 0x52];
/// let record = Record { direction: Direction::Device, bytes: &[0xC3] };
/// assert_eq!(read(&recording, 0), Ok(Found::Record { record, next: 6 }));
/// assert_eq!(read(&recording, 6), Err(Unreadable::CutShort));
/// assert_eq!(read(&recording, 1), Err(Unreadable::BadMark));
/// assert_eq!(read(&recording, 9), Ok(Found::End));
/// assert_eq!(read(&recording, 10), Err(Unreadable::CutShort));
/// ```
pub fn read(recording: &[u8], at: usize) -> Result<Found<'_>, Unreadable> {
    let found = raw::read_record(recording, at);
    if found.answer == END {
        return Ok(Found::End);
    }
    match Direction::of_answer(found.answer) {
        Some(direction) => Ok(Found::Record {
            record: Record {
                direction,
                bytes: &recording[found.from..found.to],
            },
            next: found.to,
        }),
        None => Err(Unreadable::of_answer(found.answer)),
    }
}

/// Writes one record, with any byte as its direction, and answers the place behind it, where the next one goes. Any place may be asked
/// for. The bytes before the record and behind it stay; a record that is refused leaves all of the buffer.
///
/// ```
/// use indraveck::recording::{write, Direction, Unwritable};
///
/// let mut buffer = [0xEE; 12];
/// assert_eq!(write(&mut buffer, 0, Direction::Device.byte(), &[0xC3]), Ok(6));
/// assert_eq!(write(&mut buffer, 6, Direction::Reset.byte(), &[]), Ok(11));
/// assert_eq!(buffer, [0x52, 0x4C, 0x44, 0x00, 0x01, 0xC3, 0x52, 0x4C, 0x52, 0x00, 0x00, 0xEE]);
/// assert_eq!(write(&mut buffer, 11, Direction::Reset.byte(), &[]), Err(Unwritable::NoRoom));
/// assert_eq!(write(&mut buffer, 0, Direction::Reset.byte(), &[0xC3]), Err(Unwritable::BadLength));
/// assert_eq!(write(&mut buffer, 0, 0x49, &[0xC3]), Err(Unwritable::BadDirection));
/// ```
pub fn write(
    buffer: &mut [u8],
    at: usize,
    direction: u8,
    bytes: &[u8],
) -> Result<usize, Unwritable> {
    let (answer, to) = raw::write_record(buffer, at, u32::from(direction), bytes);
    match answer {
        WRITTEN => Ok(to),
        2 => Err(Unwritable::BadDirection),
        3 => Err(Unwritable::BadLength),
        5 => Err(Unwritable::NoRoom),
        _ => panic!("the library answered {}, which a writer never does", answer),
    }
}

/// Writes one record behind a recording, which grows by it, so that there is always room. A record that is refused leaves the recording.
///
/// ```
/// use indraveck::recording::{append, Direction, Unwritable};
///
/// let mut recording = Vec::new();
/// append(&mut recording, Direction::Device.byte(), &[0xC3])?;
/// assert_eq!(append(&mut recording, Direction::Host.byte(), &[]), Err(Unwritable::BadLength));
/// assert_eq!(recording, [0x52, 0x4C, 0x44, 0x00, 0x01, 0xC3]);
/// # Ok::<(), Unwritable>(())
/// ```
pub fn append(recording: &mut Vec<u8>, direction: u8, bytes: &[u8]) -> Result<(), Unwritable> {
    let at = recording.len();
    // more bytes than that are refused before room is looked for
    recording.resize(at + HEAD_BYTES + bytes.len().min(MOST_BYTES), 0);
    match write(recording, at, direction, bytes) {
        Ok(_) => Ok(()),
        Err(refused) => {
            recording.truncate(at);
            Err(refused)
        }
    }
}

/// The records of a recording, from its beginning on. They end at its end; or behind one item that says which record cannot be read, and
/// why. So a recording of which no item is an error was read to its end.
///
/// ```
/// use indraveck::recording::{records, Unreadable, UnreadableAt};
///
/// let recording = [0x52, 0x4C, 0x44, 0x00, 0x01, 0xC3, 0x52, 0x4C, 0x52];
/// let mut sent = Vec::new();
/// let mut read = records(&recording);
/// let cut = read.by_ref().try_for_each(|record| record.map(|record| sent.extend_from_slice(record.bytes)));
/// assert_eq!(sent, [0xC3]);
/// assert_eq!(cut, Err(UnreadableAt { place: 6, reason: Unreadable::CutShort }));
/// assert_eq!(read.next(), None);
/// ```
pub fn records(recording: &[u8]) -> Records<'_> {
    Records {
        recording,
        place: 0,
        ended: false,
    }
}

/// An iterator over the records of a recording, which [`records`] gives.
#[derive(Clone, Debug)]
pub struct Records<'a> {
    recording: &'a [u8],
    place: usize,
    ended: bool,
}

impl Records<'_> {
    /// The place behind the last record that was read: where the next one begins, or where reading ended.
    pub fn place(&self) -> usize {
        self.place
    }
}

impl<'a> Iterator for Records<'a> {
    type Item = Result<Record<'a>, UnreadableAt>;

    fn next(&mut self) -> Option<Self::Item> {
        if self.ended {
            return None;
        }
        match read(self.recording, self.place) {
            Ok(Found::Record { record, next }) => {
                self.place = next;
                Some(Ok(record))
            }
            Ok(Found::End) => {
                self.ended = true;
                None
            }
            Err(reason) => {
                self.ended = true;
                Some(Err(UnreadableAt {
                    place: self.place,
                    reason,
                }))
            }
        }
    }
}

impl FusedIterator for Records<'_> {}
