//! The host's end of the line: it builds the packets that go to the device,
//! judges what comes back for each of them, and plans a write.

mod judge;
mod kept;
mod plan;

pub use judge::{Judge, Taken, Verdict};
pub use kept::{judge_bytes, judge_from, JUDGE_BYTES};
pub use plan::{plan, plan_with, Plan, Unplanned};

use crate::faults::{Fault, Faults, Right};
use crate::packet::{COMMAND, DATA, ETX, FRAME, HEAD, LONGEST_DATA};

/// The most data that one packet carries: all but RES.
const MOST: usize = LONGEST_DATA - 1;
/// The bytes of an ID code.
const CODE: usize = 16;

/// One packet to the device, and what the host has to know to judge the reply.
#[derive(Clone, Copy, Debug, PartialEq, Eq)]
pub enum Request {
    Inquiry,
    Erase {
        sad: u32,
        ead: u32,
    },
    Write {
        sad: u32,
        ead: u32,
    },
    Read {
        sad: u32,
        ead: u32,
    },
    /// With the 16 bytes of a code, lent beside it.
    Authenticate,
    /// BRT.
    Baud(u32),
    Signature,
    /// The area's number.
    Area(u8),
    /// With 1 to 1,024 bytes, lent beside it.
    WriteData,
    /// Asks for a read's next packet; so many bytes are still unread.
    Next {
        left: u32,
    },
}

/// How many bytes a range has; none if it is reversed.
fn size(sad: u32, ead: u32) -> u64 {
    (u64::from(ead) + 1).saturating_sub(sad.into())
}

impl Request {
    /// The request of these numbers: its own, and the two that it may have; one
    /// that it does not have is 0.
    pub fn of_numbers(request: u32, first: u32, second: u32) -> Option<Request> {
        let (sad, ead) = (first, second);
        Some(match (request, first, second) {
            (1, 0, 0) => Request::Inquiry,
            (2, _, _) => Request::Erase { sad, ead },
            (3, _, _) => Request::Write { sad, ead },
            (4, _, _) => Request::Read { sad, ead },
            (5, 0, 0) => Request::Authenticate,
            (6, brt, 0) => Request::Baud(brt),
            (7, 0, 0) => Request::Signature,
            (8, number @ 0..=0xFF, 0) => Request::Area(number as u8),
            (9, 0, 0) => Request::WriteData,
            (10, left, 0) => Request::Next { left },
            _ => return None,
        })
    }

    /// The other way round.
    pub fn numbers(self) -> (u32, u32, u32) {
        match self {
            Request::Inquiry => (1, 0, 0),
            Request::Erase { sad, ead } => (2, sad, ead),
            Request::Write { sad, ead } => (3, sad, ead),
            Request::Read { sad, ead } => (4, sad, ead),
            Request::Authenticate => (5, 0, 0),
            Request::Baud(brt) => (6, brt, 0),
            Request::Signature => (7, 0, 0),
            Request::Area(number) => (8, u32::from(number), 0),
            Request::WriteData => (9, 0, 0),
            Request::Next { left } => (10, left, 0),
        }
    }

    /// COM, or RES where the packet is a data packet.
    fn code(self) -> u8 {
        match self {
            Request::Inquiry => 0x00,
            Request::Erase { .. } => 0x12,
            Request::Write { .. } | Request::WriteData => 0x13,
            Request::Read { .. } | Request::Next { .. } => 0x15,
            Request::Authenticate => 0x30,
            Request::Baud(_) => 0x34,
            Request::Signature => 0x3A,
            Request::Area(_) => 0x3B,
        }
    }

    /// The packet's first byte.
    fn start<F: Faults>(self, f: F) -> u8 {
        match self {
            Request::Next { .. } if f.has(Fault::NextSentAsCommand) => COMMAND,
            Request::WriteData | Request::Next { .. } => DATA,
            _ => COMMAND,
        }
    }

    /// Whether so many bytes are lent beside it as it has.
    fn has_amount<F: Faults>(self, f: F, amount: usize) -> bool {
        match self {
            Request::Authenticate => {
                amount == CODE || f.has(Fault::ShortCodeBuilt) && amount < CODE
            }
            Request::WriteData => {
                (1..=MOST).contains(&amount)
                    || f.has(Fault::Data1025Built) && amount == MOST + 1
                    || f.has(Fault::NoDataBuilt) && amount == 0
            }
            _ => amount == 0 || f.has(Fault::StrayBytesIgnored),
        }
    }
}

/// Why no packet was built, in order of check.
#[derive(Clone, Copy, Debug, PartialEq, Eq)]
pub enum Unbuilt {
    /// The bytes lent beside the request are not as many as it has.
    WrongAmount,
    /// Nothing is left to be asked for.
    NothingLeft,
    /// The packet is longer than the buffer.
    NoRoom,
}

/// Writes the request's packet to the front of the buffer and gives its
/// length, or why nothing was written. Ranges are the device's to judge.
pub fn build(request: Request, bytes: &[u8], buffer: &mut [u8]) -> Result<usize, Unbuilt> {
    building(Right, request, bytes, buffer)
}

/// [`build`] of a builder with a fault.
pub fn build_with(
    f: Option<Fault>,
    request: Request,
    bytes: &[u8],
    buffer: &mut [u8],
) -> Result<usize, Unbuilt> {
    building(f, request, bytes, buffer)
}

fn building<F: Faults>(
    f: F,
    request: Request,
    bytes: &[u8],
    buffer: &mut [u8],
) -> Result<usize, Unbuilt> {
    let mut numbers = [0; 8];
    let information = information(f, request, bytes, &mut numbers);
    let length = 1 + information.len();
    let count = length + FRAME;
    let behind = count + usize::from(f.has(Fault::FullBufferRefused));
    let refusal = refusal(f, request, bytes.len(), behind <= buffer.len());
    let head = (length as u16).to_be_bytes();

    if let Some(refusal) = refusal {
        let writes = f.has(Fault::HeadWithoutRoomBuilt) && refusal == Unbuilt::NoRoom;
        if writes && buffer.len() >= HEAD {
            buffer[0] = request.start(f);
            buffer[1..HEAD].copy_from_slice(&head);
        }
        return Err(refusal);
    }
    buffer[0] = request.start(f);
    buffer[1..HEAD].copy_from_slice(&head);
    buffer[HEAD] = request.code();
    buffer[HEAD + 1..HEAD + length].copy_from_slice(information);
    let summed = 1 + usize::from(f.has(Fault::SumWithoutHighLength));
    let sum = buffer[summed..HEAD + length]
        .iter()
        .fold(0u8, |sum, byte| sum.wrapping_sub(*byte));
    buffer[HEAD + length] = sum;
    buffer[HEAD + length + 1] = ETX;
    if f.has(Fault::BehindPacketCleared) {
        buffer[count..].fill(0);
    }
    Ok(count)
}

/// What stands behind COM or RES. The numbers are a place for those of it.
fn information<'a, F: Faults>(
    f: F,
    request: Request,
    bytes: &'a [u8],
    numbers: &'a mut [u8; 8],
) -> &'a [u8] {
    match request {
        Request::Inquiry | Request::Signature => &[],
        Request::Erase { sad, ead } | Request::Write { sad, ead } | Request::Read { sad, ead } => {
            let swapped = f.has(Fault::SadAndEadSwapped);
            let (first, second) = if swapped { (ead, sad) } else { (sad, ead) };
            numbers[..4].copy_from_slice(&first.to_be_bytes());
            numbers[4..].copy_from_slice(&second.to_be_bytes());
            numbers
        }
        Request::Baud(brt) => {
            numbers[..4].copy_from_slice(&brt.to_be_bytes());
            &numbers[..4]
        }
        Request::Area(number) => {
            numbers[0] = number;
            &numbers[..1]
        }
        // STS 00h
        Request::Next { .. } => &numbers[..1],
        Request::Authenticate | Request::WriteData => bytes,
    }
}

fn refusal<F: Faults>(f: F, request: Request, amount: usize, room: bool) -> Option<Unbuilt> {
    let wrong_amount = !request.has_amount(f, amount);
    let nothing_left = request == (Request::Next { left: 0 }) && !f.has(Fault::NextOfNothingBuilt);
    if f.has(Fault::RoomBeforeAmount) && !room {
        return Some(Unbuilt::NoRoom);
    }
    if f.has(Fault::NothingLeftBeforeAmount) && nothing_left {
        return Some(Unbuilt::NothingLeft);
    }
    if wrong_amount {
        return Some(Unbuilt::WrongAmount);
    }
    if f.has(Fault::RoomBeforeNothingLeft) && !room {
        return Some(Unbuilt::NoRoom);
    }
    if nothing_left {
        return Some(Unbuilt::NothingLeft);
    }
    if !room {
        return Some(Unbuilt::NoRoom);
    }
    None
}
