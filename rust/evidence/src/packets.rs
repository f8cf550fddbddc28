//! Packets as a host makes them, and as a bad line leaves them.

pub const COMMAND: u8 = 0x01;
pub const DATA: u8 = 0x81;
pub const ETX: u8 = 0x03;

pub const INQUIRY: u8 = 0x00;
pub const ERASE: u8 = 0x12;
pub const WRITE: u8 = 0x13;
pub const READ: u8 = 0x15;
pub const AUTHENTICATE: u8 = 0x30;
pub const BAUD_RATE: u8 = 0x34;
pub const SIGNATURE: u8 = 0x3A;
pub const AREA: u8 = 0x3B;

pub const COMMANDS: [u8; 8] = [
    INQUIRY,
    ERASE,
    WRITE,
    READ,
    AUTHENTICATE,
    BAUD_RATE,
    SIGNATURE,
    AREA,
];

pub const WAKE_UP: [u8; 3] = [0x00, 0x00, 0x55];

/// The request for the next read packet.
pub const NEXT: [u8; 7] = [0x81, 0x00, 0x02, 0x15, 0x00, 0xE9, 0x03];

pub const TOTAL_ERASE: [u8; 16] = *b"ALeRASE\xFF\xFF\xFF\xFF\xFF\xFF\xFF\xFF\xFF";

/// Most data bytes that one packet carries.
pub const MOST_DATA: usize = 1024;

/// A packet whose length, SUM and ETX are those of its contents; the length is stated modulo 65,536.
pub fn packet(start: u8, contents: &[u8]) -> Vec<u8> {
    let mut packet = Vec::with_capacity(contents.len() + 5);
    packet.push(start);
    packet.extend_from_slice(&(contents.len() as u16).to_be_bytes());
    packet.extend_from_slice(contents);
    let sum = packet[1..].iter().fold(0u8, |sum, b| sum.wrapping_add(*b));
    packet.push(sum.wrapping_neg());
    packet.push(ETX);
    packet
}

pub fn command(com: u8, information: &[u8]) -> Vec<u8> {
    packet(COMMAND, &[&[com], information].concat())
}

pub fn data(res: u8, bytes: &[u8]) -> Vec<u8> {
    packet(DATA, &[&[res], bytes].concat())
}

/// The information of an erase, write or read.
pub fn range(first: u32, last: u32) -> Vec<u8> {
    [first.to_be_bytes(), last.to_be_bytes()].concat()
}

/// One thing that is wrong with a packet on the line.
#[derive(Clone, Copy, Debug, PartialEq, Eq)]
pub enum Flaw {
    None,
    Etx(u8),
    Sum(u8),
    Length(u16),
    Start(u8),
    Content { place: u32, by: u8 },
}

impl Flaw {
    /// `by` 0 counts as 1, so that a flaw is one.
    pub fn apply(self, packet: &mut [u8]) {
        let count = packet.len();
        if count < 6 {
            return;
        }
        match self {
            Flaw::None => {}
            Flaw::Etx(by) => packet[count - 1] ^= by.max(1),
            Flaw::Sum(by) => packet[count - 2] ^= by.max(1),
            Flaw::Length(length) => packet[1..3].copy_from_slice(&length.to_be_bytes()),
            Flaw::Start(start) => packet[0] = start,
            Flaw::Content { place, by } => packet[3 + place as usize % (count - 5)] ^= by.max(1),
        }
    }
}
