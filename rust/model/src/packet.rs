//! Packets: start byte, length (high byte first), contents, SUM, ETX.

use std::ops::Range;

pub(crate) const COMMAND: u8 = 0x01;
pub(crate) const DATA: u8 = 0x81;
pub(crate) const ETX: u8 = 0x03;

pub(crate) const LONGEST_COMMAND: usize = 256;
pub(crate) const LONGEST_DATA: usize = 1025;

/// Start byte and length bytes: what precedes the contents.
pub(crate) const HEAD: usize = 3;
/// All of a packet but its contents.
pub(crate) const FRAME: usize = 5;
/// The longest packet, and so the least size of either buffer.
pub(crate) const BUFFER: usize = LONGEST_DATA + FRAME;

/// The length that a packet's head states.
#[inline]
pub(crate) fn stated_length(packet: &[u8]) -> usize {
    usize::from(u16::from_be_bytes([packet[1], packet[2]]))
}

#[inline]
fn added(bytes: &[u8]) -> u8 {
    bytes.iter().fold(0, |sum, byte| sum.wrapping_add(*byte))
}

/// Whether length bytes, contents and SUM of a whole packet add to 0.
#[inline]
pub(crate) fn sum_is_right(packet: &[u8]) -> bool {
    added(&packet[1..packet.len() - 1]) == 0
}

#[inline]
pub(crate) fn etx_is_right(packet: &[u8]) -> bool {
    packet[packet.len() - 1] == ETX
}

/// Makes a data packet around contents that already stand in their place
/// behind the head, and gives its length on the line.
#[inline]
pub(crate) fn seal(reply: &mut [u8], length: usize) -> usize {
    reply[0] = DATA;
    reply[1..HEAD].copy_from_slice(&(length as u16).to_be_bytes());
    reply[HEAD + length] = added(&reply[1..HEAD + length]).wrapping_neg();
    reply[HEAD + length + 1] = ETX;
    length + FRAME
}

/// Writes a status reply and gives its length on the line.
#[inline]
pub(crate) fn status(reply: &mut [u8], res: u8, sts: u8) -> usize {
    reply[HEAD] = res;
    reply[HEAD + 1] = sts;
    seal(reply, 2)
}

/// Where the contents (COM or RES and what follows before SUM) stand, if the
/// first `count` bytes are exactly one good packet of either kind.
pub fn payload(receive: &[u8], count: usize) -> Option<Range<usize>> {
    let packet = receive.get(..count)?;
    // Below this nothing can be whole: no contents are shorter than COM.
    if count <= FRAME {
        return None;
    }
    let longest = match packet[0] {
        COMMAND => LONGEST_COMMAND,
        DATA => LONGEST_DATA,
        _ => return None,
    };
    let length = stated_length(packet);
    let good = (1..=longest).contains(&length)
        && count == length + FRAME
        && etx_is_right(packet)
        && sum_is_right(packet);
    if good {
        Some(HEAD..HEAD + length)
    } else {
        None
    }
}

#[cfg(test)]
mod tests {
    use super::*;

    /// The makers' error replies: every RES with every STS.
    #[test]
    fn status_sums() {
        const CODES: [u8; 10] = [0xC0, 0xC1, 0xC2, 0xC3, 0xD0, 0xD4, 0xDA, 0xDB, 0xDC, 0xE2];
        const TABLE: [(u8, [u8; 10]); 8] = [
            (
                0x80,
                [0xBE, 0xBD, 0xBC, 0xBB, 0xAE, 0xAA, 0xA4, 0xA3, 0xA2, 0x9C],
            ),
            (
                0x92,
                [0xAC, 0xAB, 0xAA, 0xA9, 0x9C, 0x98, 0x92, 0x91, 0x90, 0x8A],
            ),
            (
                0x93,
                [0xAB, 0xAA, 0xA9, 0xA8, 0x9B, 0x97, 0x91, 0x90, 0x8F, 0x89],
            ),
            (
                0x95,
                [0xA9, 0xA8, 0xA7, 0xA6, 0x99, 0x95, 0x8F, 0x8E, 0x8D, 0x87],
            ),
            (
                0xB0,
                [0x8E, 0x8D, 0x8C, 0x8B, 0x7E, 0x7A, 0x74, 0x73, 0x72, 0x6C],
            ),
            (
                0xB4,
                [0x8A, 0x89, 0x88, 0x87, 0x7A, 0x76, 0x70, 0x6F, 0x6E, 0x68],
            ),
            (
                0xBA,
                [0x84, 0x83, 0x82, 0x81, 0x74, 0x70, 0x6A, 0x69, 0x68, 0x62],
            ),
            (
                0xBB,
                [0x83, 0x82, 0x81, 0x80, 0x73, 0x6F, 0x69, 0x68, 0x67, 0x61],
            ),
        ];
        for (res, sums) in TABLE {
            for (sts, sum) in CODES.into_iter().zip(sums) {
                let mut reply = [0; 7];
                assert_eq!(status(&mut reply, res, sts), 7);
                assert_eq!(reply, [0x81, 0x00, 0x02, res, sts, sum, 0x03]);
            }
        }
    }
}
