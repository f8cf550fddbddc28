//! Answers to whole packets: commands, write data and read requests.

use crate::device::{aligned, fresh, in_window, Device};
use crate::faults::{Fault, Faults};
use crate::layout::area_bytes;
use crate::packet::{etx_is_right, seal, status, sum_is_right, HEAD};
use crate::profile::{CONFIG, ID_LENGTH};
use crate::{baud, Area, Profile, Stage};

const INQUIRY: u8 = 0x00;
const ERASE: u8 = 0x12;
pub(crate) const WRITE: u8 = 0x13;
pub(crate) const READ: u8 = 0x15;
const AUTHENTICATE: u8 = 0x30;
const BAUD_RATE: u8 = 0x34;
const SIGNATURE: u8 = 0x3A;
const AREA: u8 = 0x3B;

/// Set in RES of every error reply.
pub(crate) const ERROR: u8 = 0x80;

const OK: u8 = 0x00;
const UNKNOWN: u8 = 0xC0;
pub(crate) const PACKET: u8 = 0xC1;
const CHECKSUM: u8 = 0xC2;
const FLOW: u8 = 0xC3;
const ADDRESS: u8 = 0xD0;
const RATE: u8 = 0xD4;
const PROTECTED: u8 = 0xDA;
const ID_UNEQUAL: u8 = 0xDB;
const ID_DISABLED: u8 = 0xDC;
const NOT_BLANK: u8 = 0xE2;

/// "ALeRASE" and nine FFh.
pub(crate) const TOTAL_ERASE: [u8; ID_LENGTH] = [
    0x41, 0x4C, 0x65, 0x52, 0x41, 0x53, 0x45, 0xFF, 0xFF, 0xFF, 0xFF, 0xFF, 0xFF, 0xFF, 0xFF, 0xFF,
];

const BLANK: u8 = 0xFF;
/// Most bytes that one read packet carries.
const READ_STEP: u32 = 1024;

/// Where `Fault::StoresFirstPacketOnly` remembers that one was stored.
const FIRST_STORED: u8 = 0x80;

/// COM or RES and what follows before SUM.
#[inline]
fn contents(packet: &[u8]) -> &[u8] {
    &packet[HEAD..packet.len() - 2]
}

#[inline]
fn number(bytes: &[u8]) -> u32 {
    u32::from_be_bytes([bytes[0], bytes[1], bytes[2], bytes[3]])
}

/// Looks at a stretch at a time: joining its bytes before the test is faster
/// than a test for each, and the search still stops at the first that fails.
fn is_blank(bytes: &[u8]) -> bool {
    bytes
        .chunks(64)
        .all(|stretch| stretch.iter().fold(BLANK, |all, byte| all & byte) == BLANK)
}

/// A range that a command names, with its area and its place in the image.
struct Target<'a> {
    first: u32,
    last: u32,
    area: &'a Area,
    place: usize,
}

impl<'a, F: Faults> Device<'a, F> {
    /// Answers a whole packet and gives the reply's length.
    pub(crate) fn answer(&mut self, packet: &[u8]) -> usize {
        if self.f.has(Fault::RefusesEveryRequest) {
            self.end_range();
            return self.status(packet[HEAD] | ERROR, PACKET);
        }
        if self.f.has(Fault::SaysOkToEverything) {
            return self.status(packet[HEAD], OK);
        }
        match self.state.stage {
            Stage::Writing { next, left } => match self.write_data(packet, next, left) {
                Ok(()) => self.status(WRITE, OK),
                Err(code) => {
                    if !self.f.has(Fault::ErrorKeepsWriting) {
                        self.end_range();
                    }
                    self.status(WRITE | ERROR, code)
                }
            },
            Stage::Reading { next, left } => match self.check_read_request(packet) {
                Ok(()) => {
                    let (_, place) = self.of_range(next);
                    self.send(next, left, place)
                }
                Err(code) => {
                    self.end_range();
                    self.status(READ | ERROR, code)
                }
            },
            _ => match self.command(packet) {
                Ok(count) => count,
                Err(code) => self.status(packet[HEAD] | ERROR, code),
            },
        }
    }

    pub(crate) fn status(&mut self, res: u8, sts: u8) -> usize {
        status(self.reply, res, sts)
    }

    /// Every end of a write or read leads to the command stage; the other
    /// stages have nothing to end.
    pub(crate) fn end_range(&mut self) {
        if let Stage::Writing { .. } | Stage::Reading { .. } = self.state.stage {
            self.state.stage = Stage::Command;
            self.forget_first_stored();
        }
    }

    /// The checks that every whole packet meets first.
    fn check_frame(&self, packet: &[u8]) -> Result<(), u8> {
        if self.f.has(Fault::EtxCheckedAfterSum) && !sum_is_right(packet) {
            Err(CHECKSUM)
        } else if !etx_is_right(packet) {
            Err(PACKET)
        } else if !self.f.has(Fault::SumNotChecked) && !sum_is_right(packet) {
            Err(CHECKSUM)
        } else {
            Ok(())
        }
    }

    fn command(&mut self, packet: &[u8]) -> Result<usize, u8> {
        self.check_frame(packet)?;
        let contents = contents(packet);
        let (com, information) = (contents[0], &contents[1..]);
        let expected = match com {
            INQUIRY | SIGNATURE => 0,
            ERASE | WRITE | READ => 8,
            AUTHENTICATE => ID_LENGTH,
            BAUD_RATE => 4,
            AREA => 1,
            _ => return Err(UNKNOWN),
        };
        let authentication = self.state.stage == Stage::Authentication;
        let right_stage = authentication == (com == AUTHENTICATE);
        if self.f.has(Fault::StageBeforeLength) && !right_stage {
            return Err(FLOW);
        }
        if information.len() != expected {
            return Err(PACKET);
        }
        if !right_stage {
            return Err(FLOW);
        }
        match com {
            ERASE => self.erase(information)?,
            WRITE => self.start_writing(information)?,
            READ => {
                let target = self.target(information)?;
                let left = target.last - target.first + 1;
                return Ok(self.send(target.first, left, target.place));
            }
            AUTHENTICATE => self.authenticate(information)?,
            BAUD_RATE => self.set_rate(number(information))?,
            SIGNATURE => return Ok(self.signature()),
            AREA => return self.area(usize::from(information[0])),
            // Inquiry: being answered is all there is to it.
            _ => {}
        }
        Ok(self.status(com, OK))
    }

    /// The range of a command's SAD and EAD, which must lie in one area.
    fn target(&self, information: &[u8]) -> Result<Target<'a>, u8> {
        let (first, last) = (number(information), number(&information[4..]));
        let (area, place) = self.p.locate(first, last).ok_or(ADDRESS)?;
        Ok(Target {
            first,
            last,
            area,
            place,
        })
    }

    /// The range of an erase or write, whose unit and window are checked.
    fn changeable(
        &self,
        information: &[u8],
        unit: impl Fn(&Area) -> u32,
    ) -> Result<Target<'a>, u8> {
        let target = self.target(information)?;
        let Target {
            first, last, area, ..
        } = target;
        if !aligned(self.f, unit(area), first, last) {
            Err(ADDRESS)
        } else if !in_window(self.f, self.p, area, first, last) {
            Err(PROTECTED)
        } else {
            Ok(target)
        }
    }

    fn erase(&mut self, information: &[u8]) -> Result<(), u8> {
        let target = if self.f.has(Fault::EraseByWriteUnit) {
            self.changeable(information, |area| area.wau)?
        } else {
            self.changeable(information, |area| area.eau)?
        };
        let mut behind = target.place + (target.last - target.first) as usize + 1;
        if self.f.has(Fault::EraseOneByteShort) {
            behind -= 1;
        }
        self.image[target.place..behind].fill(BLANK);
        Ok(())
    }

    fn start_writing(&mut self, information: &[u8]) -> Result<(), u8> {
        let Target { first, last, .. } = self.changeable(information, |area| area.wau)?;
        self.state.stage = Stage::Writing {
            next: first,
            left: last - first + 1,
        };
        self.forget_first_stored();
        Ok(())
    }

    fn authenticate(&mut self, code: &[u8]) -> Result<(), u8> {
        let bit_127 = self.state.id[0] & 0x80 != 0 || self.f.has(Fault::Bit127Ignored);
        let bit_126 = self.state.id[0] & 0x40 != 0 || self.f.has(Fault::Bit126Ignored);
        if !bit_127 {
            return Err(ID_DISABLED);
        }
        if code == TOTAL_ERASE && bit_126 {
            self.total_erase();
            return Ok(());
        }
        if code != self.state.id {
            return Err(ID_UNEQUAL);
        }
        self.state.stage = Stage::Command;
        Ok(())
    }

    /// Neither the window nor an erase unit of 0 limits it.
    fn total_erase(&mut self) {
        if self.f.has(Fault::TotalEraseSparesConfig) {
            let mut place = 0;
            for area in self.p.used() {
                let behind = place + area.size() as usize;
                if area.koa != CONFIG {
                    self.image[place..behind].fill(BLANK);
                }
                place = behind;
            }
        } else {
            self.image.fill(BLANK);
        }
        *self.state = fresh(self.f, self.p, self.image);
        if self.f.has(Fault::TotalEraseWakesUp) {
            self.state.stage = Stage::Command;
        }
    }

    fn set_rate(&mut self, brt: u32) -> Result<(), u8> {
        let Profile { sci, rmb, .. } = *self.p;
        match baud::requested(self.f, sci, rmb, brt) {
            Some(line) => {
                self.state.line = line;
                Ok(())
            }
            None => {
                if self.f.has(Fault::RefusedRateIsSet) && brt != 0 {
                    self.state.line = baud::unchecked(self.f, sci, brt);
                }
                Err(RATE)
            }
        }
    }

    fn signature(&mut self) -> usize {
        let message = &mut self.reply[HEAD..HEAD + 13];
        message[0] = SIGNATURE;
        message[1..5].copy_from_slice(&self.p.sci.to_be_bytes());
        message[5..9].copy_from_slice(&self.p.rmb.to_be_bytes());
        message[9] = self.p.noa;
        message[10] = self.p.typ;
        message[11..].copy_from_slice(&self.p.bfv.to_be_bytes());
        seal(self.reply, 13)
    }

    fn area(&mut self, number: usize) -> Result<usize, u8> {
        let area = self.p.used().get(number).ok_or(ADDRESS)?;
        let message = &mut self.reply[HEAD..HEAD + 18];
        message[0] = AREA;
        message[1..].copy_from_slice(&area_bytes(area));
        Ok(seal(self.reply, 18))
    }

    /// The area and the place in the image of a range in progress.
    fn of_range(&self, next: u32) -> (&'a Area, usize) {
        let found = self.p.locate(next, next);
        found.expect("a state that fits has its range in one area")
    }

    fn write_data(&mut self, packet: &[u8], next: u32, left: u32) -> Result<(), u8> {
        self.check_frame(packet)?;
        let contents = contents(packet);
        let (res, data) = (contents[0], &contents[1..]);
        let count = data.len() as u32;
        let (area, place) = self.of_range(next);
        if res != WRITE || count == 0 || count > left || count % area.wau != 0 {
            return Err(PACKET);
        }
        let target = &mut self.image[place..place + data.len()];
        let first_stored =
            self.f.has(Fault::StoresFirstPacketOnly) && self.state.line.abcs & FIRST_STORED != 0;
        if !first_stored {
            if !self.f.has(Fault::BlankCheckMissing) && !is_blank(target) {
                if self.f.has(Fault::PartialWriteOnE2) {
                    store_until_dirty(target, data, area.wau as usize);
                }
                return Err(NOT_BLANK);
            }
            target.copy_from_slice(data);
        }
        if count == left {
            self.end_range();
            return Ok(());
        }
        let step = if self.f.has(Fault::WriteDoesNotAdvance) {
            0
        } else {
            count
        };
        self.state.stage = Stage::Writing {
            next: next + step,
            left: left - count,
        };
        if self.f.has(Fault::StoresFirstPacketOnly) {
            self.state.line.abcs |= FIRST_STORED;
        }
        Ok(())
    }

    fn forget_first_stored(&mut self) {
        if self.f.has(Fault::StoresFirstPacketOnly) {
            self.state.line.abcs &= !FIRST_STORED;
        }
    }

    /// Checks the host's request for the next read packet.
    fn check_read_request(&self, packet: &[u8]) -> Result<(), u8> {
        self.check_frame(packet)?;
        match contents(packet) {
            [READ, OK] => Ok(()),
            [READ, _] if self.f.has(Fault::ReadStatusIgnored) => Ok(()),
            _ => Err(PACKET),
        }
    }

    /// Sends the next read packet, from its place in the image.
    fn send(&mut self, next: u32, left: u32, place: usize) -> usize {
        let step = if self.f.has(Fault::ReadPacketOneShort) {
            READ_STEP - 1
        } else {
            READ_STEP
        };
        let count = left.min(step);
        let length = 1 + count as usize;
        let message = &mut self.reply[HEAD..HEAD + length];
        message[0] = READ;
        message[1..].copy_from_slice(&self.image[place..place + count as usize]);
        self.state.stage = if count == left {
            Stage::Command
        } else {
            Stage::Reading {
                next: next + count,
                left: left - count,
            }
        };
        seal(self.reply, length)
    }
}

/// What `Fault::PartialWriteOnE2` does before its refusal.
fn store_until_dirty(target: &mut [u8], data: &[u8], unit: usize) {
    for (target, data) in target.chunks_mut(unit).zip(data.chunks(unit)) {
        if !is_blank(target) {
            break;
        }
        target.copy_from_slice(data);
    }
}
