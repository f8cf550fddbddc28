//! The judge of a reply: bytes in, as they come, and a verdict.

use super::{size, Request, MOST};
use crate::faults::{Fault, Faults, Right};
use crate::packet::{COMMAND, DATA, ETX, HEAD, LONGEST_DATA};
use crate::Area;

/// How much of a reply's data a judge keeps: all of an area message.
const KEPT: usize = 17;
const SIGNATURE: u64 = 12;
const AREA: u64 = 17;
/// The bit that an error reply's RES has beside COM or RES of the request.
const ERROR: u8 = 0x80;
/// The status codes that a device of the scope document has.
const CODES: [u8; 10] = [0xC0, 0xC1, 0xC2, 0xC3, 0xD0, 0xD4, 0xDA, 0xDB, 0xDC, 0xE2];

/// What has become of a request.
#[derive(Clone, Copy, Debug, PartialEq, Eq)]
pub enum Verdict {
    Unanswered,
    Passed,
    /// With the status code, which is not 0.
    Refused(u8),
    WrongReply,
}

impl Verdict {
    pub fn number(self) -> u32 {
        match self {
            Verdict::Unanswered => 0,
            Verdict::Passed => 1,
            Verdict::WrongReply => 2,
            Verdict::Refused(code) => 256 + u32::from(code),
        }
    }
}

/// What one call took: the first `count` of its bytes, and of these the ones
/// `from..to` are data of the reply, which stand behind RES and before SUM.
/// Both are `count` while the data is still to come, and 0 behind it.
#[derive(Clone, Copy, Debug, PartialEq, Eq)]
pub struct Taken {
    pub count: usize,
    pub from: usize,
    pub to: usize,
}

/// What passes as an answer.
enum Answer {
    /// A status reply with STS 00h.
    Status,
    /// A data packet with so many bytes behind RES.
    Data(u64),
    Nothing,
}

/// Judges the first packet that comes after a request.
#[derive(Clone, Copy, Debug, PartialEq, Eq)]
pub struct Judge {
    pub(super) request: Request,
    pub(super) verdict: Verdict,
    /// How much of the packet has come, 81h included.
    pub(super) came: usize,
    /// What the length bytes that have come say.
    pub(super) length: usize,
    /// Of all that has come from the length bytes to SUM.
    pub(super) sum: u8,
    pub(super) res: u8,
    pub(super) kept: [u8; KEPT],
}

impl Judge {
    pub fn start(request: Request) -> Judge {
        Judge::starting(Right, request)
    }

    /// [`Judge::start`] of a judge with a fault.
    pub fn start_with(f: Option<Fault>, request: Request) -> Judge {
        Judge::starting(f, request)
    }

    fn starting<F: Faults>(f: F, request: Request) -> Judge {
        let verdict = if f.has(Fault::VerdictStartsPassed) {
            Verdict::Passed
        } else {
            Verdict::Unanswered
        };
        Judge {
            request,
            verdict,
            came: 0,
            length: 0,
            sum: 0,
            res: 0,
            kept: [0; KEPT],
        }
    }

    pub fn request(&self) -> Request {
        self.request
    }

    pub fn verdict(&self) -> Verdict {
        self.verdict
    }

    /// The first bytes of the reply's data, 0 where none has come.
    pub fn kept(&self) -> &[u8; KEPT] {
        &self.kept
    }

    /// Takes bytes up to the one that decides, and none after that.
    pub fn take(&mut self, bytes: &[u8]) -> Taken {
        self.taking(Right, bytes)
    }

    /// [`Judge::take`] of a judge with a fault.
    pub fn take_with(&mut self, f: Option<Fault>, bytes: &[u8]) -> Taken {
        self.taking(f, bytes)
    }

    fn taking<F: Faults>(&mut self, f: F, bytes: &[u8]) -> Taken {
        if f.has(Fault::SumStartsAnewWithACall) {
            self.sum = 0;
        }
        if f.has(Fault::VerdictIsNotFinal) && self.verdict != Verdict::Unanswered {
            *self = Judge::start(self.request);
        }
        let mut count = 0;
        for byte in bytes {
            if self.verdict != Verdict::Unanswered {
                break;
            }
            self.step(f, *byte);
            count += 1;
        }
        if f.has(Fault::BytesBehindVerdictTaken) {
            count = bytes.len();
        }
        // Counted back from the last byte taken, since the packet may have
        // begun in an earlier call.
        let place = |in_packet: usize| (count + in_packet).saturating_sub(self.came).min(count);
        let first = HEAD + usize::from(!f.has(Fault::DataFromRes));
        let behind = HEAD + self.length + usize::from(f.has(Fault::DataWithSum));
        Taken {
            count,
            from: place(first),
            to: place(behind),
        }
    }

    fn step<F: Faults>(&mut self, f: F, byte: u8) {
        let place = self.came;
        if place == 0 && byte != DATA {
            if f.has(Fault::CommandPacketJudged) && byte == COMMAND {
                self.verdict = Verdict::WrongReply;
            }
            return;
        }
        if place == 1 && byte == DATA && f.has(Fault::SecondStartCounts) {
            return;
        }
        self.came += 1;
        match place {
            0 => return,
            1 => self.length = usize::from(byte) << 8,
            2 => self.length += usize::from(byte),
            HEAD => self.res = byte,
            _ if place < HEAD + self.length => {
                let most = KEPT - usize::from(f.has(Fault::KeepsOneByteFewer));
                let nth = place - HEAD - 1;
                if nth < most {
                    self.kept[nth] = byte;
                }
            }
            _ => {}
        }
        let is_etx = place == HEAD + self.length + 1;
        if !is_etx {
            self.sum = self.sum.wrapping_add(byte);
        }
        self.verdict = self.after(f, place, byte);
        let again = if place == 2 {
            f.has(Fault::BadLengthSkipped)
        } else {
            f.has(Fault::WrongPacketSkipped)
        };
        if again && self.verdict == Verdict::WrongReply {
            *self = Judge::start(self.request);
        }
    }

    /// The verdict after the byte at a place of the packet. Only a length that
    /// no packet has is decided on before ETX.
    fn after<F: Faults>(&self, f: F, place: usize, byte: u8) -> Verdict {
        let longest = LONGEST_DATA + usize::from(f.has(Fault::Length1026Awaited))
            - usize::from(f.has(Fault::Length1025Wrong));
        let good_length = (1..=longest).contains(&self.length);
        let whole = place == HEAD + self.length + 1;
        match place {
            1 if f.has(Fault::HighLengthDecides) && self.length > LONGEST_DATA => {
                Verdict::WrongReply
            }
            2 if !good_length && !f.has(Fault::BadLengthAwaited) => Verdict::WrongReply,
            HEAD if f.has(Fault::ResDecides) && self.res & !ERROR != self.request.code() => {
                Verdict::WrongReply
            }
            _ if f.has(Fault::SumDecides) && place > HEAD && place == HEAD + self.length => {
                self.on_packet(f, ETX)
            }
            _ if whole && !good_length => Verdict::WrongReply,
            _ if whole => self.on_packet(f, byte),
            _ => Verdict::Unanswered,
        }
    }

    /// The verdict on a whole packet of permitted length.
    fn on_packet<F: Faults>(&self, f: F, etx: u8) -> Verdict {
        let etx_is_right = etx == ETX || f.has(Fault::BadEtxPasses);
        let sum_is_right = self.sum == 0 || f.has(Fault::BadSumPasses);
        if !etx_is_right || !sum_is_right {
            return Verdict::WrongReply;
        }
        if self.is_ok(f) {
            return Verdict::Passed;
        }
        if self.is_error(f) {
            return Verdict::Refused(self.sts());
        }
        Verdict::WrongReply
    }

    /// What a status reply has behind RES.
    fn sts(&self) -> u8 {
        self.kept[0]
    }

    fn is_ok<F: Faults>(&self, f: F) -> bool {
        let own = self.res == self.request.code()
            || f.has(Fault::OtherResPasses) && self.res & ERROR == 0;
        own && match self.answer(f) {
            Answer::Status => {
                let length = self.length == 2 || f.has(Fault::LongStatusPasses) && self.length > 2;
                length && (self.sts() == 0 || f.has(Fault::StatusNotLookedAt))
            }
            Answer::Data(amount) => self.has_data(f, amount),
            Answer::Nothing => false,
        }
    }

    fn is_error<F: Faults>(&self, f: F) -> bool {
        let code = self.request.code();
        let transfer = |res| res == 0x13 | ERROR || res == 0x15 | ERROR;
        let own = self.res == code | ERROR
            || f.has(Fault::StatusWithoutBit7Refuses) && self.res == code
            || f.has(Fault::EarlyRefusalCounts) && self.res == ERROR && self.sts() == 0xC1
            || f.has(Fault::TransferErrorsAlike) && transfer(code | ERROR) && transfer(self.res);
        let length = self.length == 2 || f.has(Fault::LongErrorRefuses) && self.length > 2;
        let sts = self.sts() != 0 || f.has(Fault::StatusZeroRefuses) && self.res != code;
        let known = CODES.contains(&self.sts()) || !f.has(Fault::OtherCodesAreWrong);
        own && length && sts && known
    }

    fn answer<F: Faults>(&self, f: F) -> Answer {
        let unread = match self.request {
            Request::Signature => return Answer::Data(SIGNATURE),
            Request::Area(_) => return Answer::Data(AREA),
            Request::Read { sad, ead } if f.has(Fault::ReadSizeWraps) => {
                ead.wrapping_sub(sad).wrapping_add(1).into()
            }
            Request::Read { sad, ead } => size(sad, ead),
            Request::Next { left } => left.into(),
            _ => return Answer::Status,
        };
        match unread {
            0 if f.has(Fault::EmptyReadPasses) => Answer::Data(0),
            0 => Answer::Nothing,
            1 if f.has(Fault::OneByteReadIsStatus) => Answer::Status,
            _ => Answer::Data(unread.min(MOST as u64)),
        }
    }

    /// Whether the packet carries as much data as belongs to the request.
    fn has_data<F: Faults>(&self, f: F, amount: u64) -> bool {
        let there = self.length as u64 - 1;
        let read = self.request.code() == 0x15;
        there == amount
            || f.has(Fault::OtherDataLengthPasses) && !read
            || f.has(Fault::ShortReadPacketPasses) && read && (1..amount).contains(&there)
            || f.has(Fault::LongLastPacketPasses) && read && there > amount
    }

    /// SCI of a passed signature.
    pub fn sci(&self) -> Option<u32> {
        self.sci_by(Right)
    }

    /// [`Judge::sci`] of a judge with a fault.
    pub fn sci_with(&self, f: Option<Fault>) -> Option<u32> {
        self.sci_by(f)
    }

    fn sci_by<F: Faults>(&self, f: F) -> Option<u32> {
        let asked = self.request == Request::Signature;
        if !asked || !self.says_fields(f) {
            return None;
        }
        Some(self.number(0))
    }

    /// What a passed area message says.
    pub fn area(&self) -> Option<Area> {
        self.area_by(Right)
    }

    /// [`Judge::area`] of a judge with a fault.
    pub fn area_with(&self, f: Option<Fault>) -> Option<Area> {
        self.area_by(f)
    }

    fn area_by<F: Faults>(&self, f: F) -> Option<Area> {
        let asked = matches!(self.request, Request::Area(_));
        if !asked || !self.says_fields(f) {
            return None;
        }
        let swapped = f.has(Fault::UnitsSwapped);
        let (eau, wau) = if swapped { (13, 9) } else { (9, 13) };
        Some(Area {
            koa: self.kept[0],
            sad: self.number(1),
            ead: self.number(5),
            eau: self.number(eau),
            wau: self.number(wau),
        })
    }

    fn says_fields<F: Faults>(&self, f: F) -> bool {
        self.verdict == Verdict::Passed || f.has(Fault::FieldsWithoutPass)
    }

    /// The number that stands at a place of the data.
    fn number(&self, at: usize) -> u32 {
        let bytes = &self.kept[at..at + 4];
        u32::from_be_bytes([bytes[0], bytes[1], bytes[2], bytes[3]])
    }
}
