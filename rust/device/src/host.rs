//! The host's end of the line: requests to a device, and the judge of what comes back.
//!
//! A [`Request`] is built as a [packet](Request::packet), which goes to the device. A [`Judge`] of that request takes the bytes that come
//! back, in any pieces, and gives a [`Verdict`]:
//!
//! ```
//! use indraveck::host::{Judge, Request, Verdict};
//! use indraveck::{Device, Profile};
//!
//! let profile = Profile::bench();
//! let mut device = Device::start(&profile, vec![0xFF; profile.total() as usize]).unwrap();
//! device.feed_all(&[0x00, 0x00, 0x55]);
//!
//! let request = Request::Erase { sad: 0x4000, ead: 0x7FFF };
//! let mut judge = Judge::new(&request);
//! assert_eq!(judge.verdict(), Verdict::Unanswered);
//! judge.take(&device.feed_all(&request.packet()?));
//! assert_eq!(judge.verdict(), Verdict::Passed);
//!
//! let request = Request::Area(2);
//! let mut judge = Judge::new(&request);
//! judge.take(&device.feed_all(&request.packet()?));
//! assert_eq!(judge.verdict(), Verdict::Refused(0xD0));
//! # Ok::<(), indraveck::host::Unbuilt>(())
//! ```
//!
//! What a packet holds and what a verdict says is proved; a judge that has heard nothing says [`Verdict::Unanswered`], and only a reply can
//! make it say [`Verdict::Passed`].
//!
//! A longer transfer is one request after the other. A write is [`Request::Write`] and then [`Request::WriteData`] until the range is full;
//! a read is [`Request::Read`] and then [`Request::Next`] with what is still unread:
//!
//! ```
//! use indraveck::host::{Judge, Request};
//! # use indraveck::{Device, Profile};
//! # let profile = Profile::bench();
//! # let mut device = Device::start(&profile, vec![0x5A; profile.total() as usize]).unwrap();
//! # device.image_mut()[0x1_0000..].fill(0xFF);
//! # device.feed_all(&[0x00, 0x00, 0x55]);
//!
//! let mut content = Vec::new();
//! let mut request = Request::Read { sad: 0x100, ead: 0x8FF };
//! loop {
//!     let mut judge = Judge::new(&request);
//!     let back = device.feed_all(&request.packet()?);
//!     let taken = judge.take(&back);
//!     if !judge.verdict().is_passed() {
//!         break;
//!     }
//!     content.extend_from_slice(&back[taken.data]);
//!     match 0x800 - content.len() as u32 {
//!         0 => break,
//!         left => request = Request::Next { left },
//!     }
//! }
//! assert_eq!(content, [0x5A; 0x800]);
//! # Ok::<(), indraveck::host::Unbuilt>(())
//! ```

use crate::profile::{Area, Kind};
use crate::raw;
use std::error::Error;
use std::fmt;
use std::ops::Range;

/// How many bytes the library keeps a judge in; `include/indraveck.h` says what stands where.
pub const JUDGE_BYTES: usize = 36;

/// How many bytes of data one packet carries at most.
pub const MOST_DATA: usize = 1024;

/// What the library answers when a packet was built or a judge begun.
const DONE: u32 = 1;

/// Bytes of a packet beside what stands behind COM or RES: 81h or 01h, length, COM or RES, SUM and ETX.
const FRAME_BYTES: usize = 6;

/// What stands behind COM at most where no bytes are lent for it: SAD and EAD.
const RANGE_BYTES: usize = 8;

/// Where a judge keeps the first bytes of the reply's data.
const DATA_AT: usize = 19;

/// What a host asks of a device: the eight commands, the data of a write, and a read's next packet.
///
/// Addresses, codes, rates and area numbers are not judged here: that is the device's to do.
#[derive(Clone, Copy, Debug, PartialEq, Eq)]
pub enum Request<'a> {
    /// 00h: whether the device is there.
    Inquiry,
    /// 12h: a range becomes FFh.
    Erase {
        /// The first address.
        sad: u32,
        /// The last address.
        ead: u32,
    },
    /// 13h: a range is to be written; [`Request::WriteData`] follows.
    Write {
        /// The first address.
        sad: u32,
        /// The last address.
        ead: u32,
    },
    /// 15h: a range is to be read. The first 1,024 bytes of it come back, or all if it has fewer; [`Request::Next`] asks for more.
    Read {
        /// The first address.
        sad: u32,
        /// The last address.
        ead: u32,
    },
    /// 30h: the ID code, or the one that erases everything.
    Authenticate(&'a [u8; 16]),
    /// 34h: a baud rate, BRT.
    Baud(u32),
    /// 3Ah: the device's signature; [`Judge::signature`] has it then.
    Signature,
    /// 3Bh: an area, by its number from 0 on; [`Judge::area`] has it then.
    Area(u8),
    /// In a write: its next data, 1 to 1,024 bytes.
    WriteData(&'a [u8]),
    /// In a read: its next packet.
    Next {
        /// How many bytes are still unread. It is not sent: the judge has to know how many to expect.
        left: u32,
    },
}

impl<'a> Request<'a> {
    /// Its number in `include/indraveck.h`.
    pub fn number(&self) -> u32 {
        match self {
            Request::Inquiry => 1,
            Request::Erase { .. } => 2,
            Request::Write { .. } => 3,
            Request::Read { .. } => 4,
            Request::Authenticate(_) => 5,
            Request::Baud(_) => 6,
            Request::Signature => 7,
            Request::Area(_) => 8,
            Request::WriteData(_) => 9,
            Request::Next { .. } => 10,
        }
    }

    /// The numbers of its own, 0 where it has none.
    fn own_numbers(&self) -> (u32, u32) {
        match *self {
            Request::Erase { sad, ead }
            | Request::Write { sad, ead }
            | Request::Read { sad, ead } => (sad, ead),
            Request::Baud(brt) => (brt, 0),
            Request::Area(number) => (number.into(), 0),
            Request::Next { left } => (left, 0),
            Request::Inquiry
            | Request::Authenticate(_)
            | Request::Signature
            | Request::WriteData(_) => (0, 0),
        }
    }

    /// The bytes that are lent beside the numbers.
    fn bytes(&self) -> &'a [u8] {
        match *self {
            Request::Authenticate(code) => code,
            Request::WriteData(data) => data,
            _ => &[],
        }
    }

    /// The request's packet, to be sent to the device.
    ///
    /// ```
    /// use indraveck::host::{Request, Unbuilt};
    ///
    /// assert_eq!(Request::Signature.packet()?, [0x01, 0x00, 0x01, 0x3A, 0xC5, 0x03]);
    /// assert_eq!(Request::Next { left: 1 }.packet()?, [0x81, 0x00, 0x02, 0x15, 0x00, 0xE9, 0x03]);
    /// assert_eq!(Request::Next { left: 0 }.packet(), Err(Unbuilt::NothingLeft));
    /// assert_eq!(Request::WriteData(&[]).packet(), Err(Unbuilt::WrongAmount));
    /// # Ok::<(), Unbuilt>(())
    /// ```
    pub fn packet(&self) -> Result<Vec<u8>, Unbuilt> {
        // more bytes than that are refused before room is looked for
        let room = FRAME_BYTES + self.bytes().len().clamp(RANGE_BYTES, MOST_DATA);
        let mut packet = vec![0; room];
        let length = self.packet_into(&mut packet)?;
        packet.truncate(length);
        Ok(packet)
    }

    /// The same at the front of a buffer: how many bytes the packet has. The bytes behind it stay; a request that is refused leaves all of the
    /// buffer. [`BUFFER_BYTES`](crate::BUFFER_BYTES) are enough for every packet.
    ///
    /// ```
    /// use indraveck::host::{Request, Unbuilt};
    ///
    /// let mut buffer = [0xEE; 8];
    /// assert_eq!(Request::Area(1).packet_into(&mut buffer), Ok(7));
    /// assert_eq!(buffer, [0x01, 0x00, 0x02, 0x3B, 0x01, 0xC2, 0x03, 0xEE]);
    /// assert_eq!(Request::Baud(9600).packet_into(&mut buffer), Err(Unbuilt::NoRoom));
    /// ```
    pub fn packet_into(&self, buffer: &mut [u8]) -> Result<usize, Unbuilt> {
        let (first, second) = self.own_numbers();
        let (answer, length) = raw::build(buffer, self.number(), first, second, self.bytes());
        match answer {
            DONE => Ok(length),
            2 => Err(Unbuilt::WrongAmount),
            3 => Err(Unbuilt::NothingLeft),
            4 => Err(Unbuilt::NoRoom),
            _ => panic!(
                "the library answered {}, which it never does to a request",
                answer
            ),
        }
    }
}

/// Why there is no packet: the first that applies, looked for in this order.
#[derive(Clone, Copy, Debug, PartialEq, Eq)]
pub enum Unbuilt {
    /// 2: the data of a write is not 1 to 1,024 bytes.
    WrongAmount,
    /// 3: a read's next packet is asked for, and nothing of it is unread.
    NothingLeft,
    /// 4: the buffer is shorter than the packet.
    NoRoom,
}

impl Unbuilt {
    /// Its number in `include/indraveck.h`.
    pub fn number(self) -> u32 {
        match self {
            Unbuilt::WrongAmount => 2,
            Unbuilt::NothingLeft => 3,
            Unbuilt::NoRoom => 4,
        }
    }
}

impl fmt::Display for Unbuilt {
    fn fmt(&self, f: &mut fmt::Formatter) -> fmt::Result {
        f.write_str(match self {
            Unbuilt::WrongAmount => {
                "a packet of a write has 1 to 1,024 bytes of data: send more in several packets, and nothing where nothing is left"
            }
            Unbuilt::NothingLeft => {
                "nothing of the read is left to be asked for: it ended with the packet before"
            }
            Unbuilt::NoRoom => {
                "the packet does not fit into the buffer: lend one of 1,030 bytes, which is enough for every packet"
            }
        })
    }
}

impl Error for Unbuilt {}

/// What became of a request.
///
/// There is no default: a judge starts with [`Verdict::Unanswered`], and so should whatever keeps its verdict.
#[must_use = "a request that was sent may be unanswered or refused"]
#[derive(Clone, Copy, Debug, PartialEq, Eq)]
pub enum Verdict {
    /// Nothing came back that decides: no byte, or part of a reply.
    Unanswered,
    /// The OK or the data that belongs to the request came back.
    Passed,
    /// An error reply to the request came back, with this status code, which is not 00h.
    Refused(u8),
    /// The first packet that came back is no reply to the request, or has a length that no packet has.
    WrongReply,
}

impl Verdict {
    /// The verdict of a number among the answers of the library to a judge.
    fn of_answer(answer: u32) -> Verdict {
        match answer {
            0 => Verdict::Unanswered,
            1 => Verdict::Passed,
            2 => Verdict::WrongReply,
            257..=511 => Verdict::Refused((answer - 256) as u8),
            _ => panic!("the library answered {}, which no judge says", answer),
        }
    }

    /// Its number in `include/indraveck.h`.
    pub fn number(self) -> u32 {
        match self {
            Verdict::Unanswered => 0,
            Verdict::Passed => 1,
            Verdict::WrongReply => 2,
            Verdict::Refused(code) => 256 + u32::from(code),
        }
    }

    /// Whether it is [`Verdict::Passed`], and nothing else.
    pub fn is_passed(self) -> bool {
        self == Verdict::Passed
    }
}

impl fmt::Display for Verdict {
    fn fmt(&self, f: &mut fmt::Formatter) -> fmt::Result {
        match self {
            Verdict::Unanswered => f.write_str("unanswered"),
            Verdict::Passed => f.write_str("passed"),
            Verdict::Refused(code) => {
                write!(f, "refused with {:02X}h, {}", code, status_in_words(*code))
            }
            Verdict::WrongReply => f.write_str("wrong reply"),
        }
    }
}

/// A status code's meaning in the protocol.
///
/// ```
/// assert_eq!(indraveck::host::status_in_words(0xC2), "checksum error");
/// ```
pub fn status_in_words(code: u8) -> &'static str {
    match code {
        0x00 => "OK",
        0xC0 => "unknown command",
        0xC1 => "packet error: wrong length, end byte or contents",
        0xC2 => "checksum error",
        0xC3 => "wrong stage for this command",
        0xD0 => "address error: the range is not one that this command takes, or no such area",
        0xD4 => "this baud rate cannot be set",
        0xDA => "outside the window",
        0xDB => "the ID code is another one",
        0xDC => "the ID code forbids a connection",
        0xE2 => "the target is not blank; nothing of this packet was written",
        _ => "a code of its own",
    }
}

/// What a judge took of some bytes.
#[derive(Clone, Debug, PartialEq, Eq)]
pub struct Taken {
    /// How many: all while the request is unanswered, those up to the deciding one, and none behind a verdict. What was not taken is still the
    /// caller's.
    pub count: usize,
    /// Which of them are the reply's data, which stands behind RES and before SUM; of a status it is the status code. It is worth something only
    /// if the verdict becomes [`Verdict::Passed`].
    pub data: Range<usize>,
}

/// What a signature says.
#[derive(Clone, Copy, Debug, PartialEq, Eq)]
pub struct Signature {
    /// The clock of the line, in Hz.
    pub sci: u32,
    /// The highest baud rate.
    pub rmb: u32,
    /// How many areas there are.
    pub noa: u8,
    /// TYP.
    pub typ: u8,
    /// BFV, its first byte high.
    pub bfv: u16,
}

/// What the message about an area says. Its numbers are as they came: a judge looks at the message's length alone.
#[derive(Clone, Copy, Debug, PartialEq, Eq)]
pub struct AreaMessage {
    /// KOA.
    pub koa: u8,
    /// The first address.
    pub sad: u32,
    /// The last address.
    pub ead: u32,
    /// The erase unit; 0 if it cannot be erased.
    pub eau: u32,
    /// The write unit; 0 if it cannot be written.
    pub wau: u32,
}

impl AreaMessage {
    /// The area as profiles have it; `None` if KOA is no kind of area.
    pub fn area(&self) -> Option<Area> {
        Some(Area {
            kind: Kind::of_number(self.koa)?,
            sad: self.sad,
            ead: self.ead,
            eau: self.eau,
            wau: self.wau,
        })
    }
}

/// A judge of the reply to one request.
///
/// It takes what comes back, in any pieces, and keeps no more of it than 36 bytes. The first packet decides, and a verdict is final:
///
/// ```
/// use indraveck::host::{Judge, Request, Taken, Verdict};
///
/// let mut judge = Judge::new(&Request::Inquiry);
/// // bytes before 81h are skipped
/// assert_eq!(judge.take(&[0xC3, 0x81, 0x00]), Taken { count: 3, data: 3..3 });
/// assert_eq!(judge.verdict(), Verdict::Unanswered);
/// // the rest of the reply, and a byte behind it
/// assert_eq!(judge.take(&[0x02, 0x00, 0x00, 0xFE, 0x03, 0x81]), Taken { count: 5, data: 2..3 });
/// assert_eq!(judge.verdict(), Verdict::Passed);
/// assert_eq!(judge.take(&[0x81]), Taken { count: 0, data: 0..0 });
/// ```
///
/// A clone goes on by itself from here.
#[derive(Clone, PartialEq, Eq)]
pub struct Judge([u8; JUDGE_BYTES]);

/// In words, not in bytes.
impl fmt::Debug for Judge {
    fn fmt(&self, f: &mut fmt::Formatter) -> fmt::Result {
        f.debug_struct("Judge")
            .field("request", &self.0[2])
            .field("verdict", &self.verdict())
            .field("reply_len", &self.four(11))
            .finish_non_exhaustive()
    }
}

impl Judge {
    /// A judge of the reply to a request: unanswered. Of its bytes it needs none, so that it may outlive them.
    pub fn new(request: &Request) -> Judge {
        let (first, second) = request.own_numbers();
        let mut judge = [0; JUDGE_BYTES];
        let answer = raw::judge_begin(&mut judge, request.number(), first, second);
        assert_eq!(answer, DONE, "every request has a judge");
        Judge(judge)
    }

    /// Takes bytes that came back, up to the one that decides; behind a verdict none.
    pub fn take(&mut self, bytes: &[u8]) -> Taken {
        let taken = raw::judge_take(&mut self.0, bytes);
        Taken {
            count: taken.count,
            data: taken.from..taken.to,
        }
    }

    /// What became of the request, as far as the bytes say that were taken.
    pub fn verdict(&self) -> Verdict {
        Verdict::of_answer(raw::judge_verdict(&self.0))
    }

    /// The signature, if that is what was asked for and it passed; otherwise `None`.
    ///
    /// ```
    /// use indraveck::host::{Judge, Request, Signature};
    ///
    /// let reply = [
    ///     0x81, 0x00, 0x0D, 0x3A, 0x03, 0x93, 0x87, 0x00, 0x00, 0x3D, 0x09, 0x00, 0x02, 0x01, 0x01, 0x00, 0x52, 0x03,
    /// ];
    /// let mut judge = Judge::new(&Request::Signature);
    /// judge.take(&reply[..17]);
    /// assert_eq!(judge.signature(), None);
    /// judge.take(&reply[17..]);
    /// let signature = Signature { sci: 60_000_000, rmb: 4_000_000, noa: 2, typ: 1, bfv: 0x0100 };
    /// assert_eq!(judge.signature(), Some(signature));
    /// ```
    pub fn signature(&self) -> Option<Signature> {
        let data = self.passed(&Request::Signature)?;
        Some(Signature {
            sci: self.four(data),
            rmb: self.four(data + 4),
            noa: self.0[data + 8],
            typ: self.0[data + 9],
            bfv: u16::from_be_bytes([self.0[data + 10], self.0[data + 11]]),
        })
    }

    /// What the message about an area says, if that is what was asked for and it passed; otherwise `None`.
    ///
    /// ```
    /// use indraveck::host::{Judge, Request};
    /// use indraveck::{Device, Profile};
    ///
    /// let profile = Profile::bench();
    /// let mut device = Device::start(&profile, vec![0xFF; profile.total() as usize]).unwrap();
    /// device.feed_all(&[0x00, 0x00, 0x55]);
    /// let mut judge = Judge::new(&Request::Area(1));
    /// judge.take(&device.feed_all(&Request::Area(1).packet()?));
    /// let message = judge.area().expect("it passed");
    /// assert_eq!(message.area(), Some(profile.areas[1]));
    /// # Ok::<(), indraveck::host::Unbuilt>(())
    /// ```
    pub fn area(&self) -> Option<AreaMessage> {
        let data = self.passed(&Request::Area(0))?;
        Some(AreaMessage {
            koa: self.0[data],
            sad: self.four(data + 1),
            ead: self.four(data + 5),
            eau: self.four(data + 9),
            wau: self.four(data + 13),
        })
    }

    /// Where the data is that passed as the answer to a request of this number.
    fn passed(&self, request: &Request) -> Option<usize> {
        let asked = u32::from(self.0[2]) == request.number();
        if asked && self.verdict().is_passed() {
            Some(DATA_AT)
        } else {
            None
        }
    }

    fn four(&self, at: usize) -> u32 {
        let bytes = &self.0[at..at + 4];
        u32::from_be_bytes([bytes[0], bytes[1], bytes[2], bytes[3]])
    }
}
