//! The host's end: requests built, and replies judged. The boundaries one by one, as in [`crate::systematic`], and random exchanges, as in
//! [`crate::histories`].

use crate::damage::{self, Damage};
use crate::effects;
use crate::guarded::Guarded;
use crate::line::{hex, Pair};
use crate::noise::Noise;
use crate::packets::{self, data, packet};
use crate::subject::{Judge, Numbers, Said};
use crate::systematic::{Case, Outcome};
use indraveck_model::Taken;
use proptest::collection::vec;
use proptest::prelude::*;

/// What building answers when there is a packet.
pub(crate) const BUILT: u32 = 1;
pub(crate) const UNANSWERED: u32 = 0;
pub(crate) const PASSED: u32 = 1;
const WRONG_REPLY: u32 = 2;
/// RES of an error has this bit beside that of the request.
const ERROR: u8 = 0x80;

const AUTHENTICATE: u32 = 5;
const WRITE_DATA: u32 = 9;
/// COM or RES of each request, by its number.
const CODES: [u8; 11] = [
    0xEE, 0x00, 0x12, 0x13, 0x15, 0x30, 0x34, 0x3A, 0x3B, 0x13, 0x15,
];
/// A code of 16 bytes, most data, and one more.
const MOST_BYTES: usize = packets::MOST_DATA + 1;

pub const fn asked(request: u32, first: u32, second: u32) -> Numbers {
    Numbers {
        request,
        first,
        second,
    }
}

/// Each request; those that read with every kind of length.
pub const REQUESTS: [Numbers; 18] = [
    asked(1, 0, 0),
    asked(2, 0, 0x1FFF),
    asked(3, 0, 0x7F),
    asked(4, 5, 5),
    asked(4, 0, 15),
    asked(4, 0, 0x3FF),
    asked(4, 0, 0x400),
    asked(4, 0, u32::MAX),
    asked(4, 1, 0),
    asked(AUTHENTICATE, 0, 0),
    asked(6, 9600, 0),
    asked(7, 0, 0),
    asked(8, 1, 0),
    asked(WRITE_DATA, 0, 0),
    asked(10, 1, 0),
    asked(10, 3, 0),
    asked(10, u32::MAX, 0),
    asked(10, 0, 0),
];

/// Those that take least come first.
pub const CASES: &[Case] = &[
    Case {
        name: "exchange_examples",
        run: exchange_examples,
        shows: &[
            "packet built",
            "packet refused with 2",
            "packet refused with 3",
            "packet refused with 4",
            "packet refused with 5",
            "judge passed",
            "judge refused",
            "judge said wrong reply",
            "judge unanswered",
            "signature kept",
            "area kept",
        ],
    },
    Case {
        name: "numbers_of_requests",
        run: numbers_of_requests,
        shows: &[
            "packet built",
            "packet refused with 2",
            "packet refused with 3",
            "packet refused with 4",
            "packet refused with 5",
            "no request judged",
            "judge passed",
        ],
    },
    Case {
        name: "replies_cut",
        run: replies_cut,
        shows: &[
            "judge passed",
            "judge refused",
            "judge said wrong reply",
            "judge unanswered",
            "nothing taken behind a verdict",
        ],
    },
    Case {
        name: "lengths_of_reads",
        run: lengths_of_reads,
        shows: &["judge passed", "judge refused", "judge said wrong reply"],
    },
    Case {
        name: "packets_built",
        run: packets_built,
        shows: &[
            "packet built",
            "packet refused with 2",
            "packet refused with 3",
            "packet refused with 4",
        ],
    },
    Case {
        name: "lengths_of_replies",
        run: lengths_of_replies,
        shows: &[
            "judge passed",
            "judge refused",
            "judge said wrong reply",
            "judge unanswered",
            "judge decided on a length",
        ],
    },
    Case {
        name: "codes_of_replies",
        run: codes_of_replies,
        shows: &["judge passed", "judge refused", "judge said wrong reply"],
    },
    Case {
        name: "replies_changed",
        run: replies_changed,
        shows: &[
            "judge passed",
            "judge refused",
            "judge said wrong reply",
            "judge unanswered",
            "judge decided on a length",
            "signature kept",
            "area kept",
        ],
    },
];

/// COM or RES; that of an inquiry where the numbers are no request.
fn code(numbers: Numbers) -> u8 {
    let known = CODES.get(numbers.request as usize).copied();
    known.unwrap_or(packets::INQUIRY)
}

/// How many bytes of data pass; `None` where a status does.
fn due(numbers: Numbers) -> Option<usize> {
    let (first, second) = (u64::from(numbers.first), u64::from(numbers.second));
    let left = match numbers.request {
        4 => (second + 1).saturating_sub(first),
        7 => 12,
        8 => 17,
        10 => first,
        _ => return None,
    };
    Some(left.min(packets::MOST_DATA as u64) as usize)
}

/// The reply that grants a request; where nothing is to be read, one without data.
fn granting(numbers: Numbers, noise: &mut Noise) -> Vec<u8> {
    match due(numbers) {
        None => data(code(numbers), &[0x00]),
        Some(count) => data(code(numbers), &noise.bytes(count)),
    }
}

fn refusing(numbers: Numbers, status: u8) -> Vec<u8> {
    data(code(numbers) | ERROR, &[status])
}

impl Pair<'_> {
    /// Both build a request into `room` bytes. All bytes are compared, with each other and with what they have to be.
    pub fn build(
        &self,
        room: usize,
        numbers: Numbers,
        bytes: &[u8],
    ) -> Result<(u32, Vec<u8>), String> {
        let before = Noise::new(room as u32 ^ numbers.request).bytes(room);
        let lent = Guarded::new(bytes);
        let (mut one, mut other) = (Guarded::new(&before), Guarded::new(&before));
        let tested = self.tested.build(one.lent_mut(), numbers, lent.lent());
        let right = self.model.build(other.lent_mut(), numbers, lent.lent());
        self.happened(effects::packet_built(right.0));
        let guarded = [&lent, &one, &other].iter().all(|slice| slice.is_guarded());
        let compared = if !guarded || lent.lent() != bytes {
            Err("what is around the buffer changed, or the bytes".to_string())
        } else {
            self.same("the answer", tested, right)
                .and_then(|()| self.same_bytes("the buffer", one.lent(), other.lent()))
                .and_then(|()| lawfully_built(right, &before, other.lent()))
        };
        compared.map_err(|difference| {
            format!(
                "{:?} with {} into {} bytes: {}",
                numbers,
                hex(bytes),
                room,
                difference
            )
        })?;
        Ok((right.0, one.lent()[..right.1].to_vec()))
    }

    /// The judges of both; `None` if both say that there is no such request.
    fn judges(&self, numbers: Numbers) -> Result<Option<Judges<'_>>, String> {
        let judges = [self.tested.judge(numbers), self.model.judge(numbers)];
        match judges {
            [Some(tested), Some(model)] => {
                let judges = Judges {
                    pair: self,
                    numbers,
                    tested,
                    model,
                    verdict: UNANSWERED,
                    heard: Vec::new(),
                };
                judges
                    .agree(0, (UNANSWERED, NOTHING), (UNANSWERED, NOTHING))
                    .map_err(|difference| format!("{:?} at first: {}", numbers, difference))?;
                Ok(Some(judges))
            }
            [None, None] => {
                self.happened("no request judged");
                Ok(None)
            }
            [tested, _] => Err(format!(
                "{:?} has a judge with {} alone",
                numbers,
                match tested {
                    Some(_) => self.tested.name(),
                    None => self.model.name(),
                }
            )),
        }
    }

    /// Both judge what comes back to a request that there is, in pieces of the lengths that `pieces` gives, until all was offered. The verdict,
    /// and how many bytes were taken.
    fn judge(
        &self,
        numbers: Numbers,
        back: &[u8],
        mut pieces: impl FnMut() -> usize,
    ) -> Result<(u32, usize), String> {
        let mut judges = match self.judges(numbers)? {
            Some(judges) => judges,
            None => return Err(format!("{:?} has no judge", numbers)),
        };
        let (mut rest, mut taken) = (back, 0);
        while !rest.is_empty() {
            let (piece, behind) = rest.split_at(pieces().clamp(1, rest.len()));
            taken += judges.take(piece)?.count;
            rest = behind;
        }
        judges.ended();
        Ok((judges.verdict, taken))
    }
}

const NOTHING: Taken = Taken {
    count: 0,
    from: 0,
    to: 0,
};

/// What holds of every packet that is built, whoever builds it.
fn lawfully_built((answer, length): (u32, usize), before: &[u8], after: &[u8]) -> Outcome {
    let holds = match answer {
        BUILT => {
            let sum = |bytes: &[u8]| bytes.iter().fold(0u8, |sum, byte| sum.wrapping_add(*byte));
            (6..=1030).contains(&length)
                && length <= after.len()
                && matches!(after[0], packets::COMMAND | packets::DATA)
                && after[1..3] == (length as u16 - 5).to_be_bytes()
                && sum(&after[1..length - 1]) == 0
                && after[length - 1] == packets::ETX
                && after[length..] == before[length..]
        }
        2..=5 => length == 0 && after == before,
        _ => false,
    };
    if holds {
        return Ok(());
    }
    Err(format!(
        "{} with the length {} is no answer, or not with this buffer",
        answer, length
    ))
}

/// A judge of each side, which hear the same.
struct Judges<'a> {
    pair: &'a Pair<'a>,
    numbers: Numbers,
    tested: Judge,
    model: Judge,
    verdict: u32,
    /// All bytes so far, to be shown.
    heard: Vec<u8>,
}

impl Judges<'_> {
    /// Both take the same bytes.
    fn take(&mut self, bytes: &[u8]) -> Result<Taken, String> {
        self.heard.extend_from_slice(bytes);
        let tested = self.tested.take(bytes);
        let right = self.model.take(bytes);
        self.agree(bytes.len(), tested, right)
            .and_then(|()| self.lawful(bytes, right))
            .map_err(|difference| {
                format!(
                    "{:?} and {}, {} of them now: {}",
                    self.numbers,
                    hex(&self.heard),
                    bytes.len(),
                    difference
                )
            })?;
        let (verdict, taken) = right;
        if self.verdict != UNANSWERED {
            self.pair.happened("nothing taken behind a verdict");
        }
        if taken.from < taken.to {
            self.pair.happened("data handed on");
        }
        self.verdict = verdict;
        Ok(taken)
    }

    fn agree(&self, count: usize, tested: (u32, Taken), right: (u32, Taken)) -> Outcome {
        self.pair.same("what was taken", tested, right)?;
        let said = [self.tested.said(), self.model.said()];
        if right.1.count > count {
            return Err(format!("{:?} is more than there was", right.1));
        }
        if said[1].verdict != right.0 {
            return Err(format!("{:?} behind the verdict {}", said[1], right.0));
        }
        let [one, other] = said;
        self.pair.same("what the judge says", one, other)?;
        if let (Some(one), Some(other)) = (self.tested.bytes(), self.model.bytes()) {
            self.pair.same("the judge's bytes", one, other)?;
        }
        match self.tested.is_guarded() && self.model.is_guarded() {
            true => Ok(()),
            false => Err("what is around the judge changed".to_string()),
        }
    }

    /// What holds of every judge, whoever it is.
    fn lawful(&self, bytes: &[u8], (verdict, taken): (u32, Taken)) -> Outcome {
        let known = matches!(verdict, UNANSWERED | PASSED | WRONG_REPLY | 257..=511);
        let all = taken.count == bytes.len();
        let holds = known
            && taken.from <= taken.to
            && taken.to <= taken.count
            && match self.verdict {
                UNANSWERED => verdict != UNANSWERED || all,
                before => verdict == before && taken == NOTHING,
            };
        match holds {
            true => Ok(()),
            false => Err(format!("{:?} and the verdict {}", taken, verdict)),
        }
    }

    /// What came of it, counted.
    fn ended(&self) {
        let pair = self.pair;
        let Said {
            verdict, sci, area, ..
        } = self.model.said();
        pair.happened(effects::judged(verdict));
        if sci.is_some() {
            pair.happened("signature kept");
        }
        if area.is_some() {
            pair.happened("area kept");
        }
        let start = self.heard.iter().position(|byte| *byte == packets::DATA);
        if let (WRONG_REPLY, Some(&[_, high, low, ..])) =
            (verdict, start.map(|start| &self.heard[start..]))
        {
            let length = u16::from_be_bytes([high, low]);
            if !(1..=1025).contains(&length) {
                pair.happened("judge decided on a length");
            }
        }
    }
}

/// All at once.
fn whole() -> usize {
    usize::MAX
}

fn byte_by_byte() -> usize {
    1
}

/// Fails if a case made fewer calls than it should: agreement says nothing where nobody was asked.
fn called(count: usize, least: usize) -> Outcome {
    if count >= least {
        return Ok(());
    }
    Err(format!("{} calls were made, expected {}", count, least))
}

/// A request with its bytes and a buffer's length; the answer and the packet.
type Building<'a> = (Numbers, &'a [u8], usize, u32, &'a [u8]);

/// Answers that are known beforehand.
fn exchange_examples(pair: &Pair) -> Outcome {
    let total = &packets::TOTAL_ERASE[..];
    let to_build: [Building; 19] = [
        (asked(1, 0, 0), &[], 9, 1, &[1, 0, 1, 0, 0xFF, 3]),
        (
            asked(2, 0x4000, 0x7FFF),
            &[],
            14,
            1,
            &[1, 0, 9, 0x12, 0, 0, 0x40, 0, 0, 0, 0x7F, 0xFF, 0x27, 3],
        ),
        (
            asked(3, 0x4000, 0x3F_FFFF),
            &[],
            99,
            1,
            &[1, 0, 9, 0x13, 0, 0, 0x40, 0, 0, 0x3F, 0xFF, 0xFF, 0x67, 3],
        ),
        (
            asked(4, 0x4000, 0x3F_FFFF),
            &[],
            99,
            1,
            &[1, 0, 9, 0x15, 0, 0, 0x40, 0, 0, 0x3F, 0xFF, 0xFF, 0x65, 3],
        ),
        (
            asked(5, 0, 0),
            total,
            22,
            1,
            &[
                1, 0, 0x11, 0x30, 0x41, 0x4C, 0x65, 0x52, 0x41, 0x53, 0x45, 255, 255, 255, 255,
                255, 255, 255, 255, 255, 0xAB, 3,
            ],
        ),
        (
            asked(6, 2_000_000, 0),
            &[],
            10,
            1,
            &[1, 0, 5, 0x34, 0, 0x1E, 0x84, 0x80, 0xA5, 3],
        ),
        (asked(7, 0, 0), &[], 6, 1, &[1, 0, 1, 0x3A, 0xC5, 3]),
        (asked(8, 2, 0), &[], 7, 1, &[1, 0, 2, 0x3B, 2, 0xC1, 3]),
        (asked(9, 0, 0), &[1], 7, 1, &[0x81, 0, 2, 0x13, 1, 0xEA, 3]),
        (asked(10, 1, 0), &[], 7, 1, &packets::NEXT),
        (asked(10, 5000, 0), &[], 7, 1, &packets::NEXT),
        (asked(10, 0, 0), &[], 7, 3, &[]),
        (asked(10, 0, 0), &[], 0, 3, &[]),
        (asked(10, 0, 0), &[0], 0, 2, &[]),
        (asked(5, 0, 0), &total[1..], 99, 2, &[]),
        (asked(9, 0, 0), &[], 99, 2, &[]),
        (asked(1, 0, 0), &[], 5, 4, &[]),
        (asked(8, 256, 0), &[1], 0, 5, &[]),
        (asked(0, 0, 0), &[], 99, 5, &[]),
    ];
    for (numbers, bytes, room, answer, expected) in to_build {
        let (built, packet) = pair.build(room, numbers, bytes)?;
        if (built, &packet[..]) != (answer, expected) {
            return Err(format!(
                "{:?} is built as {} {}",
                numbers,
                built,
                hex(&packet)
            ));
        }
    }
    let signature = [
        0x81, 0, 0x0D, 0x3A, 0x03, 0x93, 0x87, 0, 0, 0x3D, 0x09, 0, 2, 1, 1, 0, 0x52, 3,
    ];
    let area = [
        0x81, 0, 0x12, 0x3B, 2, 1, 0, 0, 0, 1, 0, 0, 0xFF, 0, 0, 0, 0, 0, 0, 0, 0x10, 0xA0, 3,
    ];
    let to_judge: [(Numbers, &[u8], u32, usize); 24] = [
        (asked(7, 0, 0), &signature, 1, 18),
        (asked(8, 1, 0), &area, 1, 23),
        (asked(7, 0, 0), &area, 2, 23),
        (asked(1, 0, 0), &[0x81, 0, 2, 0, 0, 0xFE, 3], 1, 7),
        (asked(1, 0, 0), &[0x81, 0, 2, 0x80, 0xC3, 0xBB, 3], 0x1C3, 7),
        (asked(1, 0, 0), &[0x81, 0, 2, 0x80, 0xC1, 0xBD, 3], 0x1C1, 7),
        (asked(2, 0, 9), &[0x81, 0, 2, 0x80, 0xC1, 0xBD, 3], 2, 7),
        (asked(1, 0, 0), &[0x81, 0, 2, 0xD5, 0xC0, 0x69, 3], 2, 7),
        (asked(2, 0, 9), &[0x81, 0, 2, 0x12, 0, 0xEC, 3], 1, 7),
        (asked(8, 2, 0), &[0x81, 0, 2, 0xBB, 0xD0, 0x73, 3], 0x1D0, 7),
        (asked(3, 0, 9), &[0x81, 0, 2, 0x13, 0, 0xEB, 3], 1, 7),
        (asked(9, 0, 0), &[0x81, 0, 2, 0x13, 0, 0xEB, 3], 1, 7),
        (asked(4, 0, 0), &[0x81, 0, 2, 0x15, 0xFF, 0xEA, 3], 1, 7),
        (asked(10, 1, 0), &[0x81, 0, 2, 0x15, 0, 0xE9, 3], 1, 7),
        (asked(10, 2, 0), &[0x81, 0, 2, 0x15, 0, 0xE9, 3], 2, 7),
        (asked(10, 0, 0), &[0x81, 0, 1, 0x15, 0xEA, 3], 2, 6),
        (asked(10, 1, 0), &[0x81, 0, 2, 0x93, 0xC1, 0xAA, 3], 2, 7),
        (asked(2, 0, 9), &[0x81, 0, 2, 0x92, 0, 0x6C, 3], 2, 7),
        (asked(2, 0, 9), &[0x81, 0, 2, 0x12, 0xD0, 0x1C, 3], 2, 7),
        (asked(1, 0, 0), &[0x81, 0, 2, 0, 0, 0xFE, 4], 2, 7),
        (asked(1, 0, 0), &[0x81, 0, 2, 0, 0, 0xFF, 3], 2, 7),
        (
            asked(1, 0, 0),
            &[0x81, 0, 0, 0x81, 0, 2, 0, 0, 0xFE, 3],
            2,
            3,
        ),
        (asked(1, 0, 0), &[0x81, 4, 2, 0, 0], 2, 3),
        (asked(1, 0, 0), &[0, 0xC3, 1, 0x81, 4, 1, 0, 0], 0, 8),
    ];
    for (numbers, back, verdict, count) in to_judge {
        for pieces in [whole, byte_by_byte] {
            let judged = pair.judge(numbers, back, pieces)?;
            if judged != (verdict, count) {
                return Err(format!(
                    "{:?} and {} are judged as {:?}",
                    numbers,
                    hex(back),
                    judged
                ));
            }
        }
    }
    Ok(())
}

/// Numbers that are requests and numbers that are none, also such as look like one in their low bytes.
fn numbers_of_requests(pair: &Pair) -> Outcome {
    let mut calls = 0;
    let large = [0x100, 0x101, 0x109, 0x8000_0001, 0xFFFF_FF05, u32::MAX];
    let own = [0, 1, 2, 0xFF, 0x100, 0x101, 0x1_0000, 0x8000_0000, u32::MAX];
    for request in (0..=0xFF).chain(large) {
        for first in own {
            for second in own {
                let numbers = asked(request, first, second);
                for amount in [0, 1, 16] {
                    for room in [0, 6, 40] {
                        pair.build(room, numbers, &packets::TOTAL_ERASE[..amount])?;
                        calls += 1;
                    }
                }
                if pair.judges(numbers)?.is_some() {
                    let reply = granting(numbers, &mut Noise::new(request));
                    pair.judge(numbers, &reply, whole)?;
                }
                calls += 1;
            }
        }
    }
    called(calls, 200_000)
}

/// Every request with amounts of bytes on both sides of every boundary, into buffers from none to two bytes more than its packet takes.
fn packets_built(pair: &Pair) -> Outcome {
    let bytes = Noise::new(21).bytes(70_000);
    let mut calls = 0;
    for numbers in REQUESTS {
        for amount in [
            0, 1, 2, 15, 16, 17, 18, 127, 128, 255, 256, 1022, 1023, 1024, 1025, 1026, 65_535,
            65_536, 65_552, 66_560, 70_000,
        ] {
            let data = &bytes[..amount];
            let has_it = match numbers.request {
                AUTHENTICATE => amount == 16,
                WRITE_DATA => (1..MOST_BYTES).contains(&amount),
                _ => amount == 0,
            };
            // where the amount is wrong, no buffer makes a difference
            let rooms: Vec<usize> = match has_it {
                true => (0..=amount + 16).collect(),
                false => vec![0, 1, 6, 7, 14, 22, 1030, 1031, 1032, amount + 6, amount + 7],
            };
            for room in rooms {
                pair.build(room, numbers, data)?;
                calls += 1;
            }
        }
    }
    for first in 0..=0xFF {
        for room in 6..=8 {
            pair.build(room, asked(8, first, 0), &[])?;
            calls += 1;
        }
    }
    called(calls, 9_000)
}

/// Granting and refusing replies and what is neither, with noise before and another reply behind: cut off at every place, in pieces that are cut
/// at every two, and byte by byte.
fn replies_cut(pair: &Pair) -> Outcome {
    let mut noise = Noise::new(22);
    let mut calls = 0;
    for numbers in REQUESTS {
        let granted = granting(numbers, &mut noise);
        let mut bad_sum = granted.clone();
        let sum = bad_sum.len() - 2;
        bad_sum[sum] ^= 0x40;
        for reply in [
            granted.clone(),
            refusing(numbers, 0xD0),
            bad_sum,
            data(packets::INQUIRY | ERROR, &[0xC1]),
            vec![0x81, 0x00, 0x00],
            vec![0x81, 0x04, 0x02],
        ] {
            for before in [&[][..], &[0x00, 0xC3, 0x01]] {
                let line = [before, &reply, &granted].concat();
                pair.judge(numbers, &line, byte_by_byte)?;
                let places: Vec<usize> = match line.len() {
                    0..=60 => (0..=line.len()).collect(),
                    // the edges of its parts, and one place among many
                    length => {
                        let edges = (0..30).chain(length / 2 - 15..length / 2 + 15);
                        edges.chain([1000, length - 1, length]).collect()
                    }
                };
                for first in &places {
                    pair.judge(numbers, &line[..*first], whole)?;
                    for second in places.iter().filter(|second| *second >= first) {
                        let mut judges = pair.judges(numbers)?.expect("a request");
                        judges.take(&line[..*first])?;
                        judges.take(&line[*first..*second])?;
                        judges.take(&line[*second..])?;
                        judges.ended();
                        calls += 1;
                    }
                }
            }
        }
    }
    called(calls, 100_000)
}

/// Reads of lengths on both sides of every boundary, and answers of as many, of one fewer and of one more.
fn lengths_of_reads(pair: &Pair) -> Outcome {
    let mut noise = Noise::new(23);
    let mut calls = 0;
    let sizes = (0..=20).chain(1020..=1030).chain(2046..=2050);
    let large = [0xFFFF, 0x1_0000, 0x1_0001, 0x7FFF_FFFF, 0xFFFF_FFFF];
    for size in sizes.chain(large) {
        let size: u32 = size;
        let top = u32::MAX - size;
        let mut reads = vec![asked(10, size, 0)];
        for sad in [0, 1, 0x8000_0000, top] {
            // a read of `size` bytes, if there are as many, and one that ends before it starts
            reads.extend(sad.checked_add(size).map(|behind| {
                let ead = behind.wrapping_sub(1);
                asked(4, sad, if size == 0 && sad == 0 { 0 } else { ead })
            }));
            reads.push(asked(4, sad, u32::MAX));
        }
        for numbers in reads {
            let due = due(numbers).expect("a read");
            let counts = [0, 1, 2, due.saturating_sub(1), due, due + 1, 1023, 1024];
            for count in counts.into_iter().filter(|count| *count <= 1024) {
                let reply = data(packets::READ, &noise.bytes(count));
                pair.judge(numbers, &reply, whole)?;
                calls += 1;
            }
            pair.judge(numbers, &refusing(numbers, 0xD0), whole)?;
        }
    }
    called(calls, 2_500)
}

/// Replies of every length that a packet may have and of many that it may not, with RES of the request, of an error and of others.
fn lengths_of_replies(pair: &Pair) -> Outcome {
    let mut calls = 0;
    let bytes = Noise::new(24).bytes(0x1_0000);
    let far = [1100, 2047, 2048, 0x8101, 0xFF00, 0xFFFE, 0xFFFF];
    for numbers in REQUESTS {
        for length in (0..=1040).chain(far) {
            let res = [code(numbers), code(numbers) | ERROR, 0x12, 0x93];
            for (res, status) in res.into_iter().zip([0x00, 0xD0, 0x00, 0xC1]) {
                let mut contents = bytes[..length].to_vec();
                for (place, byte) in contents.iter_mut().zip([res, status]) {
                    *place = byte;
                }
                let reply = packet(packets::DATA, &contents);
                pair.judge(numbers, &reply, whole)?;
                calls += 1;
            }
            // only its length, and then silence
            let [high, low] = (length as u16).to_be_bytes();
            pair.judge(numbers, &[packets::DATA, high, low], byte_by_byte)?;
        }
    }
    called(calls, 70_000)
}

/// Every RES with every byte behind it.
fn codes_of_replies(pair: &Pair) -> Outcome {
    let mut calls = 0;
    for numbers in REQUESTS {
        for res in 0..=0xFF {
            for status in 0..=0xFF {
                pair.judge(numbers, &data(res, &[status]), whole)?;
                calls += 1;
            }
            pair.judge(numbers, &data(res, &[]), whole)?;
            pair.judge(numbers, &data(res, &[0xD0, 0x00]), whole)?;
        }
    }
    called(calls, 1_000_000)
}

/// Granting and refusing replies with each byte changed to every value; those of long replies to some.
fn replies_changed(pair: &Pair) -> Outcome {
    let mut noise = Noise::new(25);
    let mut calls = 0;
    for numbers in REQUESTS {
        for reply in [granting(numbers, &mut noise), refusing(numbers, 0xD0)] {
            for place in 0..reply.len() {
                let values: Vec<u8> = match reply.len() {
                    0..=60 => (0..=0xFF).collect(),
                    _ => [0x00, 0x01, 0x03, 0x04, 0x81, 0xFF]
                        .into_iter()
                        .chain([reply[place] ^ 1, reply[place] ^ 0x80])
                        .collect(),
                };
                for value in values {
                    let mut changed = reply.clone();
                    changed[place] = value;
                    pair.judge(numbers, &changed, whole)?;
                    if changed.len() < 60 {
                        pair.judge(numbers, &changed, byte_by_byte)?;
                    }
                    calls += 1;
                }
            }
        }
    }
    called(calls, 100_000)
}

/// A request, what comes back to it, and how. What is generated are plain numbers, so that a failure shrinks.
#[derive(Clone, Debug)]
pub struct Exchange {
    pub request: u32,
    pub first: u32,
    pub second: u32,
    /// How many bytes are lent beside the request, and how many the buffer has.
    pub amount: u32,
    pub room: u32,
    pub back: Vec<Back>,
    pub damages: Vec<Damage>,
    /// Lengths of what is received at a time.
    pub pieces: Vec<u32>,
    pub seed: u32,
}

#[derive(Clone, Copy, Debug)]
pub enum Back {
    /// Bytes that are no packet, most likely.
    Noise(u32),
    /// The reply that grants the request.
    Granted,
    /// One that refuses it.
    Refused(u8),
    /// A status, whose RES may be the request's.
    Status { res: u8, status: u8 },
    /// Data, whose RES and length may be those of the request.
    Data { res: u8, count: u32 },
    /// 81h, and any length.
    Length(u16),
}

pub fn exchanges() -> impl Strategy<Value = Exchange> {
    let back = prop_oneof![
        2 => any::<u32>().prop_map(Back::Noise),
        6 => Just(Back::Granted),
        4 => any::<u8>().prop_map(Back::Refused),
        2 => any::<(u8, u8)>().prop_map(|(res, status)| Back::Status { res, status }),
        2 => any::<(u8, u32)>().prop_map(|(res, count)| Back::Data { res, count }),
        1 => any::<u16>().prop_map(Back::Length),
    ];
    let damage = prop_oneof![
        2 => damage::cut(),
        3 => damage::another_byte(),
        1 => damage::lost(),
        1 => damage::added(),
    ];
    let damages = prop_oneof![
        3 => Just(Vec::new()),
        2 => vec(damage, 1..3),
    ];
    let numbers = any::<(u32, u32, u32, u32, u32)>();
    let pieces = vec(any::<u32>(), 1..6);
    (numbers, vec(back, 0..4), damages, pieces, any::<u32>()).prop_map(
        |((request, first, second, amount, room), back, damages, pieces, seed)| Exchange {
            request,
            first,
            second,
            amount,
            room,
            back,
            damages,
            pieces,
            seed,
        },
    )
}

/// One that matters more often than others: short, on a boundary, or anything.
fn size(number: u32) -> u32 {
    match number % 8 {
        0..=2 => number / 8 % 40,
        3 => 1020 + number / 8 % 10,
        4 => 1 + number / 8 % 1024,
        5 => 2040 + number / 8 % 20,
        6 => u32::MAX - number / 8 % 3,
        _ => number / 8,
    }
}

impl Exchange {
    /// Mostly a request; now and then numbers that are none.
    pub fn numbers(&self) -> Numbers {
        let (first, second) = (self.first, self.second);
        match self.request % 16 {
            0 => asked(self.request / 16, first % 3, second % 2),
            1 => asked(self.request / 16 % 12, first, second),
            2 | 3 => {
                let sad = first % 0x1_0000;
                let ead = sad.wrapping_add(size(second)).wrapping_sub(1);
                asked(4, sad, ead)
            }
            4 => asked(4, first, second),
            5 | 6 => asked(10, size(first), 0),
            7 | 8 => asked(WRITE_DATA, 0, 0),
            9 => asked(AUTHENTICATE, 0, 0),
            10 => asked(2 + first % 2, first, second),
            11 => asked(6, first, 0),
            12 => asked(7, 0, 0),
            13 | 14 => asked(8, first % 0x100, 0),
            _ => asked(1, 0, 0),
        }
    }

    /// Mostly as many as the request has.
    fn amount(&self, numbers: Numbers) -> usize {
        let any = self.amount / 8;
        match (self.amount % 8, numbers.request) {
            (0, _) => any as usize % 1100,
            (1, _) => [0, 1, 15, 16, 17, 1024, 1025][any as usize % 7],
            (_, AUTHENTICATE) => 16,
            (_, WRITE_DATA) => 1 + size(any) as usize % packets::MOST_DATA,
            _ => 0,
        }
    }

    /// All that comes back.
    pub fn line(&self, numbers: Numbers) -> Vec<u8> {
        let mut noise = Noise::new(self.seed);
        let own = code(numbers);
        let res = |byte: u8| match byte % 4 {
            0 => own,
            1 => own | ERROR,
            2 => packets::COMMANDS[usize::from(byte / 4) % 8] | byte & ERROR,
            _ => byte,
        };
        let mut line = Vec::new();
        for back in &self.back {
            line.extend(match *back {
                Back::Noise(count) => noise.bytes(count as usize % 30),
                Back::Granted => granting(numbers, &mut noise),
                Back::Refused(status) => refusing(numbers, status),
                Back::Status { res: byte, status } => data(res(byte), &[status & res(status)]),
                Back::Data { res: byte, count } => {
                    let due = due(numbers).unwrap_or(1);
                    let count = match count % 4 {
                        0 => due,
                        1 => (due + count as usize / 4 % 3).saturating_sub(1),
                        2 => size(count / 4) as usize,
                        _ => count as usize / 4 % 20,
                    };
                    data(res(byte), &noise.bytes(count % 1030))
                }
                Back::Length(length) => {
                    let [high, low] = length.to_be_bytes();
                    vec![packets::DATA, high % 8, low]
                }
            });
        }
        for damage in &self.damages {
            damage.apply(&mut line);
        }
        line
    }
}

/// Builds the request, into a buffer of any length and into one that is long enough; judges what comes back, all at once, as it was cut, and
/// byte by byte, which makes no difference.
pub fn play(pair: &Pair, exchange: &Exchange) -> Outcome {
    let numbers = exchange.numbers();
    let bytes = Noise::new(exchange.seed ^ 1).bytes(exchange.amount(numbers));
    let room = match exchange.room % 4 {
        0 => exchange.room as usize / 4 % 1100,
        1 => exchange.room as usize / 4 % 24,
        // about as many as the packet has
        _ => (bytes.len().max(1) + 4 + exchange.room as usize / 4 % 12).min(1100),
    };
    let (_, short) = pair.build(room, numbers, &bytes)?;
    let (answer, packet) = pair.build(1030, numbers, &bytes)?;
    if !short.is_empty() && short != packet {
        return Err(format!(
            "{} in a short buffer is {} in a long one",
            hex(&short),
            hex(&packet)
        ));
    }
    let line = exchange.line(numbers);
    let lent = Guarded::new(&line);
    if pair.judges(numbers)?.is_none() {
        // 5: no request has these numbers
        return match answer {
            5 => Ok(()),
            _ => Err(format!("{:?} has a packet and no judge", numbers)),
        };
    }
    let at_once = pair.judge(numbers, lent.lent(), whole)?;
    let mut lengths = exchange.pieces.iter().cycle();
    let cut = pair.judge(numbers, lent.lent(), || {
        size(*lengths.next().expect("at least one")) as usize
    })?;
    let single = pair.judge(numbers, lent.lent(), byte_by_byte)?;
    if cut != at_once || single != at_once {
        return Err(format!(
            "{:?} and {}: {:?} at once, {:?} in pieces, {:?} byte by byte",
            numbers,
            hex(&line),
            at_once,
            cut,
            single
        ));
    }
    if !lent.is_guarded() || lent.lent() != &line[..] {
        return Err("what came back or what is around it changed".to_string());
    }
    Ok(())
}
