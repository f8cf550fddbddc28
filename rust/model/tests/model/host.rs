//! The host's end: the scope document's examples as the host sees them, and
//! the host on the line of the model's own device.

use crate::bench::*;
use indraveck_model::*;

pub const SIGNATURE: &str = "81 00 0D 3A 03 93 87 00 00 3D 09 00 02 01 01 00 52 03";
pub const CONFIG_AREA: &str =
    "81 00 12 3B 02 01 00 00 00 01 00 00 FF 00 00 00 00 00 00 00 10 A0 03";

/// One request of each kind. What is read is a single byte.
const EVERY_KIND: [Request; 10] = [
    Request::Inquiry,
    Request::Erase { sad: 0, ead: 0 },
    Request::Write { sad: 0, ead: 0 },
    Request::Read { sad: 0, ead: 0 },
    Request::Authenticate,
    Request::Baud(9600),
    Request::Signature,
    Request::Area(0),
    Request::WriteData,
    Request::Next { left: 1 },
];

/// RES of an OK to each of these.
const EVERY_CODE: [u8; 10] = [0x00, 0x12, 0x13, 0x15, 0x30, 0x34, 0x3A, 0x3B, 0x13, 0x15];

fn built(request: Request, bytes: &[u8]) -> Vec<u8> {
    let mut buffer = [UNTOUCHED; BUFFER + 1];
    let count = build(request, bytes, &mut buffer).unwrap();
    assert!(buffer[count..].iter().all(|byte| *byte == UNTOUCHED));
    buffer[..count].to_vec()
}

/// The verdict on bytes that come in one piece, and how many were taken.
fn judged(request: Request, bytes: &[u8]) -> (Verdict, usize) {
    let mut judge = Judge::start(request);
    assert_eq!(judge.verdict(), Verdict::Unanswered);
    let taken = judge.take(bytes);
    (judge.verdict(), taken.count)
}

#[test]
fn packets_of_the_examples() {
    let read = |ead| Request::Read { sad: 0, ead };
    let (sad, ead) = (0x4000, 0x7FFF);
    let table = [
        (Request::Signature, "01 00 01 3A C5 03"),
        (Request::Inquiry, "01 00 01 00 FF 03"),
        (
            Request::Erase { sad, ead },
            "01 00 09 12 00 00 40 00 00 00 7F FF 27 03",
        ),
        (
            Request::Write { sad: 0, ead: 0x7F },
            "01 00 09 13 00 00 00 00 00 00 00 7F 65 03",
        ),
        (read(0x3FF), "01 00 09 15 00 00 00 00 00 00 03 FF E0 03"),
        (read(0x400), "01 00 09 15 00 00 00 00 00 00 04 00 DE 03"),
        (Request::Area(2), "01 00 02 3B 02 C1 03"),
        (Request::Area(1), "01 00 02 3B 01 C2 03"),
        (Request::Baud(9600), "01 00 05 34 00 00 25 80 22 03"),
        (Request::Next { left: 1 }, NEXT_READ),
        (Request::Next { left: u32::MAX }, NEXT_READ),
    ];
    for (request, packet) in table {
        assert_eq!(built(request, &[]), hex(packet), "{request:?}");
    }
    let code = [&b"ALeRASE"[..], &[0xFF; 9]].concat();
    assert_eq!(built(Request::Authenticate, &code), hex(TOTAL_ERASE));
    for count in [1, 2, 255, 256, 1023, 1024] {
        let bytes = vec![0x5A; count];
        assert_eq!(built(Request::WriteData, &bytes), data(0x13, &bytes));
    }
    // A range that the device will refuse is built all the same.
    let reversed = Request::Read { sad: 1, ead: 0 };
    assert_eq!(built(reversed, &[]), ranged(0x15, 1, 0));
}

#[test]
fn what_cannot_be_built_leaves_the_buffer() {
    let next = |left| Request::Next { left };
    let table = [
        (Request::Authenticate, 15, 99, Unbuilt::WrongAmount),
        (Request::Authenticate, 17, 0, Unbuilt::WrongAmount),
        (Request::WriteData, 0, 0, Unbuilt::WrongAmount),
        (Request::WriteData, 1025, 2000, Unbuilt::WrongAmount),
        (Request::Inquiry, 1, 99, Unbuilt::WrongAmount),
        (next(0), 1, 0, Unbuilt::WrongAmount),
        (next(0), 0, 0, Unbuilt::NothingLeft),
        (next(0), 0, 99, Unbuilt::NothingLeft),
        (next(1), 0, 6, Unbuilt::NoRoom),
        (Request::Inquiry, 0, 5, Unbuilt::NoRoom),
        (Request::Baud(1), 0, 9, Unbuilt::NoRoom),
        (Request::Area(0), 0, 6, Unbuilt::NoRoom),
        (Request::Authenticate, 16, 21, Unbuilt::NoRoom),
        (Request::WriteData, 1024, 1029, Unbuilt::NoRoom),
    ];
    for (request, amount, room, refusal) in table {
        let mut buffer = vec![UNTOUCHED; room];
        let answer = build(request, &vec![1; amount], &mut buffer);
        assert_eq!(answer, Err(refusal), "{request:?}, {amount} in {room}");
        assert!(buffer.iter().all(|byte| *byte == UNTOUCHED));
    }
    for request in EVERY_KIND {
        let amount = match request {
            Request::Authenticate => 16,
            Request::WriteData => 1024,
            _ => 0,
        };
        let bytes = vec![1; amount];
        let count = built(request, &bytes).len();
        assert_eq!(build(request, &bytes, &mut vec![0; count]), Ok(count));
        let answer = build(request, &bytes, &mut vec![0; count - 1]);
        assert_eq!(answer, Err(Unbuilt::NoRoom));
    }
}

#[test]
fn replies_of_the_examples() {
    let erase = Request::Erase {
        sad: 0x4000,
        ead: 0x7FFF,
    };
    let table = [
        (Request::Signature, SIGNATURE, Verdict::Passed),
        (Request::Inquiry, OK_INQUIRY, Verdict::Passed),
        (
            Request::Inquiry,
            "81 00 02 80 C3 BB 03",
            Verdict::Refused(0xC3),
        ),
        (
            Request::Inquiry,
            "81 00 02 80 C2 BC 03",
            Verdict::Refused(0xC2),
        ),
        (
            Request::Inquiry,
            "81 00 02 80 C1 BD 03",
            Verdict::Refused(0xC1),
        ),
        // The early refusal says 80h, whatever was asked.
        (erase, "81 00 02 80 C1 BD 03", Verdict::WrongReply),
        (
            Request::Inquiry,
            "81 00 02 D5 C0 69 03",
            Verdict::WrongReply,
        ),
        (erase, OK_ERASE, Verdict::Passed),
        (
            Request::Area(2),
            "81 00 02 BB D0 73 03",
            Verdict::Refused(0xD0),
        ),
        (Request::Area(1), CONFIG_AREA, Verdict::Passed),
        (Request::Authenticate, OK_AUTHENTICATE, Verdict::Passed),
        (Request::Baud(9600), OK_RATE, Verdict::Passed),
        (Request::WriteData, OK_WRITE, Verdict::Passed),
    ];
    for (request, reply, verdict) in table {
        let reply = hex(reply);
        assert_eq!(judged(request, &reply), (verdict, reply.len()));
        // Waking bytes and packets that begin with 01h are skipped.
        let noise = hex("00 C3 01 00 01 00 FF 03");
        let noisy = [&noise[..], &reply, &noise].concat();
        let count = noise.len() + reply.len();
        assert_eq!(judged(request, &noisy), (verdict, count));
    }
    assert_eq!(Verdict::Unanswered.number(), 0);
    assert_eq!(Verdict::Passed.number(), 1);
    assert_eq!(Verdict::WrongReply.number(), 2);
    assert_eq!(Verdict::Refused(0xD0).number(), 0x1D0);
}

#[test]
fn what_the_messages_say() {
    let mut judge = Judge::start(Request::Signature);
    judge.take(&hex(SIGNATURE)[..17]);
    assert_eq!(judge.sci(), None);
    judge.take(&hex("03"));
    assert_eq!((judge.sci(), judge.area()), (Some(60_000_000), None));
    assert_eq!(judge.kept()[..12], hex(SIGNATURE)[4..16]);
    assert_eq!(judge.kept()[12..], [0; 5]);

    let mut judge = Judge::start(Request::Area(1));
    judge.take(&hex(CONFIG_AREA)[..22]);
    assert_eq!(judge.area(), None);
    judge.take(&hex("03"));
    let config = area(2, 0x0100_0000, 0x0100_00FF, 0, 0x10);
    assert_eq!((judge.sci(), judge.area()), (None, Some(config)));
    assert_eq!(judge.kept()[..], hex(CONFIG_AREA)[4..21]);

    let mut judge = Judge::start(Request::Signature);
    judge.take(&status(0xBA, 0xC3));
    assert_eq!((judge.sci(), judge.area()), (None, None));
    assert_eq!(judge.kept()[..2], [0xC3, 0]);
}

/// All that two bytes can say: each RES with each STS. A status passes once,
/// a byte that is read passes whatever it is, a message never has this length;
/// each has 255 refusals.
#[test]
fn every_status_reply_to_every_request() {
    for (request, code) in EVERY_KIND.into_iter().zip(EVERY_CODE) {
        let mut passed = 0;
        let mut refused = 0;
        for res in 0..=0xFF {
            for sts in 0..=0xFF {
                match judged(request, &status(res, sts)) {
                    (Verdict::Passed, 7) => {
                        assert_eq!(res, code);
                        passed += 1;
                    }
                    (Verdict::Refused(said), 7) => {
                        assert_eq!((res, sts), (code + 0x80, said));
                        assert!(said != 0);
                        refused += 1;
                    }
                    answer => assert_eq!(answer, (Verdict::WrongReply, 7)),
                }
            }
        }
        let passing = match code {
            0x15 => 256,
            0x3A | 0x3B => 0,
            _ => 1,
        };
        assert_eq!((passed, refused), (passing, 255), "{request:?}");
    }
}

/// Good packets of every length, with the RES of an OK and of an error.
#[test]
fn every_length_to_every_request() {
    let longer = [
        (Request::Next { left: 1023 }, 0x15, 1024),
        (Request::Next { left: 1024 }, 0x15, 1025),
        (Request::Next { left: 1025 }, 0x15, 1025),
        (Request::Next { left: u32::MAX }, 0x15, 1025),
        (
            Request::Read {
                sad: 0,
                ead: u32::MAX,
            },
            0x15,
            1025,
        ),
        (Request::Read { sad: 9, ead: 24 }, 0x15, 17),
        // Nothing can be read, so that nothing passes.
        (Request::Read { sad: 1, ead: 0 }, 0x15, 0),
        (
            Request::Read {
                sad: u32::MAX,
                ead: 0,
            },
            0x15,
            0,
        ),
        (Request::Next { left: 0 }, 0x15, 0),
    ];
    let short = EVERY_KIND
        .into_iter()
        .zip(EVERY_CODE)
        .map(|(request, code)| {
            let length = match code {
                0x3A => 13,
                0x3B => 18,
                _ => 2,
            };
            (request, code, length)
        });
    for (request, code, passing) in short.chain(longer) {
        for length in 1..=1025 {
            let reply = data(code, &vec![0; length - 1]);
            let verdict = if length == passing {
                Verdict::Passed
            } else {
                Verdict::WrongReply
            };
            assert_eq!(judged(request, &reply), (verdict, length + 5));
            let reply = data(code + 0x80, &vec![0xD0; length - 1]);
            let verdict = if length == 2 {
                Verdict::Refused(0xD0)
            } else {
                Verdict::WrongReply
            };
            assert_eq!(judged(request, &reply), (verdict, length + 5));
        }
    }
}

#[test]
fn a_length_that_no_packet_has_decides_at_once() {
    for length in 0..=0xFFFFu16 {
        let [high, low] = length.to_be_bytes();
        let verdict = match length {
            1..=1025 => Verdict::Unanswered,
            _ => Verdict::WrongReply,
        };
        for request in [Request::Inquiry, Request::Area(0)] {
            assert_eq!(judged(request, &[0x81, high]).0, Verdict::Unanswered);
            assert_eq!(judged(request, &[0x81, high, low]), (verdict, 3));
        }
    }
    // The first 81h begins the packet.
    let (verdict, count) = judged(Request::Inquiry, &hex("81 81 00 02 00 00 FE 03"));
    assert_eq!((verdict, count), (Verdict::WrongReply, 3));
}

/// A reply in any cuts: the same verdict after the same byte, and the parts
/// that are data are all of it.
#[test]
fn cuts_change_nothing() {
    let table = [
        (Request::Inquiry, hex(OK_INQUIRY)),
        (Request::Area(1), hex(CONFIG_AREA)),
        (Request::Area(2), status(0xBB, 0xD0)),
        (Request::Signature, data(0x3A, &[])),
        (Request::Signature, hex("81 00 00")),
        (Request::Next { left: 3 }, data(0x15, &[0x81, 0x00, 0x81])),
        (Request::Read { sad: 0, ead: 30 }, data(0x15, &[3; 31])),
    ];
    for (request, reply) in table {
        for (before, behind) in [(0, 0), (2, 1)] {
            let line = [vec![0x03; before], reply.clone(), vec![0x81; behind]].concat();
            let mut whole = Judge::start(request);
            let count = whole.take(&line).count;
            assert_eq!(count, before + reply.len());
            let carried = match reply.len() {
                3 => &[][..],
                length => &reply[4..length - 2],
            };
            let begin = before + 4;
            for first in 0..=line.len() {
                for second in first..=line.len() {
                    let mut judge = Judge::start(request);
                    let mut data: Vec<u8> = vec![];
                    let mut place = 0;
                    for part in [&line[..first], &line[first..second], &line[second..]] {
                        let taken = judge.take(part);
                        assert_eq!(taken.count, part.len().min(count - place));
                        let here = |at: usize| at.saturating_sub(place).min(taken.count);
                        let (from, to) = (here(begin), here(begin + carried.len()));
                        assert_eq!((taken.from, taken.to), (from, to));
                        data.extend(&part[from..to]);
                        place += taken.count;
                    }
                    assert_eq!(judge, whole);
                    assert_eq!(data, carried);
                    let nothing = Taken {
                        count: 0,
                        from: 0,
                        to: 0,
                    };
                    assert_eq!(judge.take(&reply), nothing);
                    assert_eq!(judge, whole);
                }
            }
        }
    }
}

/// The parts of a write, without the command before them.
fn parts(sad: u32, ead: u32, wau: u32) -> Vec<usize> {
    let count = (ead - sad) as usize + 1;
    let mut plan = plan(sad, ead, wau, count).unwrap();
    assert_eq!(plan.next(), Some((Request::Write { sad, ead }, 0..0)));
    let mut from = 0;
    let lengths = plan.map(|(request, part)| {
        assert_eq!((request, part.start), (Request::WriteData, from));
        from = part.end;
        part.len()
    });
    lengths.collect()
}

#[test]
fn plans() {
    let table: &[(u32, u32, u32, &[usize])] = &[
        (0, 0, 1, &[1]),
        (0, 0x7F, 0x80, &[0x80]),
        (0, 0x3FF, 0x80, &[0x400]),
        (0x80, 0x4FF, 0x80, &[0x400, 0x80]),
        (0, 0x400, 1, &[0x400, 1]),
        (0, 0xBFF, 0x400, &[0x400, 0x400, 0x400]),
        // 513 is more than half of what a packet carries, 1,000 all but 24.
        (0, 2051, 513, &[513, 513, 513, 513]),
        (0, 2999, 1000, &[1000, 1000, 1000]),
        (0, 2051, 3, &[1023, 1023, 6]),
        (0xFFFF_FC00, 0xFFFF_FFFF, 0x10, &[0x400]),
    ];
    for (sad, ead, wau, lengths) in table {
        assert_eq!(parts(*sad, *ead, *wau), *lengths);
    }
    let table = [
        (1, 0, 0, 0, Unplanned::Reversed),
        (1, 1, 0, 0, Unplanned::NoUnit),
        (1, 1, 1025, 0, Unplanned::LongUnit),
        (1, 1, u32::MAX, 0, Unplanned::LongUnit),
        (1, 1, 1024, 0, Unplanned::StartUnaligned),
        (0, 1, 1024, 0, Unplanned::EndUnaligned),
        (0, 1024, 1024, 0, Unplanned::EndUnaligned),
        (0, 1022, 1024, 1023, Unplanned::EndUnaligned),
        (0, u32::MAX, 3, 0, Unplanned::EndUnaligned),
        (0, u32::MAX, 2, 0, Unplanned::WrongAmount),
        (0, 1023, 1024, 1023, Unplanned::WrongAmount),
        (0, 1023, 1024, 1025, Unplanned::WrongAmount),
        (0, 0, 1, usize::MAX, Unplanned::WrongAmount),
    ];
    for (sad, ead, wau, count, refusal) in table {
        assert_eq!(plan(sad, ead, wau, count), Err(refusal));
    }
    assert!(plan(0, u32::MAX, 2, 1 << 32).is_ok());
}

/// Sends a request and judges what the device answers.
fn ask(bench: &mut Bench, request: Request, bytes: &[u8]) -> (Verdict, Vec<u8>) {
    let reply = bench.exchange(&built(request, bytes));
    let mut judge = Judge::start(request);
    let taken = judge.take(&reply);
    assert_eq!(taken.count, reply.len());
    (judge.verdict(), reply[taken.from..taken.to].to_vec())
}

/// Against the device: a plan is written in as many packets as there may be,
/// and what is read back is what was written.
#[test]
fn a_plan_is_written_and_read_back() {
    for (wau, units) in [
        (1, 3000),
        (0x10, 64),
        (0x80, 25),
        (0x400, 3),
        (513, 4),
        (3, 700),
    ] {
        let size = wau * units;
        let config = area(2, 0x0100_0000, 0x0100_00FF, 0, 0x10);
        let mut bench = Bench::woken(profile(&[area(0, 0, size * 3 - 1, 0, wau), config]));
        let (sad, ead) = (size, size * 2 - 1);
        let bytes: Vec<u8> = (0..size).map(|n| (n * 7 % 251) as u8).collect();
        let mut packets = 0;
        for (request, part) in plan(sad, ead, wau, bytes.len()).unwrap() {
            let (verdict, _) = ask(&mut bench, request, &bytes[part]);
            assert_eq!(verdict, Verdict::Passed, "{request:?} {wau}");
            packets += 1;
        }
        assert_eq!(bench.state.stage, Stage::Command);
        if 1024 % wau == 0 {
            assert_eq!(packets, 1 + (size + 1023) / 1024);
        }

        let (verdict, mut read) = ask(&mut bench, Request::Read { sad, ead }, &[]);
        assert_eq!(verdict, Verdict::Passed);
        while read.len() < bytes.len() {
            let left = size - read.len() as u32;
            let (verdict, part) = ask(&mut bench, Request::Next { left }, &[]);
            assert_eq!(verdict, Verdict::Passed);
            read.extend(part);
        }
        assert_eq!(read, bytes);
    }
}

#[test]
fn what_the_device_answers() {
    let code = Verdict::Refused;
    let mut bench = Bench::ready();
    let table: &[(Request, Verdict)] = &[
        (Request::Inquiry, Verdict::Passed),
        (Request::Signature, Verdict::Passed),
        (Request::Area(0), Verdict::Passed),
        (Request::Area(1), Verdict::Passed),
        (Request::Area(2), code(0xD0)),
        (Request::Baud(1_000_000), Verdict::Passed),
        (Request::Baud(0), code(0xD4)),
        (Request::Erase { sad: 0, ead: 1 }, code(0xD0)),
        (
            Request::Erase {
                sad: 0,
                ead: 0x1FFF,
            },
            Verdict::Passed,
        ),
        (Request::Write { sad: 0x7F, ead: 0 }, code(0xD0)),
        (Request::Read { sad: 1, ead: 0 }, code(0xD0)),
        (
            Request::Read {
                sad: 0,
                ead: 0xFFFF,
            },
            Verdict::Passed,
        ),
        (Request::Next { left: 0xFC00 }, Verdict::Passed),
        // The device says 95h to data that it didn't ask for.
        (Request::WriteData, Verdict::WrongReply),
        (Request::Inquiry, Verdict::Passed),
        (Request::Write { sad: 0, ead: 0xFF }, Verdict::Passed),
        (Request::WriteData, code(0xC1)),
        // Nothing is being read or written: the device skips these.
        (Request::WriteData, Verdict::Unanswered),
        (Request::Next { left: 1 }, Verdict::Unanswered),
    ];
    for &(request, verdict) in table {
        let bytes: &[u8] = match request {
            Request::WriteData => &[0x55; 9],
            _ => &[],
        };
        assert_eq!(ask(&mut bench, request, bytes).0, verdict, "{request:?}");
    }

    let mut bench = Bench::locked(&[0xF0; 16]);
    assert_eq!(ask(&mut bench, Request::Inquiry, &[]).0, code(0xC3));
    for (bytes, verdict) in [([0xF1; 16], code(0xDB)), ([0xF0; 16], Verdict::Passed)] {
        assert_eq!(ask(&mut bench, Request::Authenticate, &bytes).0, verdict);
    }
    assert_eq!(ask(&mut bench, Request::Inquiry, &[]).0, Verdict::Passed);
}
