//! The host's end: requests built, replies judged, and both with a device at the other end.

mod common;

use common::{awake, blank, packet, range, write_data};
use indraveck::host::{status_in_words, AreaMessage, Judge, Request, Signature, Taken};
use indraveck::host::{Unbuilt, Verdict, JUDGE_BYTES, MOST_DATA};
use indraveck::{raw, Device, Kind, Profile, BUFFER_BYTES};
use std::error::Error;
use std::ops::Range;

const SIGNATURE_REPLY: [u8; 18] = [
    0x81, 0x00, 0x0D, 0x3A, 0x03, 0x93, 0x87, 0x00, 0x00, 0x3D, 0x09, 0x00, 0x02, 0x01, 0x01, 0x00,
    0x52, 0x03,
];

const CODE: [u8; 16] = *b"ALeRASE\xFF\xFF\xFF\xFF\xFF\xFF\xFF\xFF\xFF";

fn status(res: u8, code: u8) -> Vec<u8> {
    packet(0x81, &[res, code])
}

/// One of each.
fn requests() -> [Request<'static>; 10] {
    let (sad, ead) = (0x2000, 0x207F);
    [
        Request::Inquiry,
        Request::Erase { sad, ead },
        Request::Write { sad, ead },
        Request::Read { sad, ead },
        Request::Authenticate(&CODE),
        Request::Baud(115_200),
        Request::Signature,
        Request::Area(1),
        Request::WriteData(&[0x5A; 128]),
        Request::Next { left: 128 },
    ]
}

/// COM or RES, and how many bytes of data pass; none where a status does.
fn due(request: &Request) -> (u8, Option<usize>) {
    match request {
        Request::Inquiry => (0x00, None),
        Request::Erase { .. } => (0x12, None),
        Request::Write { .. } | Request::WriteData(_) => (0x13, None),
        Request::Read { .. } | Request::Next { .. } => (0x15, Some(128)),
        Request::Authenticate(_) => (0x30, None),
        Request::Baud(_) => (0x34, None),
        Request::Signature => (0x3A, Some(12)),
        Request::Area(_) => (0x3B, Some(17)),
    }
}

fn passing(request: &Request) -> Vec<u8> {
    match due(request) {
        (com, None) => status(com, 0x00),
        (com, Some(count)) => {
            let data = (0..count).map(|n| n as u8);
            let contents: Vec<u8> = std::iter::once(com).chain(data).collect();
            packet(0x81, &contents)
        }
    }
}

fn verdict(request: &Request, reply: &[u8]) -> Verdict {
    let mut judge = Judge::new(request);
    judge.take(reply);
    judge.verdict()
}

#[test]
fn packets_are_those_of_the_protocol() {
    let sad_ead = |com| range(com, 0x2000, 0x207F);
    let authenticate = [&[0x30], &CODE[..]].concat();
    let data = [&[0x13], &[0x5A; 128][..]].concat();
    let expected = [
        packet(0x01, &[0x00]),
        sad_ead(0x12),
        sad_ead(0x13),
        sad_ead(0x15),
        packet(0x01, &authenticate),
        packet(0x01, &[0x34, 0x00, 0x01, 0xC2, 0x00]),
        packet(0x01, &[0x3A]),
        packet(0x01, &[0x3B, 0x01]),
        packet(0x81, &data),
        packet(0x81, &[0x15, 0x00]),
    ];
    for (request, expected) in requests().iter().zip(expected) {
        assert_eq!(request.packet(), Ok(expected), "{:?}", request);
    }
    let first = Request::WriteData(&write_data(3)[4..132]).packet();
    assert_eq!(first, Ok(write_data(3)));
}

#[test]
fn a_packet_fits_whole_or_is_not_built() {
    for request in requests() {
        let whole = request.packet().unwrap();
        for room in 0..=whole.len() + 2 {
            let mut buffer = vec![0xEE; room];
            let built = request.packet_into(&mut buffer);
            if room < whole.len() {
                assert_eq!(built, Err(Unbuilt::NoRoom));
                assert_eq!(buffer, vec![0xEE; room]);
            } else {
                assert_eq!(built, Ok(whole.len()));
                assert_eq!(buffer[..whole.len()], whole);
                assert!(buffer[whole.len()..].iter().all(|byte| *byte == 0xEE));
            }
        }
    }
}

#[test]
fn data_is_1_to_1024_bytes() {
    let bytes = [0xA5; 70_000];
    for count in (0..=1030).chain([2048, 65_535, 65_536, 70_000]) {
        let request = Request::WriteData(&bytes[..count]);
        let mut buffer = [0xEE; BUFFER_BYTES];
        let into = request.packet_into(&mut buffer);
        if (1..=MOST_DATA).contains(&count) {
            let contents = [&[0x13], &bytes[..count]].concat();
            assert_eq!(request.packet(), Ok(packet(0x81, &contents)));
            assert_eq!(into, Ok(count + 6));
        } else {
            assert_eq!(request.packet(), Err(Unbuilt::WrongAmount));
            assert_eq!(into, Err(Unbuilt::WrongAmount));
            assert_eq!(buffer, [0xEE; BUFFER_BYTES]);
        }
    }
    // the amount and what is left are looked at before the room
    let wrong = Request::WriteData(&[]).packet_into(&mut []);
    assert_eq!(wrong, Err(Unbuilt::WrongAmount));
    let over = Request::Next { left: 0 }.packet_into(&mut []);
    assert_eq!(over, Err(Unbuilt::NothingLeft));
}

#[test]
fn a_judge_starts_unanswered_and_only_a_reply_makes_it_pass() {
    for request in requests() {
        let mut judge = Judge::new(&request);
        assert_eq!(judge.verdict(), Verdict::Unanswered);
        // what a host hears of a device that is off, or of its own packets
        judge.take(&[]);
        judge.take(&[0x00; 500]);
        judge.take(&[0x01, 0x00, 0x01, 0x00, 0xFF, 0x03]);
        assert_eq!(judge.verdict(), Verdict::Unanswered);
        assert!(!judge.verdict().is_passed());
        let reply = passing(&request);
        judge.take(&reply[..reply.len() - 1]);
        assert_eq!(judge.verdict(), Verdict::Unanswered);
        judge.take(&reply[reply.len() - 1..]);
        assert_eq!(judge.verdict(), Verdict::Passed);
        assert!(judge.verdict().is_passed());
    }
}

#[test]
fn replies_pass_only_the_requests_that_they_answer() {
    let mut passed = 0;
    for asked in requests() {
        for answered in requests() {
            let same = due(&asked) == due(&answered);
            let reply = passing(&answered);
            match verdict(&asked, &reply) {
                Verdict::Passed => assert!(same, "{:?} {:?}", asked, answered),
                Verdict::WrongReply => assert!(!same, "{:?} {:?}", asked, answered),
                other => panic!("{:?} {:?}: {}", asked, answered, other),
            }
            passed += usize::from(same);
        }
    }
    // each its own; write and its data, read and its next packet each other's
    assert_eq!(passed, 14);
}

#[test]
fn errors_refuse_with_their_code() {
    for request in requests() {
        let (com, data) = due(&request);
        for code in 0..=0xFF {
            let refused = verdict(&request, &status(com | 0x80, code));
            let plain = verdict(&request, &status(com, code));
            if code == 0 {
                assert_eq!(refused, Verdict::WrongReply);
                let ok = if data.is_none() {
                    Verdict::Passed
                } else {
                    Verdict::WrongReply
                };
                assert_eq!(plain, ok);
            } else {
                assert_eq!(refused, Verdict::Refused(code));
                assert_eq!(plain, Verdict::WrongReply);
            }
        }
        let longer = packet(0x81, &[com | 0x80, 0xD0, 0x00]);
        assert_eq!(verdict(&request, &longer), Verdict::WrongReply);
        let bare = packet(0x81, &[com | 0x80]);
        assert_eq!(verdict(&request, &bare), Verdict::WrongReply);
    }
}

#[test]
fn every_byte_of_a_reply_counts() {
    for request in requests() {
        let reply = passing(&request);
        let (_, data) = due(&request);
        for place in 0..reply.len() {
            for by in [0x01, 0x02, 0x80, 0xFF] {
                let mut changed = reply.clone();
                changed[place] ^= by;
                let judged = verdict(&request, &changed);
                assert!(!judged.is_passed(), "{:?} {:02X?}", request, changed);
            }
        }
        // data with another SUM that fits is not judged
        if data.is_some() {
            let mut other = reply.clone();
            other[4] = other[4].wrapping_add(7);
            let sum = other.len() - 2;
            other[sum] = other[sum].wrapping_sub(7);
            assert_eq!(verdict(&request, &other), Verdict::Passed);
        }
    }
}

#[test]
fn bytes_are_taken_up_to_the_one_that_decides() {
    for request in requests() {
        let reply = passing(&request);
        let line = [&[0xC3, 0x01][..], &reply, &reply].concat();
        let (start, decided) = (2, 2 + reply.len());
        let data = start + 4..decided - 2;
        for cut in 0..=line.len() {
            let mut judge = Judge::new(&request);
            let clipped = |from: usize, to: usize| -> Range<usize> {
                let place = |at: usize| at.clamp(from, to) - from;
                place(data.start)..place(data.end)
            };
            let first = cut.min(decided);
            let taken = judge.take(&line[..cut]);
            assert_eq!(taken.count, first);
            assert_eq!(taken.data, clipped(0, first));
            let taken = judge.take(&line[cut..]);
            assert_eq!(taken.count, decided - first);
            if first < decided {
                assert_eq!(taken.data, clipped(first, decided));
            } else {
                let none = Taken {
                    count: 0,
                    data: 0..0,
                };
                assert_eq!(taken, none);
            }
            assert_eq!(judge.verdict(), Verdict::Passed);
        }
    }
}

#[test]
fn reads_have_exactly_what_is_left_up_to_1024() {
    let of_data = |count: usize| packet(0x81, &[&[0x15], &vec![0x5A; count][..]].concat());
    for left in [1, 2, 3, 1023, 1024, 1025, 2048, 65_536, u32::MAX] {
        let due = left.min(1024) as usize;
        let sad = u32::MAX - (left - 1);
        let ead = u32::MAX;
        for request in [Request::Next { left }, Request::Read { sad, ead }] {
            for count in [0, 1, 2, 3, due - 1, due, due + 1, 1022, 1023, 1024] {
                if count > 1024 {
                    continue;
                }
                let expected = if count == due {
                    Verdict::Passed
                } else {
                    Verdict::WrongReply
                };
                let judged = verdict(&request, &of_data(count));
                assert_eq!(judged, expected, "{:?} {}", request, count);
            }
        }
    }
    // more than 32 bits count
    let all = Request::Read {
        sad: 0,
        ead: u32::MAX,
    };
    assert_eq!(verdict(&all, &of_data(1024)), Verdict::Passed);
    // nothing passes a read of nothing
    for nothing in [Request::Read { sad: 1, ead: 0 }, Request::Next { left: 0 }] {
        for count in 0..=1024 {
            assert_eq!(verdict(&nothing, &of_data(count)), Verdict::WrongReply);
        }
        let refused = verdict(&nothing, &status(0x95, 0xD0));
        assert_eq!(refused, Verdict::Refused(0xD0));
    }
}

#[test]
fn lengths_outside_1_to_1025_decide_at_once() {
    for length in (0..=1100u16).chain([2047, 2048, 0x8101, 0xFFFF]) {
        let [high, low] = length.to_be_bytes();
        let mut judge = Judge::new(&Request::Inquiry);
        let taken = judge.take(&[0x81, high, low, 0x00, 0x00]);
        if (1..=1025).contains(&length) {
            // the shortest is five bytes of six by now
            assert_eq!((taken.count, judge.verdict()), (5, Verdict::Unanswered));
        } else {
            assert_eq!((taken.count, judge.verdict()), (3, Verdict::WrongReply));
        }
    }
}

#[test]
fn what_passed_is_kept_and_nothing_else() {
    let signature = Signature {
        sci: 60_000_000,
        rmb: 4_000_000,
        noa: 2,
        typ: 1,
        bfv: 0x0100,
    };
    let mut judge = Judge::new(&Request::Signature);
    for at in 0..SIGNATURE_REPLY.len() {
        assert_eq!(judge.signature(), None);
        judge.take(&SIGNATURE_REPLY[at..at + 1]);
    }
    assert_eq!((judge.signature(), judge.area()), (Some(signature), None));

    let contents = [&[0x3B, 0x07][..], &(1..=16).collect::<Vec<u8>>()].concat();
    let mut judge = Judge::new(&Request::Area(9));
    judge.take(&packet(0x81, &contents));
    let message = AreaMessage {
        koa: 7,
        sad: 0x0102_0304,
        ead: 0x0506_0708,
        eau: 0x090A_0B0C,
        wau: 0x0D0E_0F10,
    };
    assert_eq!((judge.area(), judge.signature()), (Some(message), None));
    // a judge does not look at KOA
    assert_eq!(message.area(), None);
    for kind in [Kind::User, Kind::Data, Kind::Config] {
        let koa = kind.number();
        let area = AreaMessage { koa, ..message }.area().unwrap();
        assert_eq!((area.kind, area.wau), (kind, message.wau));
    }

    // replies that do not pass, and those to other requests
    for request in requests() {
        let mut judge = Judge::new(&request);
        let mut wrong = passing(&request);
        let last = wrong.len() - 1;
        wrong[last] = 0x04;
        judge.take(&wrong);
        assert_eq!((judge.signature(), judge.area()), (None, None));
        let mut judge = Judge::new(&request);
        judge.take(&passing(&request));
        let is = |number| request.number() == number;
        assert_eq!(judge.signature().is_some(), is(7));
        assert_eq!(judge.area().is_some(), is(8));
    }
}

#[test]
fn a_judge_is_a_value() {
    let mut judge = Judge::new(&Request::Signature);
    let fresh = judge.clone();
    judge.take(&SIGNATURE_REPLY[..9]);
    assert_ne!(judge, fresh);
    let mut other = judge.clone();
    assert_eq!(judge, other);
    judge.take(&SIGNATURE_REPLY[9..]);
    assert_eq!(other.verdict(), Verdict::Unanswered);
    other.take(&SIGNATURE_REPLY[9..]);
    assert_eq!(judge, other);
    assert_eq!(
        format!("{:?}", judge),
        "Judge { request: 7, verdict: Passed, reply_len: 18, .. }"
    );
}

/// The verdict on what a device sends back, and the data of it.
fn ask(device: &mut Device<Vec<u8>>, request: &Request) -> (Verdict, Vec<u8>) {
    let mut judge = Judge::new(request);
    let back = device.feed_all(&request.packet().unwrap());
    let taken = judge.take(&back);
    assert_eq!(taken.count, back.len());
    (judge.verdict(), back[taken.data].to_vec())
}

#[test]
fn a_session_is_judged_as_it_goes() {
    let asleep = ask(&mut blank(), &Request::Inquiry);
    assert_eq!(asleep, (Verdict::Unanswered, vec![]));
    let mut device = awake();
    let (sad, ead) = (0x2000, 0x207F);
    let erase = Request::Erase { sad, ead: 0x3FFF };
    let write = Request::Write { sad, ead };
    let read = Request::Read { sad, ead };
    let data: Vec<u8> = (0..128).collect();
    let ok = (Verdict::Passed, vec![0x00]);
    let refused = |code| (Verdict::Refused(code), vec![code]);
    for (request, expected) in [
        (Request::Inquiry, ok.clone()),
        (write, ok.clone()),
        (Request::WriteData(&data), ok.clone()),
        (read, (Verdict::Passed, data.clone())),
        (write, ok.clone()),
        // it is not blank any more
        (Request::WriteData(&data), refused(0xE2)),
        (erase, ok.clone()),
        (read, (Verdict::Passed, vec![0xFF; 128])),
        (Request::Baud(0), refused(0xD4)),
        (Request::Authenticate(&CODE), refused(0xC3)),
    ] {
        assert_eq!(ask(&mut device, &request), expected, "{:?}", request);
    }
}

/// The library takes any bytes for a judge; what it answers is in its bounds, and bytes that are no judge are left.
#[test]
fn any_bytes_may_be_lent_for_a_judge() {
    let mut judges = 0;
    let mut number = 1u64;
    let mut random = || {
        number = number
            .wrapping_mul(0x5851_F42D_4C95_7F2D)
            .wrapping_add(0x1405_7B7E_F767_814F);
        (number >> 33) as u8
    };
    for round in 0..200_000u32 {
        let mut judge = [0; JUDGE_BYTES];
        judge.iter_mut().for_each(|byte| *byte = random());
        if round % 4 > 0 {
            // a good head, and anything behind it
            judge[..2].fill(0);
            judge[2] = [2, 3, 4, 6, 10][round as usize % 5];
            if judge[2] > 4 {
                judge[7..11].fill(0);
            }
        }
        if round % 8 > 4 {
            // a count that may well be one
            judge[11..14].fill(0);
        }
        let bytes: Vec<u8> = (0..random() % 40).map(|_| random()).collect();
        let before = judge;
        let verdict = raw::judge_verdict(&judge);
        let taken = raw::judge_take(&mut judge, &bytes);
        assert!(taken.from <= taken.to && taken.to <= taken.count);
        assert!(taken.count <= bytes.len());
        assert_eq!(raw::judge_verdict(&judge), taken.verdict);
        match verdict {
            3 => assert_eq!((taken.verdict, taken.count, judge), (3, 0, before)),
            0 => {
                judges += 1;
                let all = taken.count == bytes.len();
                assert!(all || taken.verdict != 0, "{:02X?}", before);
                assert!(matches!(taken.verdict, 0..=2 | 257..=511));
                assert_eq!(judge[2..11], before[2..11], "the request stays");
            }
            _ => assert_eq!(
                (taken.verdict, taken.count, judge),
                (verdict, 0, before),
                "a verdict is final"
            ),
        }
    }
    assert!(judges > 100_000, "only {} judges", judges);
}

#[test]
fn verdicts_and_refusals_say_themselves() {
    for (verdict, words) in [
        (Verdict::Unanswered, "unanswered"),
        (Verdict::Passed, "passed"),
        (Verdict::WrongReply, "wrong reply"),
        (Verdict::Refused(0xC2), "refused with C2h, checksum error"),
        (
            Verdict::Refused(0x07),
            "refused with 07h, a code of its own",
        ),
    ] {
        assert_eq!(verdict.to_string(), words);
    }
    for code in [
        0xC0, 0xC1, 0xC2, 0xC3, 0xD0, 0xD4, 0xDA, 0xDB, 0xDC, 0xE2, 0x00,
    ] {
        assert_ne!(status_in_words(code), status_in_words(0x01));
    }
    for unbuilt in [Unbuilt::WrongAmount, Unbuilt::NothingLeft, Unbuilt::NoRoom] {
        let error: Box<dyn Error> = Box::new(unbuilt);
        assert!(error.to_string().contains(": "), "{}", error);
    }
}

#[test]
fn bench_areas_come_back_as_the_profile_has_them() {
    let mut device = awake();
    for (number, area) in Profile::bench().areas.iter().enumerate() {
        let request = Request::Area(number as u8);
        let mut judge = Judge::new(&request);
        judge.take(&device.feed_all(&request.packet().unwrap()));
        assert_eq!(judge.area().and_then(|said| said.area()), Some(*area));
    }
}
