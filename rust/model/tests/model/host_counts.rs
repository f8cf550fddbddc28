//! Replies with one byte changed to every value, and how often the judge gives
//! each verdict. `examples/host_counts.rs` prints these lines.

use crate::bench::hex;
use indraveck_model::*;

/// A request's name, the request, a reply that grants it and one that refuses
/// it with D0h. Signature and area are those of the bench profile; the single
/// byte that is read is 00h.
pub const EXCHANGES: [(&str, Request, &str, &str); 11] = [
    (
        "inquiry",
        Request::Inquiry,
        "81 00 02 00 00 FE 03",
        "81 00 02 80 D0 AE 03",
    ),
    (
        "erase",
        Request::Erase {
            sad: 0,
            ead: 0x1FFF,
        },
        "81 00 02 12 00 EC 03",
        "81 00 02 92 D0 9C 03",
    ),
    (
        "write",
        Request::Write { sad: 0, ead: 0x7F },
        "81 00 02 13 00 EB 03",
        "81 00 02 93 D0 9B 03",
    ),
    (
        "read1",
        Request::Read { sad: 0, ead: 0 },
        "81 00 02 15 00 E9 03",
        "81 00 02 95 D0 99 03",
    ),
    (
        "read16",
        Request::Read { sad: 0, ead: 15 },
        "81 00 11 15 00 01 02 03 04 05 06 07 08 09 0A 0B 0C 0D 0E 0F 62 03",
        "81 00 02 95 D0 99 03",
    ),
    (
        "authenticate",
        Request::Authenticate,
        "81 00 02 30 00 CE 03",
        "81 00 02 B0 D0 7E 03",
    ),
    (
        "baud",
        Request::Baud(9600),
        "81 00 02 34 00 CA 03",
        "81 00 02 B4 D0 7A 03",
    ),
    (
        "signature",
        Request::Signature,
        "81 00 0D 3A 03 93 87 00 00 3D 09 00 02 01 01 00 52 03",
        "81 00 02 BA D0 74 03",
    ),
    (
        "area",
        Request::Area(1),
        "81 00 12 3B 02 01 00 00 00 01 00 00 FF 00 00 00 00 00 00 00 10 A0 03",
        "81 00 02 BB D0 73 03",
    ),
    (
        "write-data",
        Request::WriteData,
        "81 00 02 13 00 EB 03",
        "81 00 02 93 D0 9B 03",
    ),
    (
        "next",
        Request::Next { left: 3 },
        "81 00 04 15 AA BB CC B6 03",
        "81 00 02 95 D0 99 03",
    ),
];

/// How often unanswered, passed, refused (with D0h or any other code) and
/// wrong come up for the 256 values of one byte.
pub fn counts(request: Request, reply: &[u8], position: usize) -> [u32; 4] {
    let mut counts = [0; 4];
    for value in 0..=0xFF {
        let mut changed = reply.to_vec();
        changed[position] = value;
        let mut judge = Judge::start(request);
        judge.take(&changed);
        let verdict = match judge.verdict() {
            Verdict::Unanswered => 0,
            Verdict::Passed => 1,
            Verdict::Refused(_) => 2,
            Verdict::WrongReply => 3,
        };
        counts[verdict] += 1;
    }
    counts
}

/// Request, reply, the byte's position from 0, and the four counts.
pub fn table() -> Vec<(&'static str, &'static str, usize, [u32; 4])> {
    let mut table = vec![];
    for (name, request, granted, refused) in EXCHANGES {
        for (kind, reply) in [("granted", granted), ("refused", refused)] {
            let reply = hex(reply);
            for position in 0..reply.len() {
                table.push((name, kind, position, counts(request, &reply, position)));
            }
        }
    }
    table
}

/// The table as it is printed.
pub fn lines() -> Vec<String> {
    let mut lines = vec![];
    for (name, kind, position, counts) in table() {
        let [unanswered, passed, refused, wrong] = counts;
        lines.push(format!(
            "{name} {kind} {position} {unanswered} {passed} {refused} {wrong}"
        ));
    }
    lines
}

/// Worked out by hand. The byte that is changed
///
/// - to itself gives the reply's own verdict: one of the 256 in each line.
/// - is 81h: no packet begins there, and no other byte of these replies is 81h,
///   so that all 255 are unanswered.
/// - is the length's high byte: 1 to 3 ask for hundreds of bytes more than
///   come, which is unanswered; from 4 on the length is 4 x 256 + 2 = 1,026 or
///   more, since every low byte here is at least 2: 252 wrong.
/// - is the length's low byte, L in the good reply: 0 is no length, and with 1
///   to L - 1 a packet is whole before its end that is not as long as the
///   request's answer, or for an error not of length 2: L wrong. Above L
///   something is missing: 255 - L unanswered.
/// - stands from RES to SUM: SUM no longer fits, 255 wrong.
/// - is ETX: 255 wrong.
fn expected(reply: &[u8], own: usize, position: usize) -> [u32; 4] {
    let length = u32::from(reply[2]);
    let (unanswered, wrong) = match position {
        0 => (255, 0),
        1 => (3, 252),
        2 => (255 - length, length),
        _ => (0, 255),
    };
    let mut counts = [unanswered, 0, 0, wrong];
    counts[own] = 1;
    counts
}

#[test]
fn counts_are_those_worked_out_by_hand() {
    for (name, request, granted, refused) in EXCHANGES {
        for (own, reply) in [(1, hex(granted)), (2, hex(refused))] {
            assert!(reply[1..].iter().all(|byte| *byte != 0x81));
            for position in 0..reply.len() {
                let given = counts(request, &reply, position);
                let expected = expected(&reply, own, position);
                assert_eq!(given, expected, "{name} {position}");
            }
        }
    }
}

/// All that the changes of one reply give, by the same reasoning: a status of
/// seven bytes has 255 + 3 + 253 = 511 unanswered, 7 of its own and
/// 252 + 2 + 4 x 255 = 1,274 wrong, which are 7 x 256 = 1,792. A data reply of
/// length L has 255 + 3 + 255 - L, L + 5 and 252 + L + (L + 2) x 255.
#[test]
fn totals_are_those_worked_out_by_hand() {
    let total = |name, kind| {
        let mut total = [0; 4];
        for line in table() {
            if (line.0, line.1) == (name, kind) {
                for (sum, count) in total.iter_mut().zip(line.3) {
                    *sum += count;
                }
            }
        }
        total
    };
    for (name, ..) in EXCHANGES {
        let granted = match name {
            "read16" => [496, 22, 0, 5114],
            "signature" => [500, 18, 0, 4090],
            "area" => [495, 23, 0, 5370],
            "next" => [509, 9, 0, 1786],
            _ => [511, 7, 0, 1274],
        };
        assert_eq!(total(name, "granted"), granted, "{name}");
        assert_eq!(total(name, "refused"), [511, 0, 7, 1274], "{name}");
    }
}

/// 11 refusals and 7 statuses (one of them the byte that is read) of 7 bytes,
/// then 22, 18, 23 and 9 bytes.
#[test]
fn a_line_for_each_byte() {
    let lines = lines();
    assert_eq!(lines.len(), 18 * 7 + 22 + 18 + 23 + 9);
    assert_eq!(lines[0], "inquiry granted 0 255 1 0 0");
    assert_eq!(lines[9], "inquiry refused 2 253 0 1 2");
    let last = lines.last().map(String::as_str);
    assert_eq!(last, Some("next refused 6 0 0 1 255"));
}
