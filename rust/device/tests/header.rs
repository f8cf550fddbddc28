//! `include/indraveck.h` beside the crate.

mod common;

use common::{awake, range, write_data};
use indraveck::host::{Judge, Request, Unbuilt, Verdict, JUDGE_BYTES};
use indraveck::recording::{Direction, Unreadable, Unwritable, HEAD_BYTES, MOST_BYTES};
use indraveck::{raw, Kind, Profile, Refusal, Stage};
use indraveck::{AREAS, BUFFER_BYTES, PROFILE_BYTES, STATE_BYTES};

const HEADER: &str = include_str!("../../../include/indraveck.h");
const EXAMPLE: &str = include_str!("../../../tests/c/example.c");
const ASK: &str = include_str!("../../../tests/c/ask.c");
const RECORDING: &str = include_str!("../../../tests/c/recording.c");

/// What the header defines a name as, without the comment.
fn defined(name: &str) -> &'static str {
    let of_name = |line: &'static str| line.strip_prefix(&format!("#define INDRAVECK_{} ", name));
    let value = HEADER.lines().find_map(of_name);
    let value = value.unwrap_or_else(|| panic!("the header does not define {}", name));
    value.split("/*").next().unwrap().trim()
}

fn number(name: &str) -> usize {
    let value = defined(name);
    match value.strip_prefix("0x") {
        Some(hex) => usize::from_str_radix(hex, 16),
        None => value.parse(),
    }
    .unwrap()
}

#[test]
fn the_header_has_the_crates_version() {
    let parts = ["MAJOR", "MINOR", "PATCH"].map(|part| defined(&format!("VERSION_{}", part)));
    assert_eq!(parts.join("."), env!("CARGO_PKG_VERSION"));
    let quoted = format!("\"{}\"", env!("CARGO_PKG_VERSION"));
    assert_eq!(defined("VERSION"), quoted);
}

#[test]
fn the_headers_numbers_are_the_crates() {
    assert_eq!(number("PROFILE_BYTES"), PROFILE_BYTES);
    assert_eq!(number("PROFILE_AREAS"), AREAS);
    assert_eq!(number("STATE_BYTES"), STATE_BYTES);
    assert_eq!(number("BUFFER_BYTES"), BUFFER_BYTES);
    assert_eq!(Refusal::check(number("ACCEPTED") as u32), Ok(()));
    for (name, refusal) in [
        ("UNACCEPTABLE_PROFILE", Refusal::UnacceptableProfile),
        ("WRONG_IMAGE_LENGTH", Refusal::WrongImageLength),
        ("UNFIT_STATE", Refusal::UnfitState),
        ("SHORT_RECEIVE_BUFFER", Refusal::ShortReceiveBuffer),
        ("SHORT_REPLY_BUFFER", Refusal::ShortReplyBuffer),
    ] {
        assert_eq!(number(name), refusal.number() as usize);
    }
    let (next, left) = (0, 1);
    for (name, stage) in [
        ("STAGE_SETTING", Stage::Setting { low_pulses: 0 }),
        ("STAGE_AUTHENTICATION", Stage::Authentication),
        ("STAGE_COMMAND", Stage::Command),
        ("STAGE_WRITING", Stage::Writing { next, left }),
        ("STAGE_READING", Stage::Reading { next, left }),
    ] {
        assert_eq!(number(name), usize::from(stage.number()));
    }
    for (name, kind) in [
        ("KIND_USER", Kind::User),
        ("KIND_DATA", Kind::Data),
        ("KIND_CONFIG", Kind::Config),
    ] {
        assert_eq!(number(name), usize::from(kind.number()));
    }
}

#[test]
fn the_headers_numbers_of_the_host_are_the_crates() {
    assert_eq!(number("JUDGE_BYTES"), JUDGE_BYTES);
    let (sad, ead) = (0, 1);
    let requests = [
        ("INQUIRY", Request::Inquiry),
        ("ERASE", Request::Erase { sad, ead }),
        ("WRITE", Request::Write { sad, ead }),
        ("READ", Request::Read { sad, ead }),
        ("AUTHENTICATE", Request::Authenticate(&[0; 16])),
        ("BAUD", Request::Baud(9600)),
        ("SIGNATURE", Request::Signature),
        ("AREA", Request::Area(0)),
        ("WRITE_DATA", Request::WriteData(&[0])),
        ("NEXT", Request::Next { left: 1 }),
    ];
    for (name, request) in requests {
        assert_eq!(
            number(&format!("REQUEST_{}", name)),
            request.number() as usize
        );
    }
    for (name, reason) in [
        ("HOST_WRONG_AMOUNT", Unbuilt::WrongAmount),
        ("HOST_NOTHING_LEFT", Unbuilt::NothingLeft),
        ("HOST_NO_ROOM", Unbuilt::NoRoom),
    ] {
        assert_eq!(number(name), reason.number() as usize);
    }
    let answer = |name| number(name) as u32;
    let mut buffer = [0; 6];
    assert_eq!(
        raw::build(&mut buffer, 1, 0, 0, &[]),
        (answer("HOST_DONE"), 6)
    );
    let no_request = answer("HOST_NO_REQUEST");
    assert_eq!(raw::build(&mut buffer, 0, 0, 0, &[]), (no_request, 0));
    assert_eq!(raw::judge_begin(&mut buffer, 0, 0, 0), no_request);
    let wrong_length = answer("HOST_WRONG_LENGTH");
    assert_eq!(raw::judge_begin(&mut buffer, 1, 0, 0), wrong_length);
    for (name, verdict) in [
        ("VERDICT_UNANSWERED", Verdict::Unanswered),
        ("VERDICT_PASSED", Verdict::Passed),
        ("VERDICT_WRONG_REPLY", Verdict::WrongReply),
    ] {
        assert_eq!(number(name), verdict.number() as usize);
    }
    let refused = number("VERDICT_REFUSED") + 0xD0;
    assert_eq!(Verdict::Refused(0xD0).number() as usize, refused);
    assert_eq!(raw::judge_verdict(&buffer), answer("VERDICT_NO_JUDGE"));
}

#[test]
fn the_headers_places_are_those_of_a_judge() {
    let mut judge = [0xA5; JUDGE_BYTES];
    assert_eq!(raw::judge_begin(&mut judge, 4, 0x1122_3344, 0x5566_7788), 1);
    let reply = [0xC3, 0x81, 0x03, 0x02, 0x15, 0xAB, 0xCD];
    assert_eq!(raw::judge_take(&mut judge, &reply).verdict, 0);
    let four = |name| judge[number(name)..][..4].to_vec();
    let at = |name| &judge[number(name)..];
    assert_eq!(at("JUDGE_AT_VERDICT")[..2], [0, 0]);
    assert_eq!(at("JUDGE_AT_REQUEST")[0], 4);
    assert_eq!(four("JUDGE_AT_FIRST"), 0x1122_3344u32.to_be_bytes());
    assert_eq!(four("JUDGE_AT_SECOND"), 0x5566_7788u32.to_be_bytes());
    assert_eq!(four("JUDGE_AT_COUNT"), 6u32.to_be_bytes());
    assert_eq!(at("JUDGE_AT_LENGTH")[..2], [0x03, 0x02]);
    assert_eq!(at("JUDGE_AT_RES")[0], 0x15);
    let sum = reply[2..]
        .iter()
        .fold(0u8, |sum, byte| sum.wrapping_add(*byte));
    assert_eq!(at("JUDGE_AT_SUM")[0], sum);
    let mut data = [0; 17];
    data[..2].copy_from_slice(&[0xAB, 0xCD]);
    assert_eq!(at("JUDGE_AT_DATA"), data);
}

#[test]
fn the_headers_places_are_those_of_what_a_judge_keeps() {
    let mut device = awake();
    let mut answered = |request: Request| {
        let packet = request.packet().unwrap();
        let (first, second) = match request {
            Request::Area(number) => (u32::from(number), 0),
            _ => (0, 0),
        };
        let reply = device.feed_all(&packet);
        let mut bytes = [0; JUDGE_BYTES];
        assert_eq!(
            raw::judge_begin(&mut bytes, request.number(), first, second),
            1
        );
        assert_eq!(raw::judge_take(&mut bytes, &reply).verdict, 1);
        let mut judge = Judge::new(&request);
        judge.take(&reply);
        (judge, bytes[number("JUDGE_AT_DATA")..].to_vec())
    };
    let (judge, data) = answered(Request::Signature);
    let signature = judge.signature().unwrap();
    let at = |name| &data[number(name)..];
    assert_eq!(at("SIGNATURE_AT_SCI")[..4], signature.sci.to_be_bytes());
    assert_eq!(at("SIGNATURE_AT_RMB")[..4], signature.rmb.to_be_bytes());
    assert_eq!(at("SIGNATURE_AT_NOA")[0], signature.noa);
    assert_eq!(at("SIGNATURE_AT_TYP")[0], signature.typ);
    assert_eq!(at("SIGNATURE_AT_BFV")[..2], signature.bfv.to_be_bytes());
    let (judge, data) = answered(Request::Area(0));
    let area = judge.area().unwrap();
    let at = |name| &data[number(name)..];
    assert_eq!(at("AREA_AT_KOA")[0], area.koa);
    assert_eq!(at("AREA_AT_SAD")[..4], area.sad.to_be_bytes());
    assert_eq!(at("AREA_AT_EAD")[..4], area.ead.to_be_bytes());
    assert_eq!(at("AREA_AT_EAU")[..4], area.eau.to_be_bytes());
    assert_eq!(at("AREA_AT_WAU")[..4], area.wau.to_be_bytes());
}

#[test]
fn the_headers_numbers_of_recordings_are_the_crates() {
    assert_eq!(number("RECORD_HEAD_BYTES"), HEAD_BYTES);
    assert_eq!(number("BUFFER_BYTES"), MOST_BYTES);
    for (name, direction) in [
        ("RECORD_HOST", Direction::Host),
        ("RECORD_DEVICE", Direction::Device),
        ("RECORD_RESET", Direction::Reset),
    ] {
        assert_eq!(number(name), usize::from(direction.byte()));
    }
    for (name, reason) in [
        ("RECORD_BAD_MARK", Unreadable::BadMark),
        ("RECORD_BAD_DIRECTION", Unreadable::BadDirection),
        ("RECORD_BAD_LENGTH", Unreadable::BadLength),
        ("RECORD_CUT_SHORT", Unreadable::CutShort),
    ] {
        assert_eq!(number(name), reason.number() as usize);
    }
    for (name, reason) in [
        ("RECORD_BAD_DIRECTION", Unwritable::BadDirection),
        ("RECORD_BAD_LENGTH", Unwritable::BadLength),
        ("RECORD_NO_ROOM", Unwritable::NoRoom),
    ] {
        assert_eq!(number(name), reason.number() as usize);
    }
    let end = number("RECORD_END") as u32;
    let not_read = number("RECORD_NOT_READ") as u32;
    assert_eq!(raw::read_record(&[], 0).answer, end);
    let written = number("RECORD_WRITTEN") as u32;
    assert_eq!(raw::write_record(&mut [0; 5], 0, 0x52, &[]), (written, 5));
    let profile = Profile::bench().to_bytes().unwrap();
    let mut image = vec![0xFF; Profile::bench().total() as usize];
    assert_eq!(raw::replay(&profile, &mut image, &[]).ended, end);
    assert_eq!(raw::replay(&profile, &mut image[1..], &[]).ended, not_read);
}

#[test]
fn the_headers_places_are_those_of_the_crates_bytes() {
    let profile = Profile {
        low: 0x11,
        high: 0x2222,
        ..Profile::bench()
    };
    let bytes = profile.to_bytes().unwrap();
    let four =
        |at: usize| u32::from_be_bytes([bytes[at], bytes[at + 1], bytes[at + 2], bytes[at + 3]]);
    assert_eq!(usize::from(bytes[number("PROFILE_AT_NOA")]), 2);
    assert_eq!(bytes[number("PROFILE_AT_TYP")], profile.typ);
    assert_eq!(
        bytes[number("PROFILE_AT_BFV")..][..2],
        profile.bfv.to_be_bytes()
    );
    assert_eq!(four(number("PROFILE_AT_SCI")), profile.sci);
    assert_eq!(four(number("PROFILE_AT_RMB")), profile.rmb);
    assert_eq!(four(number("PROFILE_AT_LOW")), profile.low);
    assert_eq!(four(number("PROFILE_AT_HIGH")), profile.high);
    for (at, area) in profile.areas.iter().enumerate() {
        let start = number("PROFILE_AT_AREAS") + at * number("AREA_BYTES");
        assert_eq!(bytes[start + number("AREA_AT_KOA")], area.kind.number());
        assert_eq!(four(start + number("AREA_AT_SAD")), area.sad);
        assert_eq!(four(start + number("AREA_AT_EAD")), area.ead);
        assert_eq!(four(start + number("AREA_AT_EAU")), area.eau);
        assert_eq!(four(start + number("AREA_AT_WAU")), area.wau);
    }
}

#[test]
fn the_headers_places_are_those_of_a_saved_state() {
    let mut device = awake();
    device.feed(&range(0x13, 0x2000, 0x20FF), |_| ());
    device.feed(&write_data(7)[..50], |_| ());
    let state = device.state();
    let bytes = device.save().to_bytes();
    let four = |name| bytes[number(name)..][..4].to_vec();
    assert_eq!(bytes[number("STATE_AT_STAGE")], state.stage.number());
    assert_eq!(bytes[number("STATE_AT_LOW_PULSES")], 0);
    assert_eq!(four("STATE_AT_NEXT"), 0x2000u32.to_be_bytes());
    assert_eq!(four("STATE_AT_LEFT"), 0x100u32.to_be_bytes());
    assert_eq!(bytes[number("STATE_AT_ID")..][..16], state.id);
    assert_eq!(bytes[number("STATE_AT_ABCS")], state.abcs);
    assert_eq!(bytes[number("STATE_AT_BRR")], state.brr);
    assert_eq!(bytes[number("STATE_AT_MDDR")], state.mddr);
    assert_eq!(four("STATE_AT_HELD"), state.held.to_be_bytes());
}

/// The header's examples, in its order: lines that are indented in a comment.
fn examples() -> Vec<String> {
    let indented = " *     ";
    let mut examples = Vec::new();
    let mut lines = HEADER.lines().peekable();
    while lines.peek().is_some() {
        let mut example = String::new();
        while let Some(line) =
            lines.next_if(|line| line.starts_with(indented) || !example.is_empty() && *line == " *")
        {
            example.push_str(line.strip_prefix(indented).unwrap_or(""));
            example.push('\n');
        }
        if !example.is_empty() {
            examples.push(example.trim_end().to_owned() + "\n");
        }
        lines.next();
    }
    examples
}

#[test]
fn the_headers_examples_are_the_ones_that_are_compiled() {
    let compiled = |file: &str| file.split_once('\n').unwrap().1.to_owned();
    let [device, host, reading, writing]: [String; 4] = examples().try_into().unwrap();
    assert!(device.lines().count() > 10);
    assert_eq!(device, compiled(EXAMPLE));
    assert!(host.lines().count() > 10);
    assert_eq!(host, compiled(ASK));
    assert!(reading.lines().count() > 10 && writing.lines().count() > 10);
    assert_eq!(reading + "\n" + &writing, compiled(RECORDING));
}
