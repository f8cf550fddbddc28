//! The tables of docs/PROTOCOL.md, run: every row that has bytes or an answer in it meets the library.

mod common;

use common::{awake, blank, packet, range, WAKE};
use indraveck::host::{Judge, Request, Verdict};
use indraveck::recording::{read, Direction, Found, Record, Unreadable};
use indraveck::{Device, Profile};

/// The rows of the first table behind a statement, without its two heading lines, as cells.
fn table(statement: &str) -> Vec<Vec<String>> {
    let path = concat!(env!("CARGO_MANIFEST_DIR"), "/../../docs/PROTOCOL.md");
    let text = std::fs::read_to_string(path).unwrap();
    let begins = format!("**{statement}** ");
    let rows: Vec<Vec<String>> = text
        .lines()
        .skip_while(|line| !line.starts_with(&begins))
        .skip_while(|line| !line.starts_with('|'))
        .take_while(|line| line.starts_with('|'))
        .skip(2)
        .map(|line| {
            line[1..line.len() - 1]
                .split('|')
                .map(|cell| cell.trim().to_owned())
                .collect()
        })
        .collect();
    assert!(!rows.is_empty(), "{statement} has no table");
    rows
}

/// The bytes that a cell writes out: `00 55`, and 128 times `00`.
fn bytes(cell: &str) -> Vec<u8> {
    let mut found = Vec::new();
    let mut before = "";
    for (place, part) in cell.split('`').enumerate() {
        if place % 2 == 0 {
            before = part;
            continue;
        }
        let hex: Vec<u8> = part
            .split(' ')
            .map(|two| u8::from_str_radix(two, 16).unwrap())
            .collect();
        let times = match before.trim_end().strip_suffix(" times") {
            Some(words) => number(words.rsplit(' ').next().unwrap()),
            None => 1,
        };
        for _ in 0..times {
            found.extend_from_slice(&hex);
        }
    }
    found
}

/// 1,024 and 4000h.
fn number(word: &str) -> u32 {
    match word.strip_suffix('h') {
        Some(hex) => u32::from_str_radix(hex, 16),
        None => word.replace(',', "").parse(),
    }
    .unwrap_or_else(|_| panic!("no number: {word}"))
}

#[test]
fn the_session_goes_byte_for_byte() {
    let mut device = blank();
    let rows = table("15.27");
    let mut answered = 0;
    for row in &rows {
        if row[0] == "reset" {
            device.reset();
            continue;
        }
        let (sent, expected) = (bytes(&row[1]), bytes(&row[2]));
        assert!(!sent.is_empty() && !expected.is_empty(), "{row:?}");
        assert_eq!(device.feed_all(&sent), expected, "{row:?}");
        answered += 1;
    }
    assert!(answered >= 25, "{answered} rows");
    assert_eq!(&device.image()[..], vec![0xFF; device.image().len()]);
}

#[test]
fn faults_and_areas_are_answered_as_written() {
    for (statement, least) in [("15.28", 10), ("8.11", 3)] {
        let rows = table(statement);
        assert!(rows.len() >= least, "{statement}: {} rows", rows.len());
        for row in rows {
            let (sent, expected) = (bytes(&row[1]), bytes(&row[2]));
            assert!(!sent.is_empty() && !expected.is_empty(), "{row:?}");
            assert_eq!(awake().feed_all(&sent), expected, "{row:?}");
        }
    }
}

#[test]
fn ranges_are_granted_and_refused_as_written() {
    let profile = Profile {
        low: 0x2000,
        high: 0x6000,
        ..Profile::bench()
    };
    let rows = table("9.12");
    assert!(rows.len() >= 12, "{} rows", rows.len());
    for row in rows {
        let image = vec![0xFF; profile.total() as usize];
        let mut device = Device::start(&profile, image).unwrap();
        device.feed_all(&WAKE);
        let com = match row[0].as_str() {
            "erase" => 0x12,
            "write" => 0x13,
            "read" => 0x15,
            other => panic!("no command: {other}"),
        };
        let (sad, ead) = row[1].split_once(" to ").unwrap();
        let reply = device.feed_all(&range(com, number(sad), number(ead)));
        match row[2].as_str() {
            "data" => assert_eq!((reply[3], reply.len() > 7), (com, true), "{row:?}"),
            "00h" => assert_eq!(reply, packet(0x81, &[com, 0x00]), "{row:?}"),
            code => {
                let contents = [com | 0x80, number(code) as u8];
                assert_eq!(reply, packet(0x81, &contents), "{row:?}");
            }
        }
    }
}

#[test]
fn low_pulses_go_as_written() {
    let columns = [0x00, 0x55, 0xA7];
    let steps = ["none", "one", "acknowledged"];
    let rows = table("4.4");
    assert_eq!(rows.len(), steps.len());
    for row in rows {
        let before = steps.iter().position(|step| *step == row[0]).unwrap();
        for (column, byte) in columns.iter().enumerate() {
            let mut device = blank();
            device.feed_all(&vec![0x00; before]);
            let reply = device.feed_all(&[*byte]);
            let cell = &row[column + 1];
            assert_eq!(reply, bytes(cell), "{row:?}");
            let after = cell.split(',').next().unwrap();
            match steps.iter().position(|step| *step == after) {
                Some(low_pulses) => {
                    let stage = indraveck::Stage::Setting {
                        low_pulses: low_pulses as u8,
                    };
                    assert_eq!(device.state().stage, stage, "{row:?}");
                }
                None => {
                    assert_eq!(after, "awake");
                    assert_eq!(device.state().stage, indraveck::Stage::Command);
                }
            }
        }
    }
}

#[test]
fn rates_have_the_settings_as_written() {
    let rows = table("13.12");
    assert!(rows.len() >= 19, "{} rows", rows.len());
    for row in rows {
        let profile = Profile {
            sci: number(&row[0]),
            rmb: 4_000_000,
            ..Profile::bench()
        };
        let image = vec![0xFF; profile.total() as usize];
        let mut device = Device::start(&profile, image).unwrap();
        let unused = |cell: &str| if cell == "unused" { 0 } else { number(cell) };
        let written = (
            number(&row[2]) as u8,
            number(&row[3]) as u8,
            unused(&row[4]) as u8,
        );
        let setting = |device: &Device<Vec<u8>>| {
            let state = device.state();
            (state.abcs, state.brr, state.mddr)
        };
        let brt = number(&row[1]);
        if brt == 9_600 {
            assert_eq!(setting(&device), written, "{row:?}");
        }
        device.feed_all(&WAKE);
        let fresh = setting(&device);
        let mut contents = vec![0x34];
        contents.extend_from_slice(&brt.to_be_bytes());
        let reply = device.feed_all(&packet(0x01, &contents));
        match row[6].as_str() {
            "OK" => {
                assert_eq!(reply, packet(0x81, &[0x34, 0x00]), "{row:?}");
                assert_eq!(setting(&device), written, "{row:?}");
            }
            "D4h" => {
                assert_eq!(reply, packet(0x81, &[0xB4, 0xD4]), "{row:?}");
                assert_eq!(setting(&device), fresh, "{row:?}");
            }
            other => panic!("no answer: {other}"),
        }
    }
}

#[test]
fn records_are_read_as_written() {
    let faults = [
        ("bad mark", Unreadable::BadMark),
        ("bad direction", Unreadable::BadDirection),
        ("bad length", Unreadable::BadLength),
        ("cut short", Unreadable::CutShort),
    ];
    let directions = [
        ("host", Direction::Host),
        ("device", Direction::Device),
        ("reset", Direction::Reset),
    ];
    let rows = table("16.6");
    assert_eq!(rows.len(), 19);
    for row in rows {
        let recording = bytes(&row[0]);
        let expected = match row[1].split_once(", ") {
            Some((word, places)) => {
                let (_, direction) = *directions.iter().find(|known| known.0 == word).unwrap();
                let (from, to) = places.split_once(" to ").unwrap();
                let (from, next) = (number(from) as usize, number(to) as usize);
                let bytes = &recording[from..next];
                let record = Record { direction, bytes };
                Ok(Found::Record { record, next })
            }
            None if row[1] == "end" => Ok(Found::End),
            None => Err(faults.iter().find(|known| known.0 == row[1]).unwrap().1),
        };
        assert_eq!(read(&recording, 0), expected, "{row:?}");
    }
}

/// The request that a cell names.
fn request(cell: &str) -> Request<'static> {
    let words: Vec<&str> = cell
        .split([' ', ','])
        .filter(|word| !word.is_empty())
        .collect();
    match words[..] {
        ["inquiry"] => Request::Inquiry,
        ["erase", sad, "to", ead] => Request::Erase {
            sad: number(sad),
            ead: number(ead),
        },
        ["read", sad, "to", ead] => Request::Read {
            sad: number(sad),
            ead: number(ead),
        },
        ["next", left, "left"] => Request::Next { left: number(left) },
        ["write", "data"] => Request::WriteData(&[0xFF]),
        ["area", n] => Request::Area(number(n) as u8),
        _ => panic!("no request: {cell}"),
    }
}

#[test]
fn replies_are_judged_as_written() {
    let rows = table("18.12");
    assert_eq!(rows.len(), 32);
    for row in rows {
        let back = bytes(&row[1]);
        let expected = match row[2].as_str() {
            "unanswered" => Verdict::Unanswered,
            "passed" => Verdict::Passed,
            "wrong reply" => Verdict::WrongReply,
            words => match words.strip_prefix("refused ") {
                Some(code) => Verdict::Refused(number(code) as u8),
                None => panic!("no verdict: {words}"),
            },
        };
        let mut judge = Judge::new(&request(&row[0]));
        assert_eq!(judge.verdict(), Verdict::Unanswered, "{row:?}");
        judge.take(&back);
        assert_eq!(judge.verdict(), expected, "{row:?}");
        // one byte after the other says the same
        let mut slow = Judge::new(&request(&row[0]));
        for byte in &back {
            slow.take(&[*byte]);
        }
        assert_eq!(slow.verdict(), expected, "{row:?}");
    }
}
