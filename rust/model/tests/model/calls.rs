//! Refusals, states that fit, payloads, layouts, and cuts of the input.

use crate::bench::*;
use indraveck_model::*;

fn state(stage: Stage, held: u32) -> State {
    State {
        stage,
        id: [0x12; 16],
        line: Line {
            abcs: 7,
            brr: 8,
            mddr: 9,
        },
        held,
    }
}

fn writing(next: u32, left: u32) -> Stage {
    Stage::Writing { next, left }
}

fn reading(next: u32, left: u32) -> Stage {
    Stage::Reading { next, left }
}

#[test]
fn a_fresh_state() {
    let p = bench_profile();
    let image = vec![0; total(&p) as usize];
    let fresh = State {
        stage: Stage::Setting(Pulse::None),
        id: [0xFF; 16],
        line: Line {
            abcs: 0,
            brr: 0xC2,
            mddr: 0xFF,
        },
        held: 0,
    };
    assert_eq!(start(&p, &image), (0, fresh.clone()));
    // A reset looks at nothing in the state.
    let odd = state(writing(1, 0), 9999);
    assert_eq!(reset(&p, &image, &odd), (0, fresh));
}

#[test]
fn refused_starts_and_resets() {
    let p = bench_profile();
    let bad = Profile {
        sci: 0,
        ..p.clone()
    };
    let size = total(&p) as usize;
    let zero = state_from(&[0; 33]).unwrap();
    let odd = state(writing(1, 0), 9999);
    let table = [
        (&bad, size, 4),
        (&bad, 0, 4),
        (&p, size - 1, 1),
        (&p, size + 1, 1),
        (&p, 0, 1),
    ];
    for (p, length, refusal) in table {
        let image = vec![0xFF; length];
        assert_eq!(start(p, &image), (refusal, zero.clone()));
        assert_eq!(reset(p, &image, &odd), (refusal, odd.clone()));
    }
}

#[test]
fn refused_feeds_change_nothing() {
    let good = bench_profile();
    let bad = Profile {
        rmb: 0,
        ..good.clone()
    };
    let size = total(&good) as usize;
    let fits = state(Stage::Command, 0);
    let unfit = state(Stage::Command, 2000);
    // (profile, image, state, receive buffer, reply buffer, number)
    let table = [
        (&bad, size - 1, &unfit, 0, 0, 4),
        (&good, size - 1, &unfit, 0, 0, 1),
        (&good, size, &unfit, 0, 0, 5),
        (&good, size, &fits, 0, 0, 2),
        (&good, size, &fits, 1029, 0, 2),
        (&good, size, &fits, 1030, 0, 3),
        (&good, size, &fits, 1030, 1029, 3),
        (&good, size, &fits, 1030, 1030, 0),
        (&good, size, &fits, 5000, 5000, 0),
    ];
    for (p, image, state, receive, reply, refusal) in table {
        for input in [vec![], command(0x00, &[])] {
            let mut lent = [vec![3; image], vec![4; receive], vec![5; reply]];
            let before = lent.clone();
            let mut given = state.clone();
            let [image, receive, reply] = &mut lent;
            let fed = feed(p, image, &mut given, receive, reply, &input);
            assert_eq!(fed.refusal, refusal);
            if refusal != 0 || input.is_empty() {
                assert_eq!((fed.consumed, fed.count), (0, 0));
                assert_eq!((&given, lent), (state, before));
            } else {
                assert_eq!((fed.consumed, fed.count), (6, 7));
            }
        }
    }
}

#[test]
fn held_bytes_that_fit() {
    let command = Stage::Command;
    let authentication = Stage::Authentication;
    let write = writing(0, 0x80);
    let read = reading(0, 1);
    let setting = Stage::Setting(Pulse::None);
    // (stage, count, front of the buffer, length of the buffer)
    let table = [
        (setting, 0, "01", 1030, true),
        (setting, 1, "01", 1030, false),
        (Stage::Setting(Pulse::Acknowledged), 1, "00", 1030, false),
        (command, 0, "FF FF FF", 1030, true),
        (command, 0, "", 0, true),
        (command, 1, "01", 1030, true),
        (command, 1, "81", 1030, false),
        (command, 1, "", 0, false),
        (command, 2, "01 FF", 1030, true),
        (command, 2, "01", 1, false),
        (command, 2, "01 FF", 2, true),
        (command, 3, "01 00 00", 1030, false),
        (command, 3, "01 00 01", 1030, true),
        (command, 3, "01 01 00", 1030, true),
        (command, 3, "01 01 01", 1030, false),
        (command, 5, "01 00 01", 1030, true),
        (command, 6, "01 00 01", 1030, false),
        (command, 260, "01 01 00", 1030, true),
        (command, 261, "01 01 00", 1030, false),
        (command, 260, "01 01 00", 259, false),
        (authentication, 1, "01", 1030, true),
        (authentication, 1, "81", 1030, false),
        (write, 1, "81", 1030, true),
        (write, 1, "01", 1030, false),
        (write, 3, "81 04 01", 1030, true),
        (write, 3, "81 04 02", 1030, false),
        (write, 3, "81 00 00", 1030, false),
        (write, 1029, "81 04 01", 1030, true),
        (write, 1030, "81 04 01", 1030, false),
        (write, 1030, "81 04 01", 4000, false),
        (read, 1029, "81 04 01", 1029, true),
        (read, 1, "01", 1030, false),
        (read, u32::MAX, "81 04 01", 1030, false),
    ];
    let p = bench_profile();
    for (stage, held, front, length, expected) in table {
        let mut receive = vec![0; length];
        let front = hex(front);
        let shown = front.len().min(length);
        receive[..shown].copy_from_slice(&front[..shown]);
        let given = fits(&p, &state(stage, held), &receive);
        assert_eq!(given, expected, "{stage:?} {held} {front:x?} {length}");
    }
}

#[test]
fn ranges_that_fit() {
    let mut p = profile(&[
        area(0, 0, 0xFFFF, 0x2000, 0x80),
        area(1, 0x1_0000, 0x1_00FF, 0, 0),
        area(2, 0x0100_0000, 0x0100_00FF, 0, 0x10),
        area(0, 0xFFFF_FFE1, 0xFFFF_FFFE, 3, 15),
    ]);
    p.low = 0x1000;
    p.high = 0x3000;
    let table = [
        (reading(0, 0), false),
        (reading(0, 1), true),
        (reading(0, 0x1_0000), true),
        (reading(0, 0x1_0001), false),
        (reading(0xFFFF, 2), false),
        (reading(0x1_0001, 0xFF), true),
        (reading(0x1_0100, 1), false),
        (reading(0xFFFF_FFFE, 1), true),
        (reading(0xFFFF_FFFE, 2), false),
        (reading(0xFFFF_FFFE, u32::MAX), false),
        (reading(5, u32::MAX), false),
        (writing(0x1000, 0), false),
        (writing(0x1000, 0x2000), true),
        (writing(0x1000, 0x80), true),
        (writing(0x1000, 0x7F), false),
        (writing(0x1001, 0x7F), false),
        (writing(0x0F80, 0x80), false),
        (writing(0x2F80, 0x100), false),
        (writing(0x1_0000, 0x10), false),
        (writing(0x0100_0010, 0xF0), true),
        (writing(0x0100_0010, 0x100), false),
        (writing(0x0100_0008, 0x10), false),
        (writing(0xFFFF_FFF0, 15), false),
    ];
    for (stage, expected) in table {
        assert_eq!(fits(&p, &state(stage, 0), &[]), expected, "{stage:?}");
    }
    p.high = p.low;
    assert!(fits(&p, &state(writing(0xFFFF_FFF0, 15), 0), &[]));
    assert!(!fits(&p, &state(writing(0xFFFF_FFE2, 15), 0), &[]));
    assert!(!fits(&p, &state(writing(0xFFFF_FFF0, 14), 0), &[]));
}

#[test]
fn fits_takes_any_profile() {
    let mut p = profile(&[area(0, 0, u32::MAX, 0, 0x80); 8]);
    p.noa = 255;
    assert!(fits(&p, &state(reading(0, u32::MAX), 0), &[]));
    assert!(fits(&p, &state(writing(0xFFFF_FF80, 0x80), 0), &[]));
    p.areas = [area(0, 9, 2, 0, 0); 8];
    assert!(!fits(&p, &state(reading(5, 1), 0), &[]));
}

#[test]
fn payloads() {
    let longest = data(0x13, &[0; 1024]);
    let long_command = command(0x00, &[0; 255]);
    let table = [
        (hex("01 00 01 00 FF 03"), 6, Some(3..4)),
        (hex("01 00 01 00 FF 03 00"), 6, Some(3..4)),
        (hex("01 00 01 00 FF 03 00"), 7, None),
        (hex("01 00 01 00 FF 03"), 5, None),
        (hex("01 00 01 00 FF"), 6, None),
        (hex("01 00 01 00 FF 02"), 6, None),
        (hex("01 00 01 00 FE 03"), 6, None),
        (hex("02 00 01 00 FF 03"), 6, None),
        (hex("01 00 00 00 03"), 5, None),
        (hex("01 00 00 00 00 03"), 6, None),
        (hex("81 00 02 15 00 E9 03"), 7, Some(3..5)),
        (longest.clone(), 1030, Some(3..1028)),
        (longest, 1029, None),
        (data(0x13, &[0; 1025]), 1031, None),
        (long_command, 261, Some(3..259)),
        (command(0x00, &[0; 256]), 262, None),
        (data(0x00, &[0; 256]), 262, Some(3..260)),
        (vec![], 0, None),
        (hex("01"), 1, None),
        (hex("01"), usize::MAX, None),
    ];
    for (receive, count, expected) in table {
        assert_eq!(payload(&receive, count), expected, "{receive:x?} {count}");
    }
}

#[test]
fn layouts() {
    let p = Profile {
        low: 0x0102_0304,
        high: 0x0506_0708,
        ..bench_profile()
    };
    let bytes = profile_bytes(&p);
    let front = hex(
        "02 01 01 00 03 93 87 00 00 3D 09 00 01 02 03 04 05 06 07 08 \
         00 00 00 00 00 00 00 FF FF 00 00 20 00 00 00 00 80 \
         02 01 00 00 00 01 00 00 FF 00 00 00 00 00 00 00 10",
    );
    assert_eq!(bytes[..front.len()], front[..]);
    assert!(bytes[front.len()..].iter().all(|byte| *byte == 0));
    assert_eq!(profile_from(&bytes), Some(p));
    assert_eq!(profile_from(&bytes[1..]), None);
    assert_eq!(profile_from(&[&bytes[..], &[0]].concat()), None);

    let id = "12 12 12 12 12 12 12 12 12 12 12 12 12 12 12 12";
    let table = [
        (Stage::Setting(Pulse::None), "00 00 00 00 00 00 00 00 00 00"),
        (Stage::Setting(Pulse::One), "00 01 00 00 00 00 00 00 00 00"),
        (
            Stage::Setting(Pulse::Acknowledged),
            "00 02 00 00 00 00 00 00 00 00",
        ),
        (Stage::Authentication, "01 00 00 00 00 00 00 00 00 00"),
        (Stage::Command, "02 00 00 00 00 00 00 00 00 00"),
        (writing(0x01020304, 5), "03 00 01 02 03 04 00 00 00 05"),
        (reading(0, 0), "04 00 00 00 00 00 00 00 00 00"),
        (reading(6, 0x0708090A), "04 00 00 00 00 06 07 08 09 0A"),
    ];
    for (stage, front) in table {
        let state = state(stage, 0x0A0B_0C0D);
        let bytes = state_bytes(&state);
        let expected = [hex(front), hex(id), hex("07 08 09 0A 0B 0C 0D")].concat();
        assert_eq!(bytes[..], expected[..]);
        assert_eq!(state_from(&bytes), Some(state));
        assert_eq!(state_from(&bytes[..32]), None);
    }
    let none = [
        "00 03 00 00 00 00 00 00 00 00",
        "00 00 00 00 00 01 00 00 00 00",
        "01 01 00 00 00 00 00 00 00 00",
        "01 00 01 00 00 00 00 00 00 00",
        "02 00 00 00 00 00 00 00 00 01",
        "03 01 00 00 00 00 00 00 00 01",
        "04 02 00 00 00 00 00 00 00 01",
        "05 00 00 00 00 00 00 00 00 00",
    ];
    for front in none {
        let bytes = [hex(front), vec![0; 23]].concat();
        assert_eq!(state_from(&bytes), None, "{front}");
    }
}

/// However a line is cut, the replies and the end are the same.
#[test]
fn cuts_do_not_matter() {
    let id = [0xF1; 16];
    let line = [
        hex("00 00 00 55 77"),
        command(0x30, &[0xF2; 16]),
        command(0x30, &id),
        ranged(0x13, 0x80, 0x57F),
        data(0x13, &[0x11; 0x400]),
        data(0x13, &[0x22; 0x100]),
        hex("01 01 01"),
        ranged(0x15, 0x70, 0x470),
        hex(NEXT_READ),
        ranged(0x12, 0x2000, 0x3FFF),
        hex("01 00 09 12"),
    ]
    .concat();
    let run = |mut cut: Box<dyn FnMut() -> usize>| {
        let mut bench = Bench::new();
        bench.image[0x10000..0x10010].copy_from_slice(&id);
        let mut replies = vec![];
        let mut rest = &line[..];
        while !rest.is_empty() {
            let part = &rest[..cut().min(rest.len())];
            let (fed, reply) = bench.feed(part);
            assert_eq!(fed.refusal, 0);
            assert!(fed.count > 0 || fed.consumed == part.len());
            replies.push(reply);
            rest = &rest[fed.consumed..];
        }
        let held = bench.receive[..bench.state.held as usize].to_vec();
        (replies.concat(), bench.state, bench.image, held)
    };
    let whole = run(Box::new(|| usize::MAX));
    assert_eq!(whole.3, hex("01 00 09 12"));
    assert!(whole == run(Box::new(|| 1)));
    for seed in 0..20 {
        let mut dice = Dice::new(seed);
        assert!(whole == run(Box::new(move || 1 + dice.below(9))));
    }
}

/// Any call ends, a refusal changes nothing, and an accepted feed keeps the
/// state fitting; also from states and buffers that no line leads to.
#[test]
fn calls_made_by_hand() {
    let mut dice = Dice::new(77);
    let mut accepted = 0;
    for round in 0..60_000 {
        let mut p = crate::record::small_profile();
        if dice.below(2) == 0 {
            p.low = *dice.pick(&[0, 0x80, 0x200]);
            p.high = *dice.pick(&[0x200, 0x280, 0x400]);
        }
        let mut image = vec![0xFF; 0x640];
        image[dice.below(0x640)] = 0;
        let addresses = [0, 0x80, 0x180, 0x3FF, 0x400, 0x0100_0010, 0xFFFF_FFFF];
        let next = *dice.pick(&addresses);
        let left = *dice.pick(&[0, 1, 0x10, 0x80, 0x100, 0x400, 0xFFFF_FFFF]);
        let stage = match dice.below(6) {
            0 => Stage::Setting(*dice.pick(&[Pulse::None, Pulse::One, Pulse::Acknowledged])),
            1 => Stage::Authentication,
            2 => Stage::Command,
            3 => reading(next, left),
            _ => writing(next, left),
        };
        let held = *dice.pick(&[0, 0, 0, 1, 2, 3, 4, 20, 131, 9999]);
        let before = State {
            id: [*dice.pick(&[0xFF, 0xF0, 0xB0, 0x70]); 16],
            ..state(stage, held)
        };
        let size = *dice.pick(&[BUFFER, BUFFER, BUFFER, BUFFER - 1, BUFFER + 9, 0]);
        let mut receive: Vec<u8> = (0..size).map(|_| dice.below(256) as u8).collect();
        let whole = match dice.below(7) {
            0 => data(0x13, &[1; 0x80]),
            1 => data(0x13, &[2; 0x10]),
            2 => hex(NEXT_READ),
            3 => hex(TOTAL_ERASE),
            4 => ranged(0x15, next, 0x5FF),
            5 => hex("00 00 55"),
            _ => command(0x30, &before.id),
        };
        let cut = whole.len().min(held as usize).min(size);
        receive[..cut].copy_from_slice(&whole[..cut]);
        let mut input = whole[cut..].to_vec();
        if dice.below(4) == 0 && !input.is_empty() {
            let place = dice.below(input.len());
            input[place] ^= 1 << dice.below(8);
        }
        let mut reply = vec![UNTOUCHED; *dice.pick(&[BUFFER, BUFFER, BUFFER + 1, 9])];

        // A wrong device must end, too, and refuse without a change.
        let fault = match round % 3 {
            0 => Some(*dice.pick(Fault::ALL)),
            _ => None,
        };
        let lent = (image.clone(), receive.clone(), reply.clone());
        let mut after = before.clone();
        let fed = feed_with(
            fault,
            &p,
            &mut image,
            &mut after,
            &mut receive,
            &mut reply,
            &input,
        );
        assert!(fed.consumed <= input.len() && fed.count <= BUFFER);
        if fed.refusal != 0 {
            assert_eq!((fed.consumed, fed.count), (0, 0));
            assert!(before == after && lent == (image, receive, reply));
        } else if fault.is_none() {
            accepted += 1;
            assert!(fits(&p, &after, &receive));
            assert!(fed.count > 0 || fed.consumed == input.len());
            assert!(fed.count == 0 || after.held == 0);
            assert!(reply[fed.count..].iter().all(|byte| *byte == UNTOUCHED));
        }
    }
    assert!(accepted > 5_000, "{accepted}");
}
