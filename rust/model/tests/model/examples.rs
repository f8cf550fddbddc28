//! The examples of the scope document.

use crate::bench::*;
use indraveck_model::*;

#[test]
fn lines_in_command_stage() {
    let table = [
        (
            "01 00 01 3A C5 03",
            "81 00 0D 3A 03 93 87 00 00 3D 09 00 02 01 01 00 52 03",
        ),
        ("01 00 01 00 FF 03", OK_INQUIRY),
        ("01 00 01 00 FE 03", "81 00 02 80 C2 BC 03"),
        ("01 00 01 00 FE 04", "81 00 02 80 C1 BD 03"),
        ("01 00 01 00 FF 04", "81 00 02 80 C1 BD 03"),
        ("01 00 00", "81 00 02 80 C1 BD 03"),
        ("01 01 01", "81 00 02 80 C1 BD 03"),
        ("01 00 01 55 AA 03", "81 00 02 D5 C0 69 03"),
        (
            "01 00 09 12 00 00 40 00 00 00 7F FF 27 03",
            "81 00 02 12 00 EC 03",
        ),
        ("01 00 02 3B 02 C1 03", "81 00 02 BB D0 73 03"),
        (
            "01 00 02 3B 01 C2 03",
            "81 00 12 3B 02 01 00 00 00 01 00 00 FF 00 00 00 00 00 00 00 10 A0 03",
        ),
    ];
    for (request, reply) in table {
        let mut bench = Bench::ready();
        assert_eq!(bench.exchange(&hex(request)), hex(reply), "{request}");
        assert_eq!(bench.state, Bench::ready().state, "{request}");
    }
}

#[test]
fn inquiry_in_authentication() {
    let mut bench = Bench::locked(&[0xF0; 16]);
    let reply = bench.exchange(&hex("01 00 01 00 FF 03"));
    assert_eq!(reply, hex("81 00 02 80 C3 BB 03"));
}

#[test]
fn an_early_refusal_leaves_the_rest_unread() {
    let mut bench = Bench::ready();
    let (fed, reply) = bench.feed(&hex("01 01 01 00 FF 03"));
    assert_eq!((fed.consumed, reply), (3, hex("81 00 02 80 C1 BD 03")));
    assert_eq!(bench.state.held, 0);
}

#[test]
fn length_256_is_received_in_full() {
    let mut bench = Bench::ready();
    let whole = command(0x00, &[0; 255]);
    assert!(bench.exchange(&whole[..260]).is_empty());
    // Right but for the length that inquiry has.
    assert_eq!(bench.exchange(&whole[260..]), status(0x80, 0xC1));
}

#[test]
fn wake_up() {
    let mut bench = Bench::new();
    let (fed, reply) = bench.feed(&hex("00 00 55"));
    assert_eq!((fed.consumed, reply), (2, hex("00")));
    let (fed, reply) = bench.feed(&hex("55"));
    assert_eq!((fed.consumed, reply), (1, hex("C3")));
    assert_eq!(bench.state.stage, Stage::Command);
}

#[test]
fn low_pulses() {
    let none = Stage::Setting(Pulse::None);
    let one = Stage::Setting(Pulse::One);
    let acknowledged = Stage::Setting(Pulse::Acknowledged);
    let table: &[(&str, usize, &str, Stage)] = &[
        ("55", 1, "", none),
        ("00", 1, "", one),
        ("00 55", 2, "", none),
        ("00 01 00", 3, "", one),
        ("01 81 03", 3, "", none),
        ("FF 00 00 55", 3, "00", acknowledged),
    ];
    for (input, consumed, reply, stage) in table {
        let mut bench = Bench::new();
        let (fed, given) = bench.feed(&hex(input));
        assert_eq!((fed.consumed, given), (*consumed, hex(reply)), "{input}");
        assert_eq!(bench.state.stage, *stage, "{input}");
    }
    let table: &[(&str, usize, &str, Stage)] = &[
        ("00 00 00", 3, "", acknowledged),
        ("00 55 00", 2, "C3", Stage::Command),
        ("00 00 01", 3, "", none),
        ("01 55", 2, "", none),
        ("01 00 00 55", 3, "00", acknowledged),
    ];
    for (input, consumed, reply, stage) in table {
        let mut bench = Bench::new();
        bench.exchange(&[0, 0]);
        let (fed, given) = bench.feed(&hex(input));
        assert_eq!((fed.consumed, given), (*consumed, hex(reply)), "{input}");
        assert_eq!(bench.state.stage, *stage, "{input}");
    }
}

#[test]
fn a_read_of_1024_is_one_packet() {
    let mut bench = Bench::ready();
    let reply = bench.exchange(&hex("01 00 09 15 00 00 00 00 00 00 03 FF E0 03"));
    let expected = [hex("81 04 01 15"), vec![0xFF; 1024], hex("E6 03")].concat();
    assert_eq!(reply, expected);
    assert_eq!(bench.state.stage, Stage::Command);
    // Nothing is awaited, so that a further request is skipped.
    assert!(bench.exchange(&hex(NEXT_READ)).is_empty());
    assert_eq!(bench.state.held, 0);
}

#[test]
fn a_read_of_1025_is_two_packets() {
    let mut bench = Bench::ready();
    let reply = bench.exchange(&hex("01 00 09 15 00 00 00 00 00 00 04 00 DE 03"));
    let expected = [hex("81 04 01 15"), vec![0xFF; 1024], hex("E6 03")].concat();
    assert_eq!(reply, expected);
    let rest = Stage::Reading {
        next: 0x400,
        left: 1,
    };
    assert_eq!(bench.state.stage, rest);
    let reply = bench.exchange(&hex(NEXT_READ));
    assert_eq!(reply, hex("81 00 02 15 FF EA 03"));
    assert_eq!(bench.state.stage, Stage::Command);
}

#[test]
fn what_ends_a_read() {
    let table = [
        ("81 00 02 15 00 E9 04", 0xC1),
        ("81 00 02 15 00 E8 04", 0xC1),
        ("81 00 02 15 00 E8 03", 0xC2),
        ("81 00 02 15 01 E8 03", 0xC1),
        ("81 00 02 13 00 EB 03", 0xC1),
        ("81 00 01 15 EA 03", 0xC1),
        ("81 00 03 15 00 00 E8 03", 0xC1),
        ("81 00 01 FF 00 03", 0xC1),
        ("81 00 00", 0xC1),
        ("81 04 02", 0xC1),
    ];
    for (request, code) in table {
        let mut bench = Bench::ready();
        bench.exchange(&ranged(0x15, 0, 0x400));
        assert_eq!(
            bench.exchange(&hex(request)),
            status(0x95, code),
            "{request}"
        );
        assert_eq!(bench.state.stage, Stage::Command, "{request}");
    }
}

#[test]
fn an_erase_makes_its_range_blank_and_no_more() {
    let mut bench = Bench::ready();
    bench.image.fill(0x5A);
    let reply = bench.exchange(&ranged(0x12, 0x4000, 0x7FFF));
    assert_eq!(reply, hex(OK_ERASE));
    for (place, byte) in bench.image.iter().enumerate() {
        let erased = (0x4000..0x8000).contains(&place);
        assert_eq!(*byte, if erased { 0xFF } else { 0x5A }, "{place:x}");
    }
}

#[test]
fn ranges_that_are_refused() {
    let table: &[(u8, u32, u32)] = &[
        // SAD above EAD; an end in no area; ends in different areas.
        (0x12, 0x4000, 0x1FFF),
        (0x12, 0xE000, 0x11FFF),
        (0x12, 0x10000, 0x11FFF),
        (0x12, 0, 0xFFFF_FFFF),
        (0x13, 0, 0x0100_00FF),
        (0x15, 0xFFFF, 0x10000),
        (0x15, 0xFFFF_FFFF, 0xFFFF_FFFF),
        (0x15, 1, 0),
        // EAU and WAU on either side of their edges.
        (0x12, 0x4001, 0x7FFF),
        (0x12, 0x4000, 0x8000),
        (0x12, 0x4000, 0x7FFE),
        (0x12, 0x3FFF, 0x7FFF),
        (0x13, 0, 0x7E),
        (0x13, 0, 0x80),
        (0x13, 1, 0x7F),
        // EAU 0.
        (0x12, 0x0100_0000, 0x0100_00FF),
    ];
    for &(com, sad, ead) in table {
        let mut bench = Bench::ready();
        bench.image.fill(0x5A);
        let before = bench.image.clone();
        let reply = bench.exchange(&ranged(com, sad, ead));
        assert_eq!(reply, status(com | 0x80, 0xD0), "{com:x} {sad:x} {ead:x}");
        assert_eq!(bench.image, before);
        assert_eq!(bench.state.stage, Stage::Command);
    }
}

#[test]
fn order_of_checks_on_a_command() {
    let locked = || Bench::locked(&[0xF0; 16]);
    let etx = |mut packet: Vec<u8>| {
        *packet.last_mut().unwrap() ^= 1;
        packet
    };
    let sum = |mut packet: Vec<u8>| {
        let place = packet.len() - 2;
        packet[place] ^= 1;
        packet
    };
    // (in authentication, request, RES, code)
    let table = [
        (false, etx(sum(command(0x55, &[]))), 0xD5, 0xC1),
        (false, sum(command(0x55, &[])), 0xD5, 0xC2),
        (false, command(0x92, &[0; 8]), 0x92, 0xC0),
        (false, command(0x18, &[0; 8]), 0x98, 0xC0),
        (true, command(0x55, &[]), 0xD5, 0xC0),
        (true, command(0x00, &[0]), 0x80, 0xC1),
        (true, command(0x00, &[]), 0x80, 0xC3),
        (true, ranged(0x12, 1, 0), 0x92, 0xC3),
        (true, command(0x34, &[0; 4]), 0xB4, 0xC3),
        (true, command(0x3A, &[]), 0xBA, 0xC3),
        (true, command(0x3B, &[9]), 0xBB, 0xC3),
        (false, command(0x30, &[0; 15]), 0xB0, 0xC1),
        (false, command(0x30, &[0; 16]), 0xB0, 0xC3),
        (false, command(0x12, &[0; 7]), 0x92, 0xC1),
        (false, command(0x13, &[0; 9]), 0x93, 0xC1),
        (false, command(0x15, &[]), 0x95, 0xC1),
        (false, command(0x34, &[0; 3]), 0xB4, 0xC1),
        (false, command(0x3A, &[0]), 0xBA, 0xC1),
        (false, command(0x3B, &[]), 0xBB, 0xC1),
        (false, command(0x3B, &[0, 0]), 0xBB, 0xC1),
    ];
    for (authentication, request, res, code) in table {
        let mut bench = if authentication {
            locked()
        } else {
            Bench::ready()
        };
        let stage = bench.state.stage;
        let reply = bench.exchange(&request);
        assert_eq!(reply, status(res, code), "{request:x?}");
        assert_eq!(bench.state.stage, stage);
    }
}

#[test]
fn write_in_two_packets() {
    let mut bench = Bench::ready();
    let bytes: Vec<u8> = (0..0x500).map(|n| (n * 7 % 251) as u8).collect();
    assert_eq!(bench.exchange(&ranged(0x13, 0x80, 0x57F)), hex(OK_WRITE));
    assert_eq!(bench.exchange(&data(0x13, &bytes[..0x400])), hex(OK_WRITE));
    let rest = Stage::Writing {
        next: 0x480,
        left: 0x100,
    };
    assert_eq!(bench.state.stage, rest);
    assert_eq!(bench.exchange(&data(0x13, &bytes[0x400..])), hex(OK_WRITE));
    assert_eq!(bench.state.stage, Stage::Command);
    assert_eq!(bench.image[0x80..0x580], bytes[..]);
    assert!(bench.image[..0x80].iter().all(|byte| *byte == 0xFF));
    assert!(bench.image[0x580..].iter().all(|byte| *byte == 0xFF));
}

#[test]
fn what_ends_a_write() {
    let table = [
        (hex("81 00 00"), 0xC1),
        (hex("81 04 02"), 0xC1),
        (hex("81 00 02 13 00 EC 04"), 0xC1),
        (hex("81 00 02 13 00 EC 03"), 0xC2),
        (data(0x15, &[1; 0x80]), 0xC1),
        (data(0x13, &[]), 0xC1),
        (data(0x13, &[1; 0x180]), 0xC1),
        (data(0x13, &[1; 0x7F]), 0xC1),
        (data(0x13, &[1; 0x81]), 0xC1),
        (hex("81 00 01 FF 00 03"), 0xC1),
        // The second unit of what remains isn't blank.
        (data(0x13, &[1; 0x100]), 0xE2),
    ];
    for (request, code) in table {
        let mut bench = Bench::ready();
        bench.image[0x1FF] = 0xFE;
        bench.exchange(&ranged(0x13, 0x80, 0x1FF));
        assert_eq!(bench.exchange(&data(0x13, &[2; 0x80])), hex(OK_WRITE));
        let reply = bench.exchange(&request);
        assert_eq!(reply, status(0x93, code), "{request:x?}");
        assert_eq!((bench.state.stage, bench.state.held), (Stage::Command, 0));
        // The OK packet stays, nothing of the other is there.
        assert_eq!(bench.image[0x80..0x100], [2; 0x80]);
        assert_eq!(bench.image[0x100..0x1FF], [0xFF; 0xFF]);
        assert_eq!(bench.image[0x1FF], 0xFE);
    }
}

#[test]
fn only_the_target_of_the_packet_must_be_blank() {
    let mut bench = Bench::ready();
    bench.image[0x7F] = 0;
    bench.image[0x180] = 0;
    bench.exchange(&ranged(0x13, 0x80, 0x1FF));
    assert_eq!(bench.exchange(&data(0x13, &[1; 0x100])), hex(OK_WRITE));
    assert_eq!(bench.exchange(&data(0x13, &[1; 0x80])), status(0x93, 0xE2));
}

#[test]
fn other_bytes_are_skipped_by_stage() {
    let mut bench = Bench::ready();
    assert!(bench.exchange(&hex("81 00 02 03 55 FF")).is_empty());
    assert_eq!(bench.exchange(&command(0x00, &[])), hex(OK_INQUIRY));
    bench.exchange(&ranged(0x13, 0, 0x7F));
    assert!(bench.exchange(&command(0x00, &[])).is_empty());
    assert_eq!(bench.exchange(&data(0x13, &[0; 0x80])), hex(OK_WRITE));
    // A start byte inside of what is skipped counts: 01h of a length.
    let (fed, reply) = bench.feed(&hex("81 04 01 00 00"));
    assert_eq!((fed.consumed, reply), (5, status(0x80, 0xC1)));
}

#[test]
fn authentication() {
    let id = |first: u8| {
        let mut id = [0x33; 16];
        id[0] = first;
        id
    };
    let erase = hex(TOTAL_ERASE)[4..20].to_vec();
    // (stored ID, code, reply)
    let table = [
        (id(0x7F).to_vec(), id(0x7F).to_vec(), status(0xB0, 0xDC)),
        (id(0x3F).to_vec(), erase.clone(), status(0xB0, 0xDC)),
        (id(0x7F).to_vec(), erase.clone(), status(0xB0, 0xDC)),
        (erase.clone(), erase.clone(), status(0xB0, 0xDC)),
        (id(0xBF).to_vec(), id(0xBF).to_vec(), hex(OK_AUTHENTICATE)),
        (id(0xBF).to_vec(), id(0xBE).to_vec(), status(0xB0, 0xDB)),
        (id(0xBF).to_vec(), erase.clone(), status(0xB0, 0xDB)),
        (id(0xF0).to_vec(), id(0xF0).to_vec(), hex(OK_AUTHENTICATE)),
        (id(0xF0).to_vec(), id(0xF1).to_vec(), status(0xB0, 0xDB)),
        (id(0xF0).to_vec(), vec![0xFF; 16], status(0xB0, 0xDB)),
    ];
    for (stored, code, expected) in table {
        let mut bench = Bench::locked(&stored);
        let before = bench.image.clone();
        let reply = bench.exchange(&command(0x30, &code));
        assert_eq!(reply, expected, "{stored:x?} {code:x?}");
        assert_eq!(bench.image, before);
        assert_eq!(bench.state.id[..], stored[..]);
        let stage = if reply == hex(OK_AUTHENTICATE) {
            Stage::Command
        } else {
            Stage::Authentication
        };
        assert_eq!(bench.state.stage, stage);
    }
}

#[test]
fn total_erase() {
    let mut bench = Bench::locked(&[0xC0; 16]);
    bench.p.low = 0x2000;
    bench.p.high = 0x4000;
    bench.image[7] = 7;
    bench.state.line = Line::default();
    assert_eq!(bench.exchange(&hex(TOTAL_ERASE)), hex(OK_AUTHENTICATE));
    assert!(bench.image.iter().all(|byte| *byte == 0xFF));
    assert_eq!(bench.state, Bench::new().state);
}

#[test]
fn config_writes_count_from_the_next_wake_up() {
    let mut bench = Bench::ready();
    bench.exchange(&ranged(0x13, 0x0100_0000, 0x0100_000F));
    assert_eq!(bench.exchange(&data(0x13, &[0x9C; 16])), hex(OK_WRITE));
    assert_eq!(bench.state.id, [0xFF; 16]);
    assert_eq!(bench.exchange(&command(0x00, &[])), hex(OK_INQUIRY));
    assert_eq!(bench.reset(), 0);
    assert_eq!(bench.state.id, [0xFF; 16]);
    bench.wake();
    assert_eq!(bench.state.id, [0x9C; 16]);
    assert_eq!(bench.state.stage, Stage::Authentication);
}

#[test]
fn the_window_limits_user_areas() {
    let mut p = bench_profile();
    p.low = 0x2000;
    p.high = 0x6000;
    // (request, code of the reply)
    let table = [
        (ranged(0x12, 0x2000, 0x5FFF), 0x00),
        (ranged(0x12, 0x2000, 0x3FFF), 0x00),
        (ranged(0x12, 0x0000, 0x3FFF), 0xDA),
        (ranged(0x12, 0x4000, 0x7FFF), 0xDA),
        // D0h comes first.
        (ranged(0x12, 0x4000, 0x7FFE), 0xD0),
        (ranged(0x13, 0x2000, 0x5FFF), 0x00),
        (ranged(0x13, 0x1F80, 0x1FFF), 0xDA),
        (ranged(0x13, 0x5F80, 0x607F), 0xDA),
        (ranged(0x13, 0x6000, 0x607F), 0xDA),
        // Config is outside the window's reach.
        (ranged(0x13, 0x0100_0000, 0x0100_000F), 0x00),
    ];
    for (request, code) in table {
        let com = request[3];
        let res = if code == 0 { com } else { com | 0x80 };
        let mut bench = Bench::woken(p.clone());
        assert_eq!(bench.exchange(&request), status(res, code), "{request:x?}");
    }
    // Reads are not limited.
    let mut bench = Bench::woken(p.clone());
    assert_eq!(bench.exchange(&ranged(0x15, 0, 0)), data(0x15, &[0xFF]));
    // Low equal to high is no limit, wherever it is.
    p.low = p.high;
    let mut bench = Bench::woken(p);
    assert_eq!(bench.exchange(&ranged(0x12, 0, 0xFFFF)), hex(OK_ERASE));
}
