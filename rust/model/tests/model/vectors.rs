//! Packets that the makers print, or that follow from printed fields.

use crate::bench::*;
use indraveck_model::*;

#[test]
fn printed_packets_are_good() {
    let table = [
        "01 00 01 00 FF 03",
        "81 00 02 00 00 FE 03",
        "81 00 02 12 00 EC 03",
        "81 00 02 13 00 EB 03",
        "81 00 02 15 00 E9 03",
        "81 00 02 30 00 CE 03",
        "81 00 02 34 00 CA 03",
        "01 00 01 3A C5 03",
        "81 00 01 FF 00 03",
        "01 00 09 12 00 00 40 00 00 3F FF FF 68 03",
        "01 00 09 13 00 00 40 00 00 3F FF FF 67 03",
        "01 00 09 15 00 00 40 00 00 3F FF FF 65 03",
        "01 00 05 34 00 1E 84 80 A5 03",
        "81 00 0D 3A 01 31 2D 00 00 1E 84 80 04 02 0A 08 20 03",
        "81 00 0D 3A 01 31 2D 00 00 1E 84 80 04 03 0A 08 1F 03",
        "01 00 11 30 F0 F1 F2 F3 E4 E5 E6 E7 D8 D9 DA DB CC CD CE CF C7 03",
        "01 00 11 30 F0 F1 F2 F3 E0 E1 E2 E3 D0 D1 D2 D3 C0 C1 C2 C3 27 03",
        TOTAL_ERASE,
        "01 00 02 3B 00 C3 03",
        "01 00 02 3B 01 C2 03",
        "01 00 02 3B 02 C1 03",
    ];
    for text in table {
        let packet = hex(text);
        let contents = payload(&packet, packet.len());
        assert_eq!(contents, Some(3..packet.len() - 2), "{text}");
    }
}

#[test]
fn rate_commands() {
    let table = [
        ("01 00 05 34 00 00 25 80 22 03", true),
        ("01 00 05 34 00 01 C2 00 04 03", true),
        ("01 00 05 34 00 07 A1 20 FF 03", true),
        ("01 00 05 34 00 0F 42 40 36 03", true),
        ("01 00 05 34 00 16 E3 60 6E 03", true),
        ("01 00 05 34 00 1E 84 80 A5 03", true),
        ("01 00 05 34 00 3B 9A CA 28 03", true),
        ("01 00 05 34 00 3B 9A CB 27 03", false),
        ("01 00 05 34 00 00 0D C2 F8 03", true),
        ("01 00 05 34 00 00 0D C1 F9 03", false),
        ("01 00 05 34 00 00 00 00 C7 03", false),
    ];
    for (request, granted) in table {
        let expected = if granted {
            hex(OK_RATE)
        } else {
            hex("81 00 02 B4 D4 76 03")
        };
        let mut bench = Bench::ready();
        assert_eq!(bench.exchange(&hex(request)), expected, "{request}");
    }
}

#[test]
fn signature_of_another_device() {
    let mut p = bench_profile();
    p.noa = 4;
    p.areas[2] = area(1, 0x4010_0000, 0x4010_0FFF, 0x400, 1);
    p.areas[3] = area(1, 0x4011_0000, 0x4011_0FFF, 0x400, 1);
    p.sci = 20_000_000;
    p.rmb = 2_000_000;
    p.bfv = 0x0A08;
    for (typ, reply) in [
        (2, "81 00 0D 3A 01 31 2D 00 00 1E 84 80 04 02 0A 08 20 03"),
        (3, "81 00 0D 3A 01 31 2D 00 00 1E 84 80 04 03 0A 08 1F 03"),
    ] {
        let mut bench = Bench::woken(Profile { typ, ..p.clone() });
        let request = hex("01 00 01 3A C5 03");
        assert_eq!(bench.exchange(&request), hex(reply));
    }
}

#[test]
fn area_messages() {
    let config = area(2, 0x0101_0008, 0x0101_0033, 0, 4);
    let table = [
        (
            area(0, 0x1_0000, 0x1F_FFFF, 0x8000, 0x100),
            "81 00 12 3B 00 00 01 00 00 00 1F FF FF 00 00 80 00 00 00 01 00 14 03",
        ),
        (
            area(0, 0x1_0000, 0x1F_FFFF, 0x800, 8),
            "81 00 12 3B 00 00 01 00 00 00 1F FF FF 00 00 08 00 00 00 00 08 85 03",
        ),
        (
            area(0, 0, 0x1_FFFF, 0x800, 8),
            "81 00 12 3B 00 00 00 00 00 00 01 FF FF 00 00 08 00 00 00 00 08 A4 03",
        ),
        (
            area(1, 0x4010_0000, 0x4010_0FFF, 0x400, 1),
            "81 00 12 3B 01 40 10 00 00 40 10 0F FF 00 00 04 00 00 00 00 01 FF 03",
        ),
        (
            config,
            "81 00 12 3B 02 01 01 00 08 01 01 00 33 00 00 00 00 00 00 00 04 6E 03",
        ),
        (
            area(0, 0, 0xFFFF, 0x2000, 0x80),
            "81 00 12 3B 00 00 00 00 00 00 00 FF FF 00 00 20 00 00 00 00 80 15 03",
        ),
        (
            area(2, 0x0100_0000, 0x0100_00FF, 0, 0x10),
            "81 00 12 3B 02 01 00 00 00 01 00 00 FF 00 00 00 00 00 00 00 10 A0 03",
        ),
    ];
    for (shown, reply) in table {
        let mut areas = vec![shown];
        if shown.koa != 2 {
            areas.push(config);
            areas.sort_by_key(|area| area.sad);
        }
        let number = areas.iter().position(|area| *area == shown).unwrap();
        let mut bench = Bench::woken(profile(&areas));
        let request = command(0x3B, &[number as u8]);
        assert_eq!(bench.exchange(&request), hex(reply));
        // The first number without an area, and one far beyond the table.
        for number in [areas.len() as u8, 8, 0xFF] {
            let reply = bench.exchange(&command(0x3B, &[number]));
            assert_eq!(reply, hex("81 00 02 BB D0 73 03"));
        }
    }
}

#[test]
fn printed_authentications() {
    let table = [
        "01 00 11 30 F0 F1 F2 F3 E4 E5 E6 E7 D8 D9 DA DB CC CD CE CF C7 03",
        "01 00 11 30 F0 F1 F2 F3 E0 E1 E2 E3 D0 D1 D2 D3 C0 C1 C2 C3 27 03",
    ];
    for request in table {
        let request = hex(request);
        let mut bench = Bench::locked(&request[4..20]);
        assert_eq!(bench.exchange(&request), hex(OK_AUTHENTICATE));
        let mut bench = Bench::locked(&[0xF0; 16]);
        assert_eq!(bench.exchange(&request), hex("81 00 02 B0 DB 73 03"));
        let mut bench = Bench::locked(&[0x70; 16]);
        assert_eq!(bench.exchange(&request), hex("81 00 02 B0 DC 72 03"));
    }
}

#[test]
fn early_refusals_by_stage() {
    let mut bench = Bench::locked(&[0xF0; 16]);
    assert_eq!(
        bench.exchange(&hex("01 01 01")),
        hex("81 00 02 80 C1 BD 03")
    );
    assert_eq!(bench.state.stage, Stage::Authentication);
    let mut bench = Bench::ready();
    bench.exchange(&ranged(0x13, 0, 0x7F));
    assert_eq!(
        bench.exchange(&hex("81 04 02")),
        hex("81 00 02 93 C1 AA 03")
    );
    bench.exchange(&ranged(0x15, 0, 0x400));
    assert_eq!(
        bench.exchange(&hex("81 04 02")),
        hex("81 00 02 95 C1 A8 03")
    );
}

#[test]
fn the_worked_window() {
    let mut p = profile(&[
        area(0, 0, 0xFFFF, 0x2000, 0x80),
        area(0, 0x1_0000, 0xF_FFFF, 0x8000, 0x80),
        area(2, 0x0100_A100, 0x0100_A2FF, 0, 0x10),
        area(1, 0x0800_0000, 0x0800_1FFF, 0x40, 4),
    ]);
    p.low = 0xE000;
    p.high = 0x2_8000;
    let table = [
        (0xE000, 0xFFFF, 0x00),
        (0x1_0000, 0x2_7FFF, 0x00),
        (0x2_0000, 0x2_7FFF, 0x00),
        (0xC000, 0xDFFF, 0xDA),
        (0xC000, 0xFFFF, 0xDA),
        (0x2_8000, 0x2_FFFF, 0xDA),
        (0x2_0000, 0x2_FFFF, 0xDA),
        // The two user areas adjoin, but a range lies in one.
        (0xE000, 0x1_7FFF, 0xD0),
        (0x0800_0000, 0x0800_003F, 0x00),
    ];
    for (sad, ead, code) in table {
        let res = if code == 0 { 0x12 } else { 0x92 };
        let mut bench = Bench::woken(p.clone());
        let reply = bench.exchange(&ranged(0x12, sad, ead));
        assert_eq!(reply, status(res, code), "{sad:x} {ead:x}");
    }
}
