//! `--log`: each exchange in words.

mod common;

use common::{command, data, packet, range, words, Folder};

const ID: &str = "c0ffee00112233445566778899aabbcc";

fn id_bytes() -> Vec<u8> {
    let digits = |i: usize| u8::from_str_radix(&ID[2 * i..2 * i + 2], 16).expect("two digits");
    (0..16).map(digits).collect()
}

/// Requests, each with the line that it leaves.
fn session() -> Vec<(Vec<u8>, &'static str)> {
    let next = packet(0x81, &[0x15, 0x00]);
    let mut wrong_id = id_bytes();
    wrong_id[15] ^= 1;
    let mut wrong_sum = command(0x3A, &[]);
    wrong_sum[4] ^= 1;
    let mut wrong_end = command(0x3A, &[]);
    wrong_end[5] = 0x04;
    vec![
        (vec![0x00, 0x00], "wake-up: 00h, the low pulses are acknowledged"),
        (vec![0x55], "wake-up: C3h, the device is awake; an ID code is stored and has to be given"),
        (command(0x00, &[]), "inquiry (00h): C3h wrong stage for this command"),
        (command(0x30, &wrong_id), "authenticate (30h): DBh the ID code is another one"),
        (command(0x30, &id_bytes()), "authenticate (30h): 00h OK; commands are open"),
        (range(0x12, 0, 0x1FFF), "erase (12h) 00000000h to 00001FFFh: DAh outside the window"),
        (range(0x12, 0x2000, 0x3FFF), "erase (12h) 00002000h to 00003FFFh: 00h OK"),
        (range(0x12, 0x2000, 0x2FFF), "erase (12h) 00002000h to 00002FFFh: D0h address error: the range is not one that this command takes, or no such area"),
        (range(0x13, 0x2000, 0x20FF), "write (13h) 00002000h to 000020FFh: 00h OK; 256 bytes to go"),
        (data(&[0x11; 128]), "write data, 128 bytes at 00002000h: 00h OK; 128 bytes to go"),
        (data(&[0x22; 128]), "write data, 128 bytes at 00002080h: 00h OK; the write has ended"),
        (range(0x13, 0x2000, 0x207F), "write (13h) 00002000h to 0000207Fh: 00h OK; 128 bytes to go"),
        (data(&[0x33; 128]), "write data, 128 bytes at 00002000h: E2h the target is not blank; nothing of this packet was written; the write has ended"),
        (range(0x15, 0x2000, 0x2400), "read (15h) 00002000h to 00002400h: 1,024 bytes read; 1 byte to go"),
        (next.clone(), "next packet of the read, at 00002400h: 1 byte read; the read has ended"),
        (range(0x15, 0x2000, 0x2FFF), "read (15h) 00002000h to 00002FFFh: 1,024 bytes read; 3,072 bytes to go"),
        (packet(0x81, &[0x15, 0x01]), "next packet of the read, at 00002400h: C1h packet error: wrong length, end byte or contents; the read has ended"),
        (command(0x34, &[0x00, 0x00, 0x25, 0x80]), "baud rate (34h) 9,600: 00h OK"),
        (command(0x34, &[0; 4]), "baud rate (34h) 0: D4h this baud rate cannot be set"),
        (command(0x18, &[]), "command 18h: C0h unknown command"),
        (command(0x12, &[0; 7]), "erase (12h): C1h packet error: wrong length, end byte or contents"),
        (wrong_sum, "signature (3Ah): C2h checksum error"),
        (wrong_end, "signature (3Ah): C1h packet error: wrong length, end byte or contents"),
        (vec![0x01, 0x01, 0x01], "packet refused at its length 257: C1h packet error: wrong length, end byte or contents"),
    ]
}

#[test]
fn each_exchange_is_told_in_words() {
    let folder = Folder::new();
    let bench = String::from_utf8(folder.read("bench.toml")).expect("the bench profile");
    let windowed = bench.replace("low = 0x0\nhigh = 0x0", "low = 0x2000\nhigh = 0x8000");
    assert_ne!(windowed, bench);
    folder.write("windowed.toml", windowed.as_bytes());
    let files = ["--profile", "windowed.toml", "--image", "flash.bin"];
    let made = folder.run(&[&["image", "new"], &files[..], &["--id", ID]].concat());
    assert_eq!(made.status.code(), Some(0), "{:?}", made);
    let session = session();
    let input: Vec<u8> = session
        .iter()
        .flat_map(|(request, _)| request.clone())
        .collect();
    let output = folder.run_with(&[&["feed"], &files[..], &["--log"]].concat(), &input);
    assert_eq!(output.status.code(), Some(0), "{:?}", output);
    let expected: Vec<&str> = session.iter().map(|(_, line)| *line).collect();
    assert_eq!(words(&output.stderr), expected);
}

/// Bit 127 of the stored ID clear: no code helps. Bits 127 and 126 set: the total erase does.
#[test]
fn what_an_id_forbids_and_allows_is_told() {
    let files = ["--profile", "bench.toml", "--image", "flash.bin"];
    let code = [&b"ALeRASE"[..], &[0xFF; 9]].concat();
    for (id, line) in [
        (
            "40ffee00112233445566778899aabbcc",
            "total erase (30h): DCh the ID code forbids a connection",
        ),
        (
            "80ffee00112233445566778899aabbcc",
            "total erase (30h): DBh the ID code is another one",
        ),
        (
            "c0ffee00112233445566778899aabbcc",
            "total erase (30h): 00h OK; everything is blank, the device waits to be woken up",
        ),
    ] {
        let folder = Folder::new();
        let made = folder.run(&[&["image", "new"], &files[..], &["--id", id]].concat());
        assert_eq!(made.status.code(), Some(0), "{:?}", made);
        let input = [&[0x00, 0x00, 0x55][..], &command(0x30, &code)].concat();
        let output = folder.run_with(&[&["feed"], &files[..], &["--log"]].concat(), &input);
        let log = words(&output.stderr);
        assert_eq!(log.last().map(String::as_str), Some(line));
    }
}
