//! `indraveck serve` on a real pseudo-terminal.

mod common;

use common::{
    command, data, packet, pattern, range, words, Client, Folder, Serving, AWAKE, ERASED,
    SHOW_FLASH, WRITTEN,
};
use indraveck::recording::{append, Direction};
use indraveck::Profile;
use indraveck_model::{Area, Entry};
use nix::sys::signal::Signal;
use std::fs;
use std::time::Duration;

fn bench_areas() -> [Area; 2] {
    let area = |koa, sad, ead, eau, wau| Area {
        koa,
        sad,
        ead,
        eau,
        wau,
    };
    [
        area(0, 0, 0xFFFF, 0x2000, 0x80),
        area(2, 0x0100_0000, 0x0100_00FF, 0, 0x10),
    ]
}

#[test]
fn the_line_examples_of_the_paper_are_answered() {
    let folder = Folder::new();
    let serving = Serving::start(&folder, "flash.bin", &[]);
    let mut client = Client::open(&serving.port);
    client.wake_up();
    let examples: [(&[u8], &[u8]); 6] = [
        (
            &[0x01, 0x00, 0x01, 0x3A, 0xC5, 0x03],
            &[
                0x81, 0x00, 0x0D, 0x3A, 0x03, 0x93, 0x87, 0x00, 0x00, 0x3D, 0x09, 0x00, 0x02, 0x01,
                0x01, 0x00, 0x52, 0x03,
            ],
        ),
        (
            &[0x01, 0x00, 0x01, 0x00, 0xFF, 0x03],
            &[0x81, 0x00, 0x02, 0x00, 0x00, 0xFE, 0x03],
        ),
        (
            &[0x01, 0x00, 0x01, 0x00, 0xFE, 0x03],
            &[0x81, 0x00, 0x02, 0x80, 0xC2, 0xBC, 0x03],
        ),
        (
            &[0x01, 0x00, 0x00],
            &[0x81, 0x00, 0x02, 0x80, 0xC1, 0xBD, 0x03],
        ),
        (
            &[0x01, 0x00, 0x01, 0x55, 0xAA, 0x03],
            &[0x81, 0x00, 0x02, 0xD5, 0xC0, 0x69, 0x03],
        ),
        (
            &[0x01, 0x00, 0x02, 0x3B, 0x02, 0xC1, 0x03],
            &[0x81, 0x00, 0x02, 0xBB, 0xD0, 0x73, 0x03],
        ),
    ];
    for (request, reply) in examples {
        assert_eq!(client.ask(request), reply);
    }
    assert_eq!(serving.end(Signal::SIGTERM), Some(0));
    let log = words(&folder.read("flash.bin.log"));
    for line in [
        "wake-up: C3h, the device is awake; no ID code is stored",
        "signature (3Ah): SCI 60,000,000, RMB 4,000,000, 2 areas, type 01h, boot firmware 0100h",
        "inquiry (00h): 00h OK",
        "inquiry (00h): C2h checksum error",
        "packet refused at its length 0: C1h packet error: wrong length, end byte or contents",
        "command 55h: C0h unknown command",
        "area (3Bh) 2: D0h address error: the range is not one that this command takes, or no such area",
        "ended; 8 answers sent",
    ] {
        assert!(log.iter().any(|logged| logged == line), "no {:?} in\n{:#?}", line, log);
    }
}

#[test]
fn an_ok_is_in_the_file_before_it_is_sent() {
    let folder = Folder::new();
    let serving = Serving::start(&folder, "flash.bin", &[]);
    let mut client = Client::open(&serving.port);
    client.wake_up();
    let bytes = pattern(0x400, 7);
    assert_eq!(client.ask(&range(0x13, 0x4000, 0x47FF)), WRITTEN);
    assert_eq!(client.ask(&data(&bytes)), WRITTEN);
    assert_eq!(folder.read("flash.bin")[0x4000..0x4400], bytes);
    assert_eq!(client.ask(&data(&bytes)), WRITTEN);
    assert_eq!(folder.read("flash.bin")[0x4400..0x4800], bytes);
    assert_eq!(client.ask(&range(0x12, 0x4000, 0x5FFF)), ERASED);
    assert!(folder.read("flash.bin").iter().all(|byte| *byte == 0xFF));
}

/// What a client saw, as a recording and as the model's list.
#[derive(Default)]
struct Record {
    recording: Vec<u8>,
    entries: Vec<Entry>,
}

impl Record {
    fn ask(&mut self, client: &mut Client, request: &[u8]) -> Vec<u8> {
        let reply = client.ask(request);
        self.keep(Direction::Host, request);
        self.keep(Direction::Device, &reply);
        self.entries.push(Entry::Exchange {
            request: request.to_vec(),
            reply: reply.clone(),
        });
        reply
    }

    fn reset(&mut self) {
        self.keep(Direction::Reset, &[]);
        self.entries.push(Entry::Reset);
    }

    fn keep(&mut self, direction: Direction, bytes: &[u8]) {
        append(&mut self.recording, direction.byte(), bytes).expect("a packet or a reset");
    }

    /// The image that the proved replay makes of it; the model's has to be the same.
    fn replayed(&self, before: &[u8]) -> Vec<u8> {
        let mut image = before.to_vec();
        let replayed = indraveck::replay(&Profile::bench(), &mut image, &self.recording);
        assert_eq!(replayed.map(|replayed| replayed.whole()), Ok(Ok(())));
        let mut by_model = before.to_vec();
        indraveck_model::replay(&bench_areas(), &mut by_model, &self.entries);
        assert!(image == by_model);
        image
    }
}

/// Killed with no chance to tidy up, in the middle of a write and of a packet: the same image goes on, and the replay of
/// what was answered on the image before is the image after.
#[test]
fn killed_in_the_middle_of_a_write_nothing_answered_is_lost() {
    let folder = Folder::new();
    // not blank, but for the config area
    let before = [&pattern(0x1_0000, 3)[..], &[0xFF; 256]].concat();
    folder.write("flash.bin", &before);
    let mut record = Record::default();
    let bytes = pattern(0x2000, 9);

    let serving = Serving::start(&folder, "flash.bin", &["--link", "slot"]);
    let mut client = Client::open(&folder.path("slot"));
    client.wake_up();
    assert_eq!(
        record.ask(&mut client, &range(0x12, 0x4000, 0x5FFF)),
        ERASED
    );
    assert_eq!(
        record.ask(&mut client, &range(0x13, 0x4000, 0x5FFF)),
        WRITTEN
    );
    for part in bytes[..0x1400].chunks(0x400) {
        assert_eq!(record.ask(&mut client, &data(part)), WRITTEN);
    }
    client.send(&data(&bytes[0x1400..0x1800])[..700]);
    assert_eq!(serving.end(Signal::SIGKILL), None);
    record.reset();

    let replayed = record.replayed(&before);
    assert!(folder.read("flash.bin") == replayed);
    assert_eq!(replayed[0x4000..0x5400], bytes[..0x1400]);
    assert!(replayed[0x5400..0x6000].iter().all(|byte| *byte == 0xFF));

    // the link that was left behind leads nowhere, and the next one takes its place
    let serving = Serving::start(&folder, "flash.bin", &["--link", "slot"]);
    let mut client = Client::open(&folder.path("slot"));
    client.wake_up();
    assert_eq!(
        record.ask(&mut client, &range(0x13, 0x5400, 0x5FFF)),
        WRITTEN
    );
    for part in bytes[0x1400..].chunks(0x400) {
        assert_eq!(record.ask(&mut client, &data(part)), WRITTEN);
    }
    assert_eq!(serving.end(Signal::SIGINT), Some(0));
    let replayed = record.replayed(&before);
    assert!(folder.read("flash.bin") == replayed);
    assert_eq!(replayed[0x4000..0x6000], bytes);
    assert!(fs::symlink_metadata(folder.path("slot")).is_err());
}

#[test]
fn usr1_resets_the_device_and_keeps_the_flash() {
    let folder = Folder::new();
    let mut serving = Serving::start(&folder, "flash.bin", &[]);
    let mut client = Client::open(&serving.port);
    client.wake_up();
    let bytes = pattern(0x80, 5);
    assert_eq!(client.ask(&range(0x13, 0, 0xFF)), WRITTEN);
    assert_eq!(client.ask(&data(&bytes)), WRITTEN);
    // half a packet that the reset cuts
    client.send(&data(&bytes)[..20]);
    serving.reset();
    client.wake_up();
    assert_eq!(client.ask(&command(0x00, &[])), AWAKE);
    let flash = folder.read("flash.bin");
    assert_eq!(flash[..0x80], bytes);
    assert!(flash[0x80..].iter().all(|byte| *byte == 0xFF));
}

/// The same addresses, other bytes, turn by turn.
#[test]
fn two_stand_ins_do_not_disturb_each_other() {
    let folder = Folder::new();
    let first = Serving::start(&folder, "first.bin", &["--link", "slot0"]);
    let second = Serving::start(&folder, "second.bin", &["--link", "slot1"]);
    assert_ne!(first.port, second.port);
    let mut clients = [
        Client::open(&folder.path("slot0")),
        Client::open(&folder.path("slot1")),
    ];
    let contents = [pattern(0x800, 21), pattern(0x800, 22)];
    for client in &mut clients {
        client.wake_up();
        assert_eq!(client.ask(&range(0x13, 0, 0x7FF)), WRITTEN);
    }
    for at in (0..0x800).step_by(0x80) {
        let packets = [
            data(&contents[0][at..at + 0x80]),
            data(&contents[1][at..at + 0x80]),
        ];
        let half = packets[0].len() / 2;
        clients[0].send(&packets[0][..half]);
        assert_eq!(clients[1].ask(&packets[1]), WRITTEN);
        assert_eq!(clients[0].ask(&packets[0][half..]), WRITTEN);
    }
    // one of them ends; the other goes on
    assert_eq!(first.end(Signal::SIGTERM), Some(0));
    assert_eq!(clients[1].ask(&command(0x00, &[])), AWAKE);
    assert_eq!(folder.read("first.bin")[..0x800], contents[0]);
    assert_eq!(folder.read("second.bin")[..0x800], contents[1]);
}

/// The largest image there is, 16,777,216 bytes: blank, erased whole, written and read at its end.
#[test]
fn the_largest_image_is_served() {
    let folder = Folder::new();
    let bench = String::from_utf8(folder.read("bench.toml")).expect("the bench profile");
    let large = bench
        .replace("ead = 0x0000_FFFF", "ead = 0x00FF_FEFF")
        .replace("eau = 0x2000", "eau = 0x100");
    folder.write("bench.toml", large.as_bytes());
    let serving = Serving::start(&folder, "flash.bin", &[]);
    let mut client = Client::open(&serving.port);
    client.wake_up();
    assert_eq!(client.ask(&range(0x12, 0, 0x00FF_FEFF)), ERASED);
    let bytes = pattern(0x400, 31);
    assert_eq!(client.ask(&range(0x13, 0x00FF_FB00, 0x00FF_FEFF)), WRITTEN);
    assert_eq!(client.ask(&data(&bytes)), WRITTEN);
    let reply = client.ask(&range(0x15, 0x00FF_FB00, 0x00FF_FEFF));
    assert_eq!(reply[4..0x404], bytes);
    let flash = folder.read("flash.bin");
    assert_eq!(flash.len(), 16_777_216);
    assert_eq!(flash[0x00FF_FB00..0x00FF_FF00], bytes);
    assert!(flash[..0x00FF_FB00].iter().all(|byte| *byte == 0xFF));
    assert_eq!(serving.end(Signal::SIGTERM), Some(0));
}

#[test]
fn an_image_in_use_is_refused_to_a_second_stand_in() {
    let folder = Folder::new();
    let _serving = Serving::start(&folder, "flash.bin", &[]);
    let arguments = ["serve", "--profile", "bench.toml", "--image", "flash.bin"];
    let refused = folder.run(&arguments);
    assert_eq!(refused.status.code(), Some(1));
    assert_eq!(
        String::from_utf8_lossy(&refused.stderr),
        "indraveck: the image flash.bin is in use by another stand-in\n  what to do: end that one first, or give each its own image\n"
    );
    // looking is allowed
    assert_eq!(folder.run(&SHOW_FLASH).status.code(), Some(0));
}

/// A script that asks and never takes its answers: the tool waits for it, and still ends when told to.
#[test]
fn answers_that_nobody_takes_do_not_hold_up_the_end() {
    let folder = Folder::new();
    let serving = Serving::start(&folder, "flash.bin", &[]);
    let mut client = Client::open(&serving.port);
    client.wake_up();
    let next = packet(0x81, &[0x15, 0x00]);
    client.send(&range(0x15, 0, 0xFFFF));
    for _ in 0..40 {
        client.send(&next);
    }
    assert!(client.comes(Duration::from_secs(20)));
    assert_eq!(serving.end(Signal::SIGTERM), Some(0));
}
