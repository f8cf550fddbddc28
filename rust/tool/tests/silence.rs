//! A log that explains silence: what was skipped, begun and not ended, ignored, and at which rate; who came and went.

mod common;

use common::{command, data, range, wait_until, words, Client, Folder, Serving, AWAKE, WRITTEN};
use nix::sys::signal::Signal;
use nix::sys::termios::{cfsetspeed, tcgetattr, tcsetattr, BaudRate, SetArg};
use std::process::{Command, Stdio};
use std::time::Duration;

const FILES: [&str; 6] = [
    "feed",
    "--profile",
    "bench.toml",
    "--image",
    "flash.bin",
    "--create",
];

/// What the log says of these bytes on standard input, behind what it says of the wake-up in front of them.
fn log_of(folder: &Folder, awake: bool, input: &[u8]) -> Vec<String> {
    let wake_up: &[u8] = if awake { &[0x00, 0x00, 0x55] } else { &[] };
    let output = folder.run_with(
        &[&FILES[..], &["--log"]].concat(),
        &[wake_up, input].concat(),
    );
    assert_eq!(output.status.code(), Some(0), "{:?}", output);
    words(&output.stderr).split_off(if awake { 2 } else { 0 })
}

#[test]
fn bytes_that_get_no_answer_are_explained() {
    let folder = Folder::new();
    let writing = range(0x13, 0, 0xFF);
    let granted = "write (13h) 00000000h to 000000FFh: 00h OK; 256 bytes to go";
    let asleep = "the device waits to be woken up: 00h 00h, then 55h";
    let cases: Vec<(bool, Vec<u8>, Vec<String>)> = vec![
        (true, vec![0xAA, 0xBB, 0x03], vec!["3 bytes skipped, the first AAh: a command (01h) is awaited".to_string()]),
        (true, vec![0x00, 0x00, 0x55], vec!["a wake-up was ignored (3 bytes skipped, the first 00h): the device is awake already, and a command (01h) is awaited; a reset takes it back to waking up".to_string()]),
        (true, vec![0xFF, 0x00, 0x00], vec!["a wake-up was ignored (3 bytes skipped, the first FFh): the device is awake already, and a command (01h) is awaited; a reset takes it back to waking up".to_string()]),
        // a packet of the other kind, not a wake-up
        (true, vec![0x81, 0x00, 0x00], vec!["3 bytes skipped, the first 81h: a command (01h) is awaited".to_string()]),
        (true, vec![0x01], vec!["begun and not ended: 1 byte of a packet came, not yet its whole length".to_string()]),
        (true, command(0x3A, &[])[..5].to_vec(), vec!["begun and not ended: 5 of the 6 bytes of a packet have come".to_string()]),
        (true, [&[0xEE][..], &command(0x00, &[]), &[0xEE]].concat(), vec![
            "1 byte skipped, the first EEh: a command (01h) is awaited".to_string(),
            "inquiry (00h): 00h OK".to_string(),
            "1 byte skipped, the first EEh: a command (01h) is awaited".to_string(),
        ]),
        (true, [&writing[..], &command(0x00, &[])].concat(), vec![
            granted.to_string(),
            "6 bytes skipped, the first 01h: write data (81h) is awaited".to_string(),
        ]),
        (true, [&writing[..], &data(&[0; 128])[..100]].concat(), vec![
            granted.to_string(),
            "begun and not ended: 100 of the 134 bytes of a packet have come".to_string(),
        ]),
        (true, range(0x15, 0, 0xFFFF), vec!["read (15h) 00000000h to 0000FFFFh: 1,024 bytes read; 64,512 bytes to go".to_string()]),
        (false, command(0x3A, &[]), vec![format!("5 bytes skipped, the first 01h: {}", asleep)]),
        (false, vec![0x55], vec![format!("1 byte skipped, the first 55h: {}", asleep)]),
        (false, vec![0x00], vec!["begun and not ended: of a wake-up one 00h has come, a second is awaited".to_string()]),
        (false, vec![0x00, 0x00, 0x00], vec![
            "wake-up: 00h, the low pulses are acknowledged".to_string(),
            "begun and not ended: the low pulses of a wake-up are acknowledged, 55h is awaited".to_string(),
        ]),
        (false, vec![0x00, 0x00, 0xFF], vec![
            "wake-up: 00h, the low pulses are acknowledged".to_string(),
            format!("1 byte skipped, the first FFh: {}", asleep),
        ]),
        (false, vec![], vec![]),
    ];
    for (awake, input, expected) in cases {
        assert_eq!(log_of(&folder, awake, &input), expected, "{:02X?}", input);
    }
}

/// On a port nothing ends: after a second without bytes the log says why, once.
#[test]
fn a_line_that_falls_silent_is_explained_while_it_is_silent() {
    let folder = Folder::new();
    let serving = Serving::start(&folder, "flash.bin", &[]);
    let mut client = Client::open(&serving.port);
    client.wake_up();
    client.send(&[0x00, 0x00, 0x55, 0x01, 0x00]);
    let log = || words(&folder.read("flash.bin.log"));
    wait_until("the log", || {
        log().iter().any(|line| line.starts_with("begun"))
    });
    std::thread::sleep(Duration::from_millis(2500));
    let told = log();
    let count = |start: &str| told.iter().filter(|line| line.starts_with(start)).count();
    assert_eq!(
        count("a wake-up was ignored (3 bytes skipped, "),
        1,
        "{:#?}",
        told
    );
    assert_eq!(
        count("begun and not ended: 2 bytes of a packet"),
        1,
        "{:#?}",
        told
    );
    // it goes on where it was
    assert_eq!(client.ask(&[0x01, 0x00, 0xFF, 0x03]), AWAKE);
}

#[test]
fn clients_that_come_and_go_are_seen() {
    let folder = Folder::new();
    let serving = Serving::start(&folder, "flash.bin", &["--link", "slot"]);
    let log = || words(&folder.read("flash.bin.log"));
    for visit in 1..=3 {
        let client = Client::open(&folder.path("slot"));
        drop(client);
        wait_until("the client's going", || {
            let gone = |line: &&String| *line == "a client closed the port";
            log().iter().filter(gone).count() == visit
        });
    }
    assert_eq!(serving.end(Signal::SIGTERM), Some(0));
    let came = |line: &&String| *line == "a client opened the port";
    assert_eq!(log().iter().filter(came).count(), 3);
}

fn set_rate(client: &Client, rate: BaudRate) {
    let mut settings = tcgetattr(client.fd()).expect("the port's settings");
    cfsetspeed(&mut settings, rate).expect("a rate");
    tcsetattr(client.fd(), SetArg::TCSANOW, &settings).expect("the port's settings");
}

#[test]
fn a_rate_that_is_not_the_devices_is_seen_once() {
    let folder = Folder::new();
    let serving = Serving::start(&folder, "flash.bin", &[]);
    let mut client = Client::open(&serving.port);
    client.wake_up();
    set_rate(&client, BaudRate::B1000000);
    assert_eq!(client.ask(&command(0x00, &[])), AWAKE);
    assert_eq!(client.ask(&command(0x00, &[])), AWAKE);
    // now the device's line is set to it
    let rate = 1_000_000u32.to_be_bytes();
    let set = [0x81, 0x00, 0x02, 0x34, 0x00, 0xCA, 0x03];
    assert_eq!(client.ask(&command(0x34, &rate)), set);
    assert_eq!(client.ask(&command(0x00, &[])), AWAKE);
    assert_eq!(serving.end(Signal::SIGTERM), Some(0));
    let log = words(&folder.read("flash.bin.log"));
    let rates: Vec<&String> = log.iter().filter(|line| line.contains(" baud")).collect();
    assert_eq!(
        rates,
        [
            "the port is at 1,000,000 baud and the device's line at 9,578: a device on a wire would hear noise (see --strict-rate)",
            "the port is at 1,000,000 baud, as the device's line",
        ]
    );
}

#[test]
fn a_strict_stand_in_does_not_hear_another_rate() {
    let folder = Folder::new();
    let serving = Serving::start(&folder, "flash.bin", &["--strict-rate"]);
    let mut client = Client::open(&serving.port);
    set_rate(&client, BaudRate::B115200);
    client.send(&[0x00, 0x00]);
    assert!(!client.comes(Duration::from_millis(1500)));
    set_rate(&client, BaudRate::B9600);
    client.wake_up();
    // a rate that is granted is the one to go on with
    let rate = 115_200u32.to_be_bytes();
    let set = [0x81, 0x00, 0x02, 0x34, 0x00, 0xCA, 0x03];
    assert_eq!(client.ask(&command(0x34, &rate)), set);
    client.send(&command(0x00, &[]));
    assert!(!client.comes(Duration::from_millis(300)));
    set_rate(&client, BaudRate::B115200);
    assert_eq!(client.ask(&command(0x00, &[])), AWAKE);
    assert_eq!(client.ask(&range(0x13, 0, 0x7F)), WRITTEN);
    assert_eq!(serving.end(Signal::SIGTERM), Some(0));
    let log = words(&folder.read("flash.bin.log"));
    for line in [
        "the port is at 115,200 baud and the device's line at 9,578: such bytes are noise and not answered",
        "2 bytes at another rate than the device's were noise and not answered",
        "the port is at 9,600 baud, as the device's line",
        "6 bytes at another rate than the device's were noise and not answered",
    ] {
        assert!(log.iter().any(|said| said == line), "no {:?} in {:#?}", line, log);
    }
}

/// Each line is an object that another program can read, with what it needs.
#[test]
fn the_log_in_json_is_one_object_a_line() {
    let folder = Folder::new();
    let more = ["--log", "slot.log", "--log-json", "--link", "slot"];
    let serving = Serving::start_into(&folder, "flash.bin", &more, Stdio::null());
    let mut client = Client::open(&folder.path("slot"));
    client.wake_up();
    assert_eq!(
        client.ask(&[&[0xAA][..], &command(0x00, &[])].concat()),
        AWAKE
    );
    assert_eq!(serving.end(Signal::SIGTERM), Some(0));
    let program = "
import json, sys
events = [json.loads(line) for line in open(sys.argv[1])]
assert all(list(event)[:3] == ['time', 'event', 'text'] for event in events), events
(skipped,) = [event for event in events if event['event'] == 'skipped']
assert (skipped['count'], skipped['first']) == (1, 'AA'), skipped
inquiry = [event for event in events if event['event'] == 'exchange'][-1]
assert inquiry['request'] == '01 00 01 00 FF 03', inquiry
assert inquiry['reply'] == '81 00 02 00 00 FE 03', inquiry
assert events[0]['event'] == 'started' and events[-1]['event'] == 'ended', events
";
    let read = Command::new("/usr/bin/python3")
        .args(["-c", program])
        .arg(folder.path("slot.log"))
        .output()
        .expect("a reader of JSON");
    assert!(
        read.status.success(),
        "{}",
        String::from_utf8_lossy(&read.stderr)
    );
}

/// A failure is a line of the log too, and the log is added to, not written over.
#[test]
fn a_log_file_is_added_to_and_has_the_failure() {
    let folder = Folder::new();
    folder.write("slot.log", b"before\n");
    let serving = Serving::start(&folder, "flash.bin", &["--log", "slot.log"]);
    let mut client = Client::open(&serving.port);
    client.wake_up();
    std::fs::remove_file(folder.path("flash.bin")).expect("the image removed");
    client.send(&command(0x00, &[]));
    assert_eq!(serving.ended(), Some(1));
    let log = folder.read("slot.log");
    let log = words(log.strip_prefix(b"before\n").expect("what was there"));
    let last = log.last().expect("a line");
    assert_eq!(
        last,
        "the image flash.bin was removed or renamed by another program while it was in use"
    );
    let people = String::from_utf8(folder.read("flash.bin.log")).expect("words");
    assert!(
        people.contains("indraveck: the image flash.bin was removed"),
        "{}",
        people
    );
}

#[test]
fn other_accounts_may_be_let_in() {
    use std::os::unix::fs::{FileTypeExt, MetadataExt, PermissionsExt};
    let folder = Folder::new();
    let group = nix::unistd::getegid();
    let number = group.to_string();
    let more = [
        "--port-mode",
        "0660",
        "--port-group",
        &number,
        "--link",
        "slot",
    ];
    let serving = Serving::start(&folder, "flash.bin", &more);
    let port = std::fs::metadata(&serving.port).expect("the port");
    assert_eq!(port.permissions().mode() & 0o777, 0o660);
    assert_eq!(port.gid(), group.as_raw());
    let entry = std::fs::read_link(folder.path("slot")).expect("the link");
    let control = std::fs::metadata(entry.with_file_name("control")).expect("the socket");
    assert!(control.file_type().is_socket());
    assert_eq!(control.permissions().mode() & 0o777, 0o660);
    // every folder on the way can be passed by others
    for part in entry.ancestors().skip(1).take(2) {
        let mode = std::fs::metadata(part)
            .expect("a folder")
            .permissions()
            .mode();
        assert_eq!(mode & 0o755, 0o755, "{:?}", part);
    }
    let refused = folder.run(&[
        "serve",
        "--profile",
        "bench.toml",
        "--image",
        "b.bin",
        "--create",
        "--port-group",
        "no-such-group",
    ]);
    assert_eq!(refused.status.code(), Some(1));
    let error = String::from_utf8_lossy(&refused.stderr).into_owned();
    assert!(
        error.starts_with("indraveck: there is no group no-such-group\n"),
        "{}",
        error
    );
}
