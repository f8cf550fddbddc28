//! examples/flash.py, the flashing script, on the tool's port and on a port where nobody is.

mod common;

use common::{pattern, root, words, Client, Folder, Serving, SHOW_FLASH};
use nix::fcntl::{fcntl, flock, FcntlArg, FlockArg, OFlag};
use nix::pty::openpty;
use nix::sys::signal::{kill, signal, SigHandler, Signal};
use nix::sys::termios::{cfgetospeed, cfmakeraw, tcgetattr, tcsetattr, BaudRate, SetArg};
use nix::unistd::{pipe, ttyname, Pid};
use std::fs::{self, File};
use std::io::{Read, Write};
use std::os::unix::io::{AsRawFd, FromRawFd};
use std::os::unix::process::CommandExt;
use std::path::{Path, PathBuf};
use std::process::{Command, Output, Stdio};
use std::time::{Duration, Instant};

/// The system's Python, which has pyserial; the script's own first line names it.
fn script(folder: &Folder, port: &Path, more: &[&str]) -> Command {
    let mut command = Command::new("/usr/bin/python3");
    command
        .arg(root().join("examples/flash.py"))
        .arg(port)
        .args(more)
        .current_dir(&folder.0)
        .stdin(Stdio::null());
    command
}

fn flash(folder: &Folder, port: &Path, more: &[&str]) -> Output {
    script(folder, port, more).output().expect("the script")
}

fn said(output: &Output) -> String {
    String::from_utf8_lossy(&output.stdout).into_owned()
}

fn complained(output: &Output) -> String {
    String::from_utf8_lossy(&output.stderr).into_owned()
}

/// A value of the ledger as JSON, read by Python's own reader.
fn of_json(output: &Output, value: &str) -> String {
    let reader = format!("import json, sys; print(json.load(sys.stdin){})", value);
    let mut child = Command::new("/usr/bin/python3")
        .args(["-c", &reader])
        .stdin(Stdio::piped())
        .stdout(Stdio::piped())
        .spawn()
        .expect("Python");
    let mut stdin = child.stdin.take().expect("its standard input");
    stdin.write_all(&output.stdout).expect("the ledger");
    drop(stdin);
    let read = child.wait_with_output().expect("Python");
    assert!(read.status.success(), "no {} in {:?}", value, output);
    said(&read).trim_end().to_string()
}

/// The end of a line that has no stand-in: silent, or answering what the test says.
struct Other {
    end: File,
    script: File,
    port: PathBuf,
}

impl Other {
    fn new() -> Other {
        let pair = openpty(None, None).expect("a pseudo-terminal");
        let (end, script) = unsafe {
            (
                File::from_raw_fd(pair.master),
                File::from_raw_fd(pair.slave),
            )
        };
        let mut settings = tcgetattr(pair.slave).expect("its settings");
        cfmakeraw(&mut settings);
        tcsetattr(pair.slave, SetArg::TCSANOW, &settings).expect("its settings");
        let port = ttyname(pair.slave).expect("its name");
        Other { end, script, port }
    }

    /// Answers in a thread of its own, until the tests are over.
    fn answering(self, mut answer: impl FnMut(&[u8], &mut File) + Send + 'static) -> PathBuf {
        let port = self.port.clone();
        std::thread::spawn(move || {
            let (mut end, _script) = (self.end, self.script);
            let mut bytes = [0; 4096];
            while let Ok(count) = end.read(&mut bytes) {
                answer(&bytes[..count], &mut end);
            }
        });
        port
    }

    /// All that was sent to it and not read yet.
    fn received(&mut self) -> Vec<u8> {
        fcntl(self.end.as_raw_fd(), FcntlArg::F_SETFL(OFlag::O_NONBLOCK)).expect("the port");
        let mut bytes = [0; 65536];
        let mut all = Vec::new();
        while let Ok(count) = self.end.read(&mut bytes) {
            all.extend_from_slice(&bytes[..count]);
        }
        all
    }
}

/// The ledger's lines: a step's name and what its line says.
fn ledger(output: &Output) -> Vec<(String, String)> {
    let text = String::from_utf8_lossy(&output.stdout);
    let lines = text.lines().filter(|line| line.get(2..4) == Some("  "));
    lines
        .filter(|line| line[..2].trim().parse::<u32>().is_ok())
        .map(|line| {
            let (name, result) = line[4..].split_once("  ").expect("a name and a result");
            (name.trim().to_string(), result.trim().to_string())
        })
        .collect()
}

fn all_start_with(output: &Output, word: &str) {
    let ledger = ledger(output);
    assert!(ledger.len() >= 8, "{:?}", output);
    for (step, result) in ledger {
        assert!(result.starts_with(word), "{}: {}", step, result);
    }
}

#[test]
fn a_session_of_64_kb_takes_seconds_and_every_step_is_ok() {
    let folder = Folder::new();
    let bytes = pattern(0x1_0000, 41);
    folder.write("firmware.bin", &bytes);
    let serving = Serving::start(&folder, "flash.bin", &[]);
    let before = Instant::now();
    let output = flash(&folder, &serving.port, &["firmware.bin"]);
    assert_eq!(output.status.code(), Some(0), "{:?}", output);
    assert!(before.elapsed() < Duration::from_secs(20));
    all_start_with(&output, "OK");
    assert_eq!(folder.read("flash.bin")[..0x1_0000], bytes);
    assert_eq!(serving.end(Signal::SIGTERM), Some(0));
}

/// What it sends to a silent line can finish a packet that a device holds, but never with 03h, its end byte: so it can only be refused.
#[test]
fn with_nobody_on_the_port_every_line_is_unanswered() {
    let folder = Folder::new();
    folder.write("firmware.bin", &[0x5A; 0x80]);
    let mut nobody = Other::new();
    let more = ["firmware.bin", "--timeout", "0.3"];
    let output = flash(&folder, &nobody.port, &more);
    assert_eq!(output.status.code(), Some(3), "{:?}", output);
    all_start_with(&output, "unanswered");
    let text = said(&output);
    assert!(text.contains("0 OK"), "{}", text);
    assert!(text.contains("Nobody answers"), "{}", text);
    let sent = nobody.received();
    assert!(sent.starts_with(&[0x00, 0x00, 0xFF, 0x00, 0x00]));
    assert!(sent.len() >= 1030, "{} bytes", sent.len());
    assert!(!sent.contains(&0x03), "{:02X?}", sent);
}

#[test]
fn a_stored_id_is_asked_for_and_a_total_erase_clears_it() {
    let folder = Folder::new();
    let bytes = pattern(300, 43);
    folder.write("firmware.bin", &bytes);
    let id = "c0ffee00112233445566778899aabbcc";
    let made = folder.run(&[
        "image",
        "new",
        "--profile",
        "bench.toml",
        "--image",
        "flash.bin",
        "--id",
        id,
    ]);
    assert_eq!(made.status.code(), Some(0), "{:?}", made);
    let wrong = "c0ffee00112233445566778899aabbcd";
    let spaced = "C0 FF EE 00 11 22 33 44 55 66 77 88 99 AA BB CC"; // as the tool prints it
    for (more, status, step, says) in [
        (&["--id", wrong][..], 1, "authenticate", "refused: DBh"),
        (&[], 1, "authenticate", "refused: C3h"),
        (&["--id", id], 0, "authenticate", "OK"),
        (&["--id", spaced], 0, "authenticate", "OK"),
        (&["--total-erase"], 0, "total erase", "OK"),
        (&[], 0, "authenticate", "OK"),
    ] {
        let serving = Serving::start(&folder, "flash.bin", &[]);
        let arguments = [&["firmware.bin", "--address", "0x2000"], more].concat();
        let output = flash(&folder, &serving.port, &arguments);
        assert_eq!(output.status.code(), Some(status), "{:?}", output);
        let ledger = ledger(&output);
        let line = ledger.iter().find(|(name, _)| name == step);
        let (_, result) = line.expect("a line for the step");
        assert!(result.starts_with(says), "{}", result);
        if status != 0 {
            // what lies behind a refusal was never answered
            assert_eq!(ledger.last().expect("a ledger").1, "unanswered");
        }
    }
    let flash = folder.read("flash.bin");
    assert_eq!(flash[0x2000..0x2000 + 300], bytes);
    assert!(flash[0x1_0000..].iter().all(|byte| *byte == 0xFF));
}

/// How many bytes the script says were answered OK.
fn written(output: &Output) -> usize {
    let text = said(output);
    let (before, _) = text.split_once(" bytes written").expect("a summary");
    let number = before.rsplit(' ').next().expect("a number");
    number.replace(',', "").parse().expect("a number")
}

#[test]
fn a_port_that_goes_in_the_middle_loses_nothing_that_was_answered() {
    let folder = Folder::new();
    let bytes = pattern(0x1_0000, 47);
    folder.write("firmware.bin", &bytes);
    let serving = Serving::start(&folder, "flash.bin", &[]);
    let port = serving.port.clone();
    let image = folder.path("flash.bin");
    let ending = std::thread::spawn(move || {
        // 32 of 512 packets are in
        while fs::read(&image).expect("the image")[0x1000] == 0xFF {
            std::thread::sleep(Duration::from_millis(1));
        }
        serving.end(Signal::SIGKILL)
    });
    let more = ["firmware.bin", "--packet", "128", "--timeout", "0.5"];
    let output = flash(&folder, &port, &more);
    assert_eq!(ending.join().expect("its end"), None);
    assert_eq!(output.status.code(), Some(3), "{:?}", output);
    assert_eq!(complained(&output), "");
    assert_eq!(ledger(&output).last().expect("a ledger").1, "unanswered");
    let answered = written(&output);
    assert!((0x1000..0x1_0000).contains(&answered), "{}", answered);
    assert_eq!(folder.read("flash.bin")[..answered], bytes[..answered]);

    let serving = Serving::start(&folder, "flash.bin", &[]);
    let output = flash(&folder, &serving.port, &more);
    assert_eq!(output.status.code(), Some(0), "{:?}", output);
    assert_eq!(written(&output), 0x1_0000);
    assert_eq!(folder.read("flash.bin")[..0x1_0000], bytes);
}

/// Serving takes the bench profile; this puts another one under its name.
fn instead_of_bench(folder: &Folder, name: &str) {
    let profile = root().join("profiles").join(name);
    fs::copy(profile, folder.path("bench.toml")).expect("a profile");
}

/// Ends the stand-in; what it said of erase commands.
fn erases(folder: &Folder, serving: Serving) -> Vec<String> {
    assert_eq!(serving.end(Signal::SIGTERM), Some(0));
    let log = words(&folder.read("flash.bin.log"));
    let erases = log
        .iter()
        .filter_map(|line| line.strip_prefix("erase (12h) "));
    erases.map(String::from).collect()
}

#[test]
fn a_firmware_goes_over_adjoining_areas_of_every_profile_that_has_them() {
    for profile in ["ra6m4", "ra6m4-dual", "ra6t2", "ra6e2"] {
        let folder = Folder::new();
        instead_of_bench(&folder, &format!("{}.toml", profile));
        let bytes = pattern(70_001, 53);
        folder.write("firmware.bin", &bytes);
        let serving = Serving::start(&folder, "flash.bin", &[]);
        let output = flash(&folder, &serving.port, &["firmware.bin"]);
        assert_eq!(output.status.code(), Some(0), "{:?}", output);
        all_start_with(&output, "OK");
        assert_eq!(written(&output), 70_016); // the next multiple of 128
        let flash = folder.read("flash.bin");
        assert_eq!(flash[..70_001], bytes);
        assert!(flash[70_001..].iter().all(|byte| *byte == 0xFF));
    }
}

#[test]
fn of_each_area_only_the_erase_units_that_the_file_touches_are_erased() {
    let folder = Folder::new();
    instead_of_bench(&folder, "ra6e2.toml");
    let mut flash_before = vec![0x11; 0x4_0000];
    flash_before.resize(0x4_0000 + 0x200, 0xFF); // config, no ID
    flash_before.resize(0x4_0000 + 0x200 + 0x1000, 0x11);
    folder.write("flash.bin", &flash_before);
    let bytes = pattern(0x2000 + 0x8001, 59);
    folder.write("firmware.bin", &bytes);
    let serving = Serving::start(&folder, "flash.bin", &[]);
    let more = ["firmware.bin", "--address", "0xE000", "--packet", "1000"];
    let output = flash(&folder, &serving.port, &more);
    assert_eq!(output.status.code(), Some(0), "{:?}", output);
    let units = [
        "0000E000h to 0000FFFFh: 00h OK",
        "00010000h to 0001FFFFh: 00h OK",
    ];
    assert_eq!(erases(&folder, serving), units);
    let flash = folder.read("flash.bin");
    assert_eq!(flash[..0xE000], flash_before[..0xE000]);
    assert_eq!(flash[0xE000..0xE000 + bytes.len()], bytes);
    let behind = &flash[0xE000 + bytes.len()..0x2_0000];
    assert!(behind.iter().all(|byte| *byte == 0xFF));
    assert_eq!(flash[0x2_0000..], flash_before[0x2_0000..]);
}

/// User, config and data areas side by side, the last of them not writable; then two user areas, each behind a gap.
const SIDE_BY_SIDE: &str = r#"
name = "side by side"
typ = 1
bfv = 1
sci = 60_000_000
rmb = 4_000_000
area = [
    { kind = "user", sad = 0x0, ead = 0x1FFF, eau = 0x800, wau = 0x80 },
    { kind = "config", sad = 0x2000, ead = 0x20FF, eau = 0, wau = 0x10 },
    { kind = "data", sad = 0x2100, ead = 0x21FF, eau = 0x40, wau = 4 },
    { kind = "data", sad = 0x2200, ead = 0x22FF, eau = 0x40, wau = 0 },
    { kind = "user", sad = 0x3000, ead = 0x3FFF, eau = 0x800, wau = 0x80 },
    { kind = "user", sad = 0x5000, ead = 0x5FFF, eau = 0x800, wau = 0x80 },
]
"#;

/// A device with these areas, all user and data bytes of it in use.
fn side_by_side(folder: &Folder) -> (Serving, Vec<u8>) {
    folder.write("bench.toml", SIDE_BY_SIDE.as_bytes());
    let mut flash = vec![0x22; 0x4300];
    flash[0x2000..0x2100].fill(0xFF); // config, no ID
    folder.write("flash.bin", &flash);
    (Serving::start(folder, "flash.bin", &[]), flash)
}

#[test]
fn a_file_that_does_not_fit_is_refused_before_anything_is_erased() {
    let folder = Folder::new();
    let (mut serving, before) = side_by_side(&folder);
    for (length, address, says) in [
        (0x2001, "0", "bit 127"),
        (0x10, "0x2000", "--config"),
        (0x101, "0x2100", "can't be written"),
        (1, "0x2200", "can't be written"),
        (1, "0x2300", "in none of the device's areas"),
        (0x1001, "0x3000", "are 1 too many: behind 00003FFFh"),
        (0x2800, "0x3000", "are 6,144 too many: behind 00003FFFh"),
        (0x1001, "0x5000", "are 1 too many: behind 00005FFFh"),
        (1, "0x3040", "the one below is 00003000h"),
        (1, "0xFFFFFFFF", "in none of the device's areas"),
    ] {
        folder.write("firmware.bin", &vec![0; length]);
        let more = ["firmware.bin", "--address", address];
        let output = flash(&folder, &serving.port, &more);
        assert_eq!(output.status.code(), Some(2), "{:?}", output);
        assert!(said(&output).contains(says), "{:?}", output);
        let (step, result) = &ledger(&output)[4];
        assert_eq!(step, "erase");
        assert!(result.starts_with("unanswered"), "{}", result);
        serving.reset();
    }
    assert_eq!(erases(&folder, serving), [""; 0]);
    assert_eq!(folder.read("flash.bin"), before);
}

#[test]
fn the_last_part_is_checked_before_the_first_is_erased() {
    let folder = Folder::new();
    let (serving, before) = side_by_side(&folder);
    folder.write("firmware.bin", &[0xFF; 0x301]);
    let more = ["firmware.bin", "--address", "0x1F80", "--config"];
    let output = flash(&folder, &serving.port, &more);
    assert_eq!(output.status.code(), Some(2), "{:?}", output);
    let says = "the data area 00002200h to 000022FFh can't be written";
    assert!(said(&output).contains(says), "{:?}", output);
    assert_eq!(erases(&folder, serving), [""; 0]);
    assert_eq!(folder.read("flash.bin"), before);
}

#[test]
fn the_config_area_is_written_if_it_is_meant() {
    let folder = Folder::new();
    let (serving, _) = side_by_side(&folder);
    let mut bytes = pattern(0x80 + 0x100 + 6, 61);
    bytes[0x80] |= 0x80; // an ID that can be given
    folder.write("firmware.bin", &bytes);
    let more = ["firmware.bin", "--address", "0x1F80", "--config"];
    let output = flash(&folder, &serving.port, &more);
    assert_eq!(output.status.code(), Some(0), "{:?}", output);
    assert_eq!(written(&output), 0x80 + 0x100 + 8);
    let units = [
        "00001800h to 00001FFFh: 00h OK",
        "00002100h to 0000213Fh: 00h OK",
    ];
    assert_eq!(erases(&folder, serving), units);
    assert_eq!(folder.read("flash.bin")[0x1F80..0x2106], bytes);
}

#[test]
fn a_baud_rate_is_asked_for_and_the_port_goes_along() {
    let folder = Folder::new();
    folder.write("firmware.bin", &[0x5A; 0x80]);
    for (rate, status, result, speed) in [
        ("115_200", 0, "OK: 115,200", BaudRate::B115200),
        ("4,000,001", 1, "refused: D4h", BaudRate::B9600),
    ] {
        let serving = Serving::start(&folder, "flash.bin", &[]);
        let output = flash(&folder, &serving.port, &["firmware.bin", "--rate", rate]);
        assert_eq!(output.status.code(), Some(status), "{:?}", output);
        let (step, says) = &ledger(&output)[2];
        assert_eq!(step, "baud rate");
        assert!(says.starts_with(result), "{}", says);
        let port = File::open(&serving.port).expect("the port");
        let settings = tcgetattr(port.as_raw_fd()).expect("its settings");
        assert_eq!(cfgetospeed(&settings), speed);
    }
}

#[test]
fn the_port_changes_its_rate_behind_the_ok_and_an_inquiry_has_to_be_answered_at_it() {
    let folder = Folder::new();
    folder.write("firmware.bin", &[0x5A; 0x80]);
    let fast = |end: &File| {
        let settings = tcgetattr(end.as_raw_fd()).expect("its settings");
        cfgetospeed(&settings) == BaudRate::B115200
    };
    let inquiry = common::command(0x00, &[]);
    let request = common::command(0x34, &115_200u32.to_be_bytes());
    let port = Other::new().answering(move |bytes, end| {
        let reply = match bytes {
            [.., 0x00, 0x00] => vec![0x00],
            [.., 0x55] => vec![0xC3],
            _ if bytes == inquiry && !fast(end) => common::packet(0x81, &[0x00, 0x00]),
            _ if bytes == request && !fast(end) => common::packet(0x81, &[0x34, 0x00]),
            _ if bytes == inquiry => common::packet(0x81, &[0x00, 0x01]), // no OK
            _ => vec![],
        };
        end.write_all(&reply).expect("a reply");
    });
    let more = ["firmware.bin", "--rate", "115200", "--timeout", "2"];
    let output = flash(&folder, &port, &more);
    assert_eq!(output.status.code(), Some(1), "{:?}", output);
    let ledger = ledger(&output);
    let (step, says) = &ledger[2];
    assert_eq!(step, "baud rate");
    assert!(
        says.starts_with("wrong reply") && says.contains("inquiry at 115,200"),
        "{}",
        says
    );
    assert_eq!(ledger[3].1, "unanswered");
}

#[test]
fn a_port_that_cannot_be_opened_is_one_line_and_no_ledger() {
    let folder = Folder::new();
    folder.write("firmware.bin", &[0x5A; 0x80]);
    std::os::unix::fs::symlink("gone", folder.path("link")).expect("a link");
    let other = Other::new();
    let lock = FlockArg::LockExclusiveNonblock;
    flock(other.script.as_raw_fd(), lock).expect("a lock");
    for (port, says) in [
        (folder.path("none"), "no such port"),
        (folder.path("link"), "leads nowhere"),
        (folder.path("firmware.bin"), "as a serial port"),
        (folder.0.clone(), "as a serial port"),
        (other.port.clone(), "in use by another program"),
    ] {
        let output = flash(&folder, &port, &["firmware.bin"]);
        assert_eq!(output.status.code(), Some(2), "{:?}", output);
        assert_eq!(said(&output), "");
        let complaint = complained(&output);
        assert_eq!(complaint.lines().count(), 1, "{}", complaint);
        assert!(complaint.contains(says), "{}", complaint);
    }
}

#[test]
fn a_wake_up_that_was_begun_before_is_begun_again() {
    let folder = Folder::new();
    folder.write("firmware.bin", &[0x5A; 0x80]);
    for before in [&[0x00][..], &[0x00, 0x00], &[0x00, 0x00, 0x00], &[0x77]] {
        let serving = Serving::start(&folder, "flash.bin", &[]);
        let mut client = Client::open(&serving.port);
        client.send(before);
        if before.len() > 1 {
            assert_eq!(client.receive(1), [0x00]);
        }
        let output = flash(&folder, &serving.port, &["firmware.bin"]);
        assert_eq!(output.status.code(), Some(0), "{:?}", output);
    }
}

/// It answers all that was sent meanwhile, one after the other.
#[test]
fn a_device_that_answers_late_is_woken_up() {
    let folder = Folder::new();
    folder.write("firmware.bin", &[0x5A; 0x80]);
    let serving = Serving::start(&folder, "flash.bin", &[]);
    serving.signal(Signal::SIGSTOP);
    let child = script(&folder, &serving.port, &["firmware.bin", "--timeout", "19"])
        .stdout(Stdio::piped())
        .spawn()
        .expect("the script");
    std::thread::sleep(Duration::from_secs(2));
    serving.signal(Signal::SIGCONT);
    let output = child.wait_with_output().expect("its end");
    assert_eq!(output.status.code(), Some(0), "{:?}", output);
}

/// A device that is left as these bytes leave it, and how the script says that it is awake.
fn finds_awake(folder: &Folder, bytes: &[u8], replies: usize) {
    let serving = Serving::start(folder, "flash.bin", &[]);
    let before = folder.read("flash.bin");
    let mut client = Client::open(&serving.port);
    client.wake_up();
    client.send(bytes);
    assert_eq!(client.receive(replies).len(), replies);
    let more = ["firmware.bin", "--timeout", "3"];
    let output = flash(folder, &serving.port, &more);
    assert_eq!(output.status.code(), Some(3), "{:?}", output);
    all_start_with(&output, "unanswered");
    let awake = "unanswered: the device is awake already";
    assert!(ledger(&output)[0].1.starts_with(awake), "{:?}", output);
    assert!(said(&output).contains("indraveck reset"), "{:?}", output);
    assert_eq!(folder.read("flash.bin"), before, "behind {:02X?}", bytes);
}

#[test]
fn a_device_that_is_awake_is_found_in_every_stage() {
    let folder = Folder::new();
    folder.write("firmware.bin", &[0x5A; 0x80]);
    finds_awake(&folder, &[], 0);
    finds_awake(&folder, &common::range(0x13, 0, 0x7FF), 7);
    finds_awake(&folder, &common::range(0x15, 0, 0x7FF), 1030);
    // with an ID code the stage behind the wake-up is authentication
    let mut locked = vec![0xFF; 0x1_0100];
    locked[0x1_0000] = 0xFE;
    folder.write("flash.bin", &locked);
    finds_awake(&folder, &[], 0);
}

/// Whatever is missing of a packet, what the script sends is taken as that, and must not make it whole.
#[test]
fn a_device_that_holds_part_of_a_packet_is_found_awake_and_nothing_is_erased_or_written() {
    let folder = Folder::new();
    folder.write("firmware.bin", &[0x5A; 0x80]);
    folder.write(
        "flash.bin",
        &[vec![0xA5; 0x1_0000], vec![0xFF; 0x100]].concat(),
    );
    let erase = common::range(0x12, 0, 0x1FFF);
    for held in [1, 2, 3, 4, 8, 12, 13] {
        finds_awake(&folder, &erase[..held], 0);
    }
    folder.write("flash.bin", &[0xFF; 0x1_0100]);
    let write = common::range(0x13, 0, 0x7FF);
    let zeros = common::data(&[0x00; 0x400]);
    for held in [1, 2, 4, 900, 1023, 1028, 1029] {
        let bytes = [&write[..], &zeros[..held]].concat();
        finds_awake(&folder, &bytes, 7);
    }
}

/// How the session ended, for programs.
fn ends_with(output: &Output, status: i32, reason: &str) {
    assert_eq!(output.status.code(), Some(status), "{:?}", output);
    assert_eq!(of_json(output, "['reason']"), reason);
    assert_eq!(of_json(output, "['status']"), status.to_string());
    assert_eq!(complained(output), "");
}

#[test]
fn the_ledger_as_json_says_the_same() {
    let folder = Folder::new();
    folder.write("firmware.bin", &[0x5A; 0x80]);
    let mut serving = Serving::start(&folder, "flash.bin", &[]);
    let port = serving.port.clone();
    let more = ["firmware.bin", "--json"];
    let output = flash(&folder, &port, &more);
    ends_with(&output, 0, "ok");
    assert_eq!(of_json(&output, "['port']"), port.to_string_lossy());
    assert_eq!(of_json(&output, "['file']"), "firmware.bin");
    let counts = "{'OK': 8, 'refused': 0, 'wrong reply': 0, 'unanswered': 0}";
    assert_eq!(of_json(&output, "['counts']"), counts);
    assert_eq!(of_json(&output, "['written']"), "128");
    assert_eq!(of_json(&output, "['compared']"), "128");
    let last = "{'name': 'compare', 'outcome': 'OK', 'detail': '128 bytes equal'}";
    assert_eq!(of_json(&output, "['steps'][7]"), last);
    ends_with(&flash(&folder, &port, &more), 3, "awake");
    serving.reset();
    let output = flash(&folder, &port, &[&more[..], &["--rate", "1"]].concat());
    ends_with(&output, 1, "refused");
    let step = "['steps'][2]['outcome']";
    assert_eq!(of_json(&output, step), "refused");
    serving.reset();
    let output = flash(
        &folder,
        &port,
        &[&more[..], &["--address", "0xFF80000"]].concat(),
    );
    ends_with(&output, 2, "unfit");
    assert_eq!(of_json(&output, "['counts']['OK']"), "4");
}

#[test]
fn the_ledger_as_json_says_who_is_not_there() {
    let folder = Folder::new();
    folder.write("firmware.bin", &[0x5A; 0x80]);
    let more = ["firmware.bin", "--json", "--timeout", "0.3"];
    let output = flash(&folder, &folder.path("none"), &more);
    ends_with(&output, 2, "no port");
    assert_eq!(of_json(&output, "['counts']['unanswered']"), "8");
    let nobody = Other::new();
    ends_with(&flash(&folder, &nobody.port, &more), 3, "nobody");
    let output = flash(&folder, &nobody.port, &["none.bin", "--json"]);
    ends_with(&output, 2, "unfit");
    // a cable from its own end to its own end
    let echo = Other::new().answering(|bytes, end| end.write_all(bytes).expect("an echo"));
    ends_with(&flash(&folder, &echo, &more), 1, "wrong reply");
}

#[test]
fn a_session_that_is_stopped_says_so() {
    let folder = Folder::new();
    folder.write("firmware.bin", &[0x5A; 0x80]);
    for (more, says) in [
        (None, "Stopped by the keyboard"),
        (Some("--json"), "\"stopped\""),
    ] {
        let mut nobody = Other::new();
        let mut command = script(&folder, &nobody.port, &["firmware.bin", "--timeout", "60"]);
        // Whoever runs the tests in the background may have them ignore it, and a child inherits that.
        unsafe {
            command.pre_exec(|| {
                signal(Signal::SIGINT, SigHandler::SigDfl)?;
                Ok(())
            });
        }
        let child = command
            .args(more)
            .stdout(Stdio::piped())
            .stderr(Stdio::piped())
            .spawn()
            .expect("the script");
        let until = Instant::now() + Duration::from_secs(20);
        while nobody.received().is_empty() && Instant::now() < until {
            std::thread::sleep(Duration::from_millis(5));
        }
        kill(Pid::from_raw(child.id() as i32), Signal::SIGINT).expect("a signal");
        let output = child.wait_with_output().expect("its end");
        assert_eq!(output.status.code(), Some(3), "{:?}", output);
        assert!(said(&output).contains(says), "{:?}", output);
        assert_eq!(complained(&output), "");
    }
}

/// Runs the script with a redirection of the shell's.
fn redirected(folder: &Folder, port: &Path, more: &[&str], redirection: &str) -> Output {
    let command = script(folder, port, more);
    let line = format!("exec \"$0\" \"$@\" {}", redirection);
    Command::new("sh")
        .args(["-c", &line])
        .arg(command.get_program())
        .args(command.get_args())
        .current_dir(&folder.0)
        .output()
        .expect("the shell")
}

#[test]
fn a_ledger_that_cannot_be_printed_is_not_ok() {
    let folder = Folder::new();
    folder.write("firmware.bin", &[0x5A; 0x80]);
    let mut serving = Serving::start(&folder, "flash.bin", &[]);
    let port = serving.port.clone();
    let none = folder.path("none");
    for (port, more, to, status) in [
        (&port, "--quiet", ">/dev/full", 1),
        (&port, "--json", ">/dev/full", 1),
        (&port, "--quiet", ">&-", 1),
        (&port, "--progress", ">&- 2>&- <&-", 1),
        (&port, "--progress", "2>&-", 0),
        (&port, "--progress", "2>/dev/full", 0),
        (&none, "--json", ">/dev/full", 2),
        (&none, "--quiet", "2>/dev/full", 2),
        (&none, "--help", ">/dev/full", 1),
        (&none, "--no-such-option", "2>&-", 2),
    ] {
        let output = redirected(&folder, port, &["firmware.bin", more], to);
        assert_eq!(output.status.code(), Some(status), "{} {:?}", to, output);
        let complaint = complained(&output);
        assert!(complaint.lines().count() <= 1, "{}", complaint);
        if port != &none {
            assert_eq!(folder.read("flash.bin")[..0x80], [0x5A; 0x80]);
            serving.reset();
        }
    }
}

#[test]
fn a_pipe_that_nobody_reads_is_no_traceback() {
    let folder = Folder::new();
    folder.write("firmware.bin", &[0x5A; 0x80]);
    let serving = Serving::start(&folder, "flash.bin", &[]);
    for status in [1, 3] {
        // the second time it is awake
        let (reading, writing) = pipe().expect("a pipe");
        drop(unsafe { File::from_raw_fd(reading) });
        let output = script(&folder, &serving.port, &["firmware.bin"])
            .stdout(unsafe { Stdio::from_raw_fd(writing) })
            .stderr(Stdio::piped())
            .output()
            .expect("the script");
        assert_eq!(output.status.code(), Some(status), "{:?}", output);
        let complaint = complained(&output);
        assert_eq!(complaint.lines().count(), 1, "{}", complaint);
        assert!(complaint.contains("could not be printed"), "{}", complaint);
    }
}

/// What the script writes to a terminal as its standard error.
fn on_a_terminal(folder: &Folder, port: &Path, more: &[&str]) -> String {
    let mut terminal = Other::new();
    let screen = terminal.script.try_clone().expect("the terminal");
    let output = script(folder, port, more)
        .stderr(screen)
        .stdout(Stdio::null())
        .status()
        .expect("the script");
    assert_eq!(output.code(), Some(0));
    String::from_utf8(terminal.received()).expect("text")
}

#[test]
fn a_progress_line_is_for_terminals_and_is_cleared() {
    let folder = Folder::new();
    folder.write("firmware.bin", &pattern(0x1_0000, 67));
    let mut serving = Serving::start(&folder, "flash.bin", &[]);
    let port = serving.port.clone();
    let shows = |text: &str| {
        assert!(text.contains("\r6 of 8: write, "), "{:?}", text);
        assert!(text.contains(" of 65,536 bytes"), "{:?}", text);
        assert!(text.ends_with("\r\x1b[K"), "{:?}", text);
        assert!(!text.contains('\n'), "{:?}", text);
    };
    shows(&on_a_terminal(&folder, &port, &["firmware.bin"]));
    serving.reset();
    let quiet = on_a_terminal(&folder, &port, &["firmware.bin", "--quiet"]);
    assert_eq!(quiet, "");
    serving.reset();
    let output = flash(&folder, &port, &["firmware.bin"]);
    assert_eq!(complained(&output), "");
    serving.reset();
    let output = flash(&folder, &port, &["firmware.bin", "--progress"]);
    shows(&complained(&output));
    assert_eq!(ledger(&output).len(), 8);
}

#[test]
fn numbers_are_read_as_people_and_tools_write_them() {
    let folder = Folder::new();
    folder.write("firmware.bin", &[0x5A; 0x80]);
    let mut serving = Serving::start(&folder, "flash.bin", &[]);
    let port = serving.port.clone();
    for address in [
        "4992",
        "4_992",
        "4,992",
        "0x1380",
        "0x0000_1380",
        "00001380h",
        "1380H",
    ] {
        let output = flash(&folder, &port, &["firmware.bin", "--address", address]);
        assert_eq!(output.status.code(), Some(0), "{:?}", output);
        let read = "128 bytes, 00001380h to 000013FFh";
        assert!(said(&output).contains(read), "{:?}", output);
        serving.reset();
    }
    for (option, wrong, says) in [
        ("--address", "12k", "is no number; write it as"),
        ("--address", "00001380", "is no number; write it as"),
        ("--address", "49,92", "is no number; write it as"),
        ("--address", "0x1_0000_0000", "--address has 32 bits"),
        ("--rate", "fast", "is no number; write it as"),
        ("--rate", "0", "--rate is at least 1"),
        ("--timeout", "soon", "is no number of seconds"),
        ("--timeout", "nan", "--timeout is above 0"),
        ("--id", "c0ffee", "32 hexadecimal digits"),
    ] {
        let output = flash(&folder, &port, &["firmware.bin", option, wrong]);
        assert_eq!(output.status.code(), Some(2), "{:?}", output);
        let complaint = complained(&output);
        assert!(complaint.contains(says), "{}", complaint);
    }
}

/// What a person sees of an image.
#[test]
fn an_image_is_shown_in_words() {
    let folder = Folder::new();
    let mut flash = vec![0xFF; 65_792];
    flash[0x4000..0x4010].copy_from_slice(b"Indraveck \x00\x01\x02\x03\x04\x05");
    flash[0x1_0000] = 0x7F;
    folder.write("flash.bin", &flash);
    let output = folder.run(&SHOW_FLASH);
    assert_eq!(output.status.code(), Some(0), "{:?}", output);
    let expected = "\
area 0: user, 00000000h to 0000FFFFh (65,536 bytes), erased by 8,192 bytes, written by 128 bytes
  00000000h to 00003FFFh  blank  16,384 bytes
  00004000h to 0000400Fh  used   16 bytes
  00004010h to 0000FFFFh  blank  49,136 bytes
area 1: config, 01000000h to 010000FFh (256 bytes), cannot be erased, written by 16 bytes
  01000000h to 0100000Fh  used   16 bytes
  01000010h to 010000FFh  blank  240 bytes
ID code: 7F FF FF FF FF FF FF FF FF FF FF FF FF FF FF FF
  bit 127 is 0: every authentication is refused (DCh)
";
    assert_eq!(String::from_utf8_lossy(&output.stdout), expected);
    let output = folder.run(&[&SHOW_FLASH[..], &["--range", "0x3FF8-0x4011"]].concat());
    let expected = "\
00003FF8h  FF FF FF FF FF FF FF FF 49 6E 64 72 61 76 65 63  ........Indravec
00004008h  6B 20 00 01 02 03 04 05 FF FF                    k ........
";
    assert_eq!(String::from_utf8_lossy(&output.stdout), expected);
}

/// Standard input to standard output: the replies alone, byte for byte, and the same image file goes on next time.
#[test]
fn feed_answers_on_standard_output() {
    let folder = Folder::new();
    let arguments = [
        "feed",
        "--profile",
        "bench.toml",
        "--image",
        "flash.bin",
        "--create",
    ];
    let write = [
        &[0x00, 0x00, 0x55][..],
        &common::range(0x13, 0, 0x7F),
        &common::data(&[0x42; 0x80]),
    ]
    .concat();
    let output = folder.run_with(&arguments, &write);
    assert_eq!(output.status.code(), Some(0), "{:?}", output);
    let replies = [&[0x00, 0xC3][..], &common::WRITTEN, &common::WRITTEN].concat();
    assert_eq!(output.stdout, replies);
    assert_eq!(output.stderr, b"");
    // a byte that is not blank any more: E2h
    let output = folder.run_with(&arguments, &write);
    let refused = [0x81, 0x00, 0x02, 0x93, 0xE2, 0x89, 0x03];
    assert_eq!(
        output.stdout,
        [&[0x00, 0xC3][..], &common::WRITTEN, &refused].concat()
    );
    // nothing in, nothing out: done, and nothing is said to be OK
    let output = folder.run_with(&arguments, &[]);
    assert_eq!(
        (output.status.code(), &output.stdout[..]),
        (Some(0), &[][..])
    );
    assert_eq!(
        folder.read("flash.bin")[..0x81],
        [&[0x42; 0x80][..], &[0xFF]].concat()
    );
}

/// Names are printed as they can be read, and nothing in them moves a cursor.
#[test]
fn no_control_character_of_a_name_is_printed() {
    let folder = Folder::new();
    folder.write("firmware.bin", &[0x5A; 0x80]);
    let odd = "a\u{1B}[31mb\u{7}\n1";
    let port = folder.path(odd);
    for (port, more) in [
        (port.as_path(), &["firmware.bin"][..]),
        (Path::new("slot"), &[odd]),
        (Path::new("slot"), &["firmware.bin", "--id", odd]),
        (Path::new("slot"), &["firmware.bin", "--address", odd]),
    ] {
        let output = flash(&folder, port, more);
        assert_eq!(output.status.code(), Some(2), "{:?}", output);
        let error = String::from_utf8_lossy(&output.stderr).into_owned();
        assert!(
            error.contains("a\\u001B[31mb\\u0007\\u000A1"),
            "{:?}",
            error
        );
        assert!(
            !error.contains('\u{1B}') && !error.contains('\u{7}'),
            "{:?}",
            error
        );
    }
}

/// The advice for an awake device can be pasted, whatever its link is called.
#[test]
fn an_awake_device_is_named_as_a_word_of_a_command_line() {
    let folder = Folder::new();
    folder.write("firmware.bin", &[0x5A; 0x80]);
    for (link, word) in [("a b", "'a b'"), ("a;b", "'a;b'"), ("slot", "slot")] {
        let serving = Serving::start(&folder, "flash.bin", &["--link", link]);
        Client::open(&serving.port).wake_up();
        let output = flash(&folder, Path::new(link), &["firmware.bin"]);
        assert_eq!(output.status.code(), Some(3), "{:?}", output);
        let text = String::from_utf8_lossy(&output.stdout).into_owned();
        let advice = format!("(a stand-in: indraveck reset {}).", word);
        assert!(text.contains(&advice), "{}", text);
        assert_eq!(serving.end(Signal::SIGTERM), Some(0));
    }
}

/// What is advised can be followed.
#[test]
fn a_total_erase_that_is_refused_says_what_helps() {
    for (id, says) in [
        (
            "80ffee00112233445566778899aabbcc",
            "doesn't allow a total erase, give it with --id",
        ),
        (
            "ffffffffffffffffffffffffffffffff",
            "has no ID stored, leave out --total-erase",
        ),
    ] {
        let folder = Folder::new();
        folder.write("firmware.bin", &[0x5A; 0x80]);
        let new = [
            "image",
            "new",
            "--profile",
            "bench.toml",
            "--image",
            "flash.bin",
            "--id",
            id,
        ];
        assert_eq!(folder.run(&new).status.code(), Some(0));
        let serving = Serving::start(&folder, "flash.bin", &[]);
        let output = flash(&folder, &serving.port, &["firmware.bin", "--total-erase"]);
        assert_eq!(output.status.code(), Some(1), "{:?}", output);
        let text = String::from_utf8_lossy(&output.stdout).into_owned();
        assert!(text.contains(says), "{}", text);
    }
}
