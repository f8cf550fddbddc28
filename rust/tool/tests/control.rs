//! `indraveck reset`, `status` and `stop`, and what a reset means.

mod common;

use common::{
    command, data, packet, pattern, range, words, Client, Folder, Serving, AWAKE, WRITTEN,
};
use nix::sys::signal::Signal;
use nix::sys::termios::{tcflow, tcgetattr, tcsetattr, FlowArg, LocalFlags, OutputFlags, SetArg};
use std::fs;
use std::io::{Read, Write};
use std::net::Shutdown;
use std::os::unix::net::UnixStream;
use std::process::Stdio;
use std::time::Duration;

/// What a command says, once it is done.
fn told(folder: &Folder, arguments: &[&str]) -> String {
    let output = folder.run(arguments);
    let error = String::from_utf8_lossy(&output.stderr).into_owned();
    assert_eq!(output.status.code(), Some(0), "{}", error);
    assert_eq!(error, "");
    String::from_utf8(output.stdout).expect("words")
}

/// Ways to leave a device in the middle of something, with bytes in both queues.
fn disturb(client: &mut Client, way: usize) {
    let next = packet(0x81, &[0x15, 0x00]);
    match way {
        // requests whose answers nobody takes
        0 => client.send(&command(0x3A, &[]).repeat(20)),
        // half a packet
        1 => client.send(&data(&[0x5A; 0x80])[..20]),
        // more than is read at once, with a wake-up in it
        2 => client.send(&[[0xAA; 1000].repeat(9), vec![0x00, 0x00, 0x55]].concat()),
        // more answers than fit, then a half wake-up
        3 => client.send(&[range(0x15, 0, 0x3FFF), next.repeat(14), vec![0x00, 0x00]].concat()),
        // a wake-up that is not needed
        4 => client.send(&[0x00, 0x00, 0x55]),
        // a write under way
        5 => client.send(&[range(0x13, 0, 0xFF), data(&[0x11; 0x80])].concat()),
        // the length of a packet that never comes
        6 => client.send(&[0x01, 0x00]),
        _ => {}
    }
}

/// Wakes up, and gets nothing but the two answers of a wake-up and what is asked for then.
fn talk(client: &mut Client, session: usize) {
    client.send(&[0x00, 0x00]);
    assert_eq!(client.receive(1), [0x00], "session {}", session);
    client.send(&[0x55]);
    assert_eq!(client.receive(1), [0xC3], "session {}", session);
    assert_eq!(
        client.ask(&command(0x00, &[])),
        AWAKE,
        "session {}",
        session
    );
}

#[test]
fn a_thousand_sessions_of_reset_and_talk_behave() {
    let folder = Folder::new();
    let mut serving = Serving::start(&folder, "flash.bin", &["--link", "slot"]);
    let mut client = Client::open(&folder.path("slot"));
    talk(&mut client, 0);
    for session in 0..1000 {
        disturb(&mut client, session % 8);
        if session % 10 == 0 {
            assert!(told(&folder, &["reset", "slot"]).starts_with("slot: reset; "));
            serving.hear("reset");
        } else {
            serving.reset();
        }
        talk(&mut client, session);
    }
    assert!(!client.comes(Duration::from_millis(50)));
    assert_eq!(serving.end(Signal::SIGTERM), Some(0));
}

/// What was sent before the reset is done before it, however much that is and whoever waits for an answer.
#[test]
fn what_was_sent_before_a_reset_reaches_the_device_before_it() {
    let folder = Folder::new();
    let mut serving = Serving::start(&folder, "flash.bin", &["--link", "slot"]);
    let mut client = Client::open(&folder.path("slot"));
    client.wake_up();
    let bytes = pattern(0x1000, 3);
    // answers that nobody takes: the port is full of them before the write comes
    client.send(&command(0x3A, &[]).repeat(400));
    let write = [
        range(0x13, 0, 0xFFF),
        bytes.chunks(0x400).flat_map(data).collect(),
    ]
    .concat();
    client.send(&write);
    serving.reset();
    assert_eq!(folder.read("flash.bin")[..0x1000], bytes);
    assert!(!client.comes(Duration::from_millis(50)), "an old answer");
    talk(&mut client, 0);
}

#[test]
fn a_client_that_sends_without_end_does_not_hold_up_a_reset() {
    let folder = Folder::new();
    let serving = Serving::start(&folder, "flash.bin", &["--link", "slot"]);
    let port = serving.port.clone();
    let sending = std::thread::spawn(move || {
        let mut client = Client::open(&port);
        while client.try_send(&[0xAA; 4096]).is_ok() {}
    });
    for _ in 0..3 {
        assert!(told(&folder, &["reset", "slot"]).starts_with("slot: reset; "));
    }
    assert!(told(&folder, &["stop", "slot"]).starts_with("slot: ended; "));
    sending.join().expect("the client's end");
    assert_eq!(serving.ended(), Some(0));
}

#[test]
fn status_says_what_a_stand_in_is_doing() {
    let folder = Folder::new();
    let serving = Serving::start(&folder, "flash.bin", &["--link", "slot"]);
    let mut client = Client::open(&folder.path("slot"));
    let status = told(&folder, &["status", "slot"]);
    let first = status.lines().next().expect("a line");
    let start = format!(
        "slot: serving the profile bench on {}, process {}, since 20",
        serving.port.display(),
        serving.process()
    );
    assert!(first.starts_with(&start), "{}", first);
    assert!(
        status.contains("\n  stage    setting: not woken up\n"),
        "{}",
        status
    );
    client.wake_up();
    assert_eq!(client.ask(&range(0x13, 0x80, 0x17F)), WRITTEN);
    client.send(&data(&[0; 0x80])[..20]);
    let mut status = String::new();
    common::wait_until("the half packet", || {
        status = told(&folder, &["status", "slot"]);
        status.contains("begun")
    });
    for line in [
        "  image    flash.bin",
        "  stage    writing, 256 bytes at 00000080h and on to go",
        "  begun    20 of the 134 bytes of a packet have come",
        "  line     9,578 baud",
        "  port     9,600 baud",
        "  answers  3 sent, 0 bytes not taken yet, 0 resets",
    ] {
        assert!(
            status.lines().any(|said| said == line),
            "no {:?} in\n{}",
            line,
            status
        );
    }
    // the port's own name serves as well
    let port = serving.port.to_str().expect("a name in words");
    let by_port = told(&folder, &["status", port]);
    assert!(by_port.contains("writing, 256 bytes"), "{}", by_port);
}

#[test]
fn stop_returns_when_all_is_let_go_of() {
    let folder = Folder::new();
    let start = || Serving::start(&folder, "flash.bin", &["--link", "slot"]);
    let mut serving = start();
    for _ in 0..20 {
        assert_eq!(
            told(&folder, &["stop", "slot"]),
            "slot: ended; 0 answers sent\n"
        );
        assert!(fs::symlink_metadata(folder.path("slot")).is_err());
        // the same image and the same link at once, before anybody has seen the process end
        let next = start();
        assert_eq!(serving.ended(), Some(0));
        serving = next;
    }
}

/// Callers who connect and say nothing, or nothing sensible, keep nobody else out.
#[test]
fn callers_who_say_nothing_keep_nobody_out() {
    let folder = Folder::new();
    let serving = Serving::start(&folder, "flash.bin", &["--link", "slot"]);
    let entry = fs::read_link(folder.path("slot")).expect("the link");
    let socket = entry.with_file_name("control");
    let silent: Vec<UnixStream> = (0..100)
        .map(|_| UnixStream::connect(&socket).expect("the socket"))
        .collect();
    for wrong in [&b"erase\n"[..], &[0xFF; 500], b"\n", b"reset"] {
        let mut caller = UnixStream::connect(&socket).expect("the socket");
        caller.write_all(wrong).expect("some bytes");
        caller.shutdown(Shutdown::Write).expect("their end");
        let mut answer = Vec::new();
        // hung up on, with nothing said to be done
        let _ = caller.read_to_end(&mut answer);
        assert_eq!(answer, b"");
    }
    assert!(told(&folder, &["status", "slot"]).contains(" 0 resets"));
    assert!(told(&folder, &["stop", "slot"]).starts_with("slot: ended; "));
    assert_eq!(serving.ended(), Some(0));
    drop(silent);
}

/// More callers than wait in line, all at once while nobody listens: each is answered.
#[test]
fn many_callers_at_once_are_all_answered() {
    let folder = Folder::new();
    let serving = Serving::start(&folder, "flash.bin", &["--link", "slot"]);
    let entry = fs::read_link(folder.path("slot")).expect("the link");
    serving.signal(Signal::SIGSTOP);
    let callers: Vec<UnixStream> = (0..100)
        .map(|_| {
            let socket = entry.with_file_name("control");
            let mut caller = UnixStream::connect(socket).expect("the socket");
            caller.write_all(b"status\n").expect("a wish");
            caller
        })
        .collect();
    serving.signal(Signal::SIGCONT);
    for mut caller in callers {
        let mut answer = String::new();
        caller.read_to_string(&mut answer).expect("an answer");
        assert!(answer.starts_with("done\nserving "), "{:?}", answer);
    }
    assert_eq!(serving.end(Signal::SIGTERM), Some(0));
}

/// Starts that are refused for a link in use do not hold up the others.
#[test]
fn refused_starts_do_not_hold_up_others() {
    let folder = Folder::new();
    let serving = Serving::start(&folder, "flash.bin", &["--link", "slot"]);
    let refused: Vec<_> = (0..30)
        .map(|number| {
            let image = format!("{}.bin", number);
            let mut command = common::tool();
            command.args(["serve", "--profile", "bench.toml", "--create"]);
            command.args(["--image", &image, "--link", "slot"]);
            command.current_dir(&folder.0).stdin(Stdio::null());
            let command = command.stdout(Stdio::piped()).stderr(Stdio::piped());
            command.spawn().expect("the tool")
        })
        .collect();
    for child in refused {
        let output = child.wait_with_output().expect("its end");
        assert_eq!(output.status.code(), Some(1));
        let error = String::from_utf8_lossy(&output.stderr).into_owned();
        assert!(
            error.contains("belongs to a stand-in that is running"),
            "{}",
            error
        );
    }
    assert_eq!(serving.end(Signal::SIGTERM), Some(0));
}

/// What was asked by somebody who has given up since is not done any more.
#[test]
fn a_wish_whose_caller_has_gone_is_dropped() {
    let folder = Folder::new();
    let serving = Serving::start(&folder, "flash.bin", &["--link", "slot"]);
    let entry = fs::read_link(folder.path("slot")).expect("the link");
    serving.signal(Signal::SIGSTOP);
    for wish in ["reset\n", "stop\n"] {
        let mut caller = UnixStream::connect(entry.with_file_name("control")).expect("the socket");
        caller.write_all(wish.as_bytes()).expect("a wish");
    }
    serving.signal(Signal::SIGCONT);
    assert!(told(&folder, &["status", "slot"]).contains(" 0 resets"));
    assert_eq!(serving.end(Signal::SIGTERM), Some(0));
}

/// Killed, started again at once and asked for: nobody has to wait for the killed one to be gone.
#[test]
fn a_killed_stand_in_is_started_again_at_once() {
    let folder = Folder::new();
    let mut serving = Serving::start(&folder, "flash.bin", &["--link", "slot"]);
    for _ in 0..20 {
        serving.signal(Signal::SIGKILL);
        let next = Serving::start(&folder, "flash.bin", &["--link", "slot"]);
        let status = told(&folder, &["status", "slot", "--wait"]);
        assert!(
            status.contains(&format!("process {},", next.process())),
            "{}",
            status
        );
        assert_eq!(serving.ended(), None);
        serving = next;
    }
}

/// A client that held back its output, wanted the port for itself and set it for a person: after a reset the next one can talk.
#[test]
fn what_a_client_did_to_the_port_does_not_outlive_a_reset() {
    let folder = Folder::new();
    let mut serving = Serving::start(&folder, "flash.bin", &["--link", "slot"]);
    let spoiler = Client::open(&folder.path("slot"));
    let mut settings = tcgetattr(spoiler.fd()).expect("the port's settings");
    let lines = LocalFlags::ICANON | LocalFlags::ECHO;
    settings.local_flags.insert(lines);
    settings.output_flags.insert(OutputFlags::OPOST);
    tcsetattr(spoiler.fd(), SetArg::TCSANOW, &settings).expect("the port's settings");
    tcflow(spoiler.fd(), FlowArg::TCOOFF).expect("output held back");
    unsafe { nix::libc::ioctl(spoiler.fd(), nix::libc::TIOCEXCL) };
    drop(spoiler);
    serving.reset();
    let mut client = Client::open(&folder.path("slot"));
    talk(&mut client, 0);
    assert_eq!(serving.end(Signal::SIGTERM), Some(0));
}

#[test]
fn nobody_is_told_anything_behind_a_name_without_a_stand_in() {
    let folder = Folder::new();
    folder.write("file", b"");
    let serving = Serving::start(&folder, "flash.bin", &["--link", "slot"]);
    assert_eq!(serving.end(Signal::SIGKILL), None);
    for (slot, wrong) in [
        ("slot", "indraveck: the stand-in of slot is gone\n"),
        ("nowhere", "indraveck: there is no slot nowhere\n"),
        (
            "file",
            "indraveck: file is no stand-in's link, and no port of one of this account's\n",
        ),
        (
            "/dev/null",
            "indraveck: /dev/null is no stand-in's link, and no port of one of this account's\n",
        ),
    ] {
        for ask in ["reset", "status", "stop"] {
            let output = folder.run(&[ask, slot]);
            let error = String::from_utf8_lossy(&output.stderr);
            assert_eq!(output.status.code(), Some(1), "{}", error);
            assert!(error.starts_with(wrong), "{}", error);
            assert!(error.contains("\n  what to do: "), "{}", error);
            assert_eq!(output.stdout, b"");
        }
    }
}

#[test]
fn a_reset_is_in_the_log_with_what_it_cut() {
    let folder = Folder::new();
    let mut serving = Serving::start(&folder, "flash.bin", &["--link", "slot"]);
    let mut client = Client::open(&folder.path("slot"));
    client.wake_up();
    client.send(&command(0x3A, &[])[..4]);
    serving.reset();
    assert_eq!(serving.end(Signal::SIGTERM), Some(0));
    let log = words(&folder.read("flash.bin.log"));
    let line = "reset; it cut what had begun: 4 of the 6 bytes of a packet have come";
    assert!(log.iter().any(|said| said == line), "{:#?}", log);
}
