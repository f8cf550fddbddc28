//! No output stops or kills a stand-in, and no exit status but 0, 1 and 2 comes out.

mod common;

use common::{
    command, data, range, tool, wait_until, words, Client, Disk, Folder, Serving, AWAKE,
    SHOW_FLASH, WRITTEN,
};
use nix::sys::signal::Signal;
use nix::unistd::pipe;
use std::fs::{self, File, OpenOptions};
use std::io::Read;
use std::os::unix::fs::symlink;
use std::os::unix::io::FromRawFd;
use std::process::Stdio;

/// Both ends of a pipe.
fn a_pipe() -> (File, File) {
    let (read, write) = pipe().expect("a pipe");
    unsafe { (File::from_raw_fd(read), File::from_raw_fd(write)) }
}

/// As many inquiries, each of which leaves a line in the log.
fn inquire(client: &mut Client, count: usize) {
    for _ in 0..count / 100 {
        client.send(&command(0x00, &[]).repeat(100));
        assert_eq!(client.receive(700), AWAKE.repeat(100));
    }
}

/// More lines than a pipe and the tool hold between them: the device goes on, the end comes at once.
#[test]
fn a_log_pipe_that_nobody_reads_holds_up_nothing() {
    let folder = Folder::new();
    let (reader, writer) = a_pipe();
    let serving = Serving::start_into(&folder, "flash.bin", &["--link", "slot"], writer.into());
    let mut client = Client::open(&serving.port);
    client.wake_up();
    inquire(&mut client, 30_000);
    let status = folder.run(&["status", "slot"]);
    let status = String::from_utf8_lossy(&status.stdout).into_owned();
    assert!(status.contains(" lines could not be written"), "{}", status);
    assert_eq!(serving.end(Signal::SIGTERM), Some(0));
    drop(reader);
}

/// Lines that were lost are counted, and said as soon as somebody reads again: none is missing from both.
#[test]
fn lost_lines_are_counted_and_said_later() {
    let folder = Folder::new();
    let (mut reader, writer) = a_pipe();
    let serving = Serving::start_into(&folder, "flash.bin", &["--link", "slot"], writer.into());
    let mut client = Client::open(&serving.port);
    client.wake_up();
    inquire(&mut client, 30_000);
    let reading = std::thread::spawn(move || {
        let mut log = Vec::new();
        reader.read_to_end(&mut log).expect("the log");
        log
    });
    // until there is room again a line more may be lost
    let mut more = 0;
    wait_until("a log that goes on", || {
        inquire(&mut client, 100);
        more += 100;
        let status = folder.run(&["status", "slot"]);
        let before = String::from_utf8_lossy(&status.stdout).into_owned();
        inquire(&mut client, 100);
        more += 100;
        let status = folder.run(&["status", "slot"]);
        let lost = |text: &str| {
            text.lines()
                .find(|line| line.contains("could not be written"))
                .map(String::from)
        };
        lost(&before) == lost(&String::from_utf8_lossy(&status.stdout))
    });
    assert_eq!(serving.end(Signal::SIGTERM), Some(0));
    let log = words(&reading.join().expect("the reader"));
    let written = log
        .iter()
        .filter(|line| *line == "inquiry (00h): 00h OK")
        .count();
    let lost: usize = log
        .iter()
        .filter_map(|line| line.strip_suffix(" of this log could not be written"))
        .map(|count| {
            let digits: String = count.chars().filter(char::is_ascii_digit).collect();
            digits.parse::<usize>().expect("a number")
        })
        .sum();
    assert!(lost > 0);
    assert_eq!(written + lost, 30_000 + more);
}

#[test]
fn a_reader_that_has_gone_and_a_full_disk_end_nothing() {
    let folder = Folder::new();
    symlink("/dev/full", folder.path("full.log")).expect("a log on a full disk");
    for more in [&[][..], &["--log", "full.log"]] {
        let (reader, writer) = a_pipe();
        drop(reader);
        let serving = Serving::start_into(&folder, "flash.bin", more, writer.into());
        let mut client = Client::open(&serving.port);
        client.wake_up();
        inquire(&mut client, 1_000);
        let port = serving.port.to_str().expect("a name in words").to_string();
        let status = folder.run(&["status", &port]);
        let status = String::from_utf8_lossy(&status.stdout).into_owned();
        assert!(status.contains(" lines could not be written"), "{}", status);
        assert_eq!(serving.end(Signal::SIGTERM), Some(0));
    }
}

/// A log into a named pipe: without a reader it is an error at the start, and a reader that stops reading holds up nothing.
#[test]
fn a_log_into_a_named_pipe_waits_for_nobody() {
    let folder = Folder::new();
    let pipe = folder.path("pipe");
    nix::unistd::mkfifo(&pipe, nix::sys::stat::Mode::S_IRWXU).expect("a named pipe");
    let serve = ["serve", "--profile", "bench.toml", "--image", "flash.bin"];
    let refused = folder.run(&[&serve[..], &["--create", "--log", "pipe"]].concat());
    assert_eq!(refused.status.code(), Some(1));
    let error = String::from_utf8_lossy(&refused.stderr);
    assert!(
        error.starts_with("indraveck: the log pipe cannot be opened: "),
        "{}",
        error
    );
    let reader = OpenOptions::new().read(true).write(true).open(&pipe);
    let reader = reader.expect("a reader that does not read");
    let serving = Serving::start(&folder, "flash.bin", &["--log", "pipe"]);
    let mut client = Client::open(&serving.port);
    client.wake_up();
    inquire(&mut client, 3_000);
    assert_eq!(serving.end(Signal::SIGTERM), Some(0));
    drop(reader);
}

/// A line that does not fit on a full disk is taken back: what is there can be read as JSON.
#[test]
fn a_log_on_a_full_disk_has_whole_lines_only() {
    let folder = Folder::new();
    let place = folder.path("disk");
    let _disk = match Disk::mount(&place, "16k") {
        Some(disk) => disk,
        None => {
            println!("no disk can be mounted here: this part needs root");
            return;
        }
    };
    let more = ["--log", "disk/slot.log", "--log-json"];
    let serving = Serving::start(&folder, "flash.bin", &more);
    let mut client = Client::open(&serving.port);
    client.wake_up();
    inquire(&mut client, 1_000);
    assert_eq!(serving.end(Signal::SIGTERM), Some(0));
    let log = fs::read_to_string(place.join("slot.log")).expect("the log");
    assert!(log.len() > 10_000 && log.ends_with("}\n"), "{}", log.len());
    assert!(log
        .lines()
        .all(|line| line.starts_with("{\"time\":") && line.ends_with('}')));
}

/// A start that fails is one object of the log, too.
#[test]
fn a_log_in_json_on_standard_error_is_nothing_but_json() {
    let folder = Folder::new();
    for more in [
        &["--image", "missing.bin"][..],
        &["--image", "bench.toml"],
        &["--image", "a.bin", "--create", "--link", "nowhere/slot"],
        &[
            "--image",
            "b.bin",
            "--create",
            "--port-group",
            "no-such-group",
        ],
    ] {
        let serve = ["serve", "--profile", "bench.toml", "--log-json"];
        let refused = folder.run(&[&serve[..], more].concat());
        assert_eq!(refused.status.code(), Some(1));
        let said = String::from_utf8(refused.stderr).expect("words");
        let failed = "\"event\":\"failed\",\"text\":\"";
        assert!(
            said.starts_with("{\"time\":") && said.contains(failed),
            "{}",
            said
        );
        assert!(
            said.ends_with("}\n") && said.lines().count() == 1,
            "{}",
            said
        );
    }
}

/// One file for two purposes is refused before anything is written.
#[test]
fn a_log_does_not_go_into_the_image() {
    let folder = Folder::new();
    folder.write("flash.bin", &[0xFF; 65_792]);
    symlink("flash.bin", folder.path("same.bin")).expect("a link");
    let before = folder.read("bench.toml");
    for (command, more, wrong) in [
        (
            "serve",
            &["--log", "flash.bin"][..],
            "flash.bin is given for the image and for the log",
        ),
        (
            "feed",
            &["--log", "./flash.bin"],
            "./flash.bin is given for the image and for the log",
        ),
        (
            "serve",
            &["--log", "same.bin"],
            "same.bin is given for the image and for the log",
        ),
        (
            "serve",
            &["--log", "bench.toml"],
            "bench.toml is given for the profile and for the log",
        ),
        (
            "serve",
            &["--link", "x", "--log", "x"],
            "x is given for the link and for the log",
        ),
        (
            "serve",
            &["--link", "flash.bin"],
            "flash.bin is given for the image and for the link",
        ),
    ] {
        let files = [command, "--profile", "bench.toml", "--image", "flash.bin"];
        let refused = folder.run(&[&files[..], more].concat());
        assert_eq!(refused.status.code(), Some(1), "{:?}", more);
        let error = String::from_utf8_lossy(&refused.stderr);
        assert!(
            error.starts_with(&format!("indraveck: {}\n", wrong)),
            "{}",
            error
        );
    }
    assert_eq!(folder.read("flash.bin"), [0xFF; 65_792]);
    assert_eq!(folder.read("bench.toml"), before);
    assert!(!folder.path("x").exists());
}

/// Nor into the image of another stand-in that is running.
#[test]
fn a_log_does_not_go_into_an_image_that_is_served() {
    let folder = Folder::new();
    let serving = Serving::start(&folder, "flash.bin", &[]);
    let other = ["serve", "--profile", "bench.toml", "--image", "other.bin"];
    let refused = folder.run(&[&other[..], &["--create", "--log", "flash.bin"]].concat());
    assert_eq!(refused.status.code(), Some(1));
    let error = String::from_utf8_lossy(&refused.stderr);
    let wrong = "indraveck: the log flash.bin cannot be opened: it is in use as an image by another stand-in\n";
    assert!(error.starts_with(wrong), "{}", error);
    assert_eq!(folder.read("flash.bin").len(), 65_792);
    let mut client = Client::open(&serving.port);
    client.wake_up();
    assert_eq!(serving.end(Signal::SIGTERM), Some(0));
}

/// Neither the name of the port nor the word `reset` needs a reader.
#[test]
fn a_standard_output_that_nobody_reads_ends_nothing() {
    let folder = Folder::new();
    let (reader, writer) = a_pipe();
    drop(reader);
    let serve = ["serve", "--profile", "bench.toml", "--image", "flash.bin"];
    let mut child = tool()
        .args(serve)
        .args(["--create", "--link", "slot"])
        .current_dir(&folder.0)
        .stdout(writer)
        .stderr(Stdio::null())
        .spawn()
        .expect("the tool");
    wait_until("the link", || folder.path("slot").exists());
    let mut client = Client::open(&folder.path("slot"));
    client.wake_up();
    assert_eq!(folder.run(&["reset", "slot"]).status.code(), Some(0));
    client.wake_up();
    assert_eq!(folder.run(&["stop", "slot"]).status.code(), Some(0));
    assert_eq!(child.wait().expect("its end").code(), Some(0));
}

#[test]
fn what_is_shown_may_be_cut_off_and_a_full_disk_is_an_error() {
    let folder = Folder::new();
    folder.write("flash.bin", &[0x5A; 65_792]);
    let range = [&SHOW_FLASH[..], &["--range", "0-0xFFFF"]].concat();
    let check = ["profile", "check", "bench.toml"];
    for arguments in [&SHOW_FLASH[..], &range, &check, &["--help"], &["--version"]] {
        let (reader, writer) = a_pipe();
        drop(reader);
        let run = |stdout: Stdio| {
            tool()
                .args(arguments)
                .current_dir(&folder.0)
                .stdout(stdout)
                .stderr(Stdio::piped())
                .spawn()
                .expect("the tool")
                .wait_with_output()
                .expect("its end")
        };
        let cut = run(writer.into());
        assert_eq!(cut.status.code(), Some(0), "{:?}", arguments);
        assert_eq!(cut.stderr, b"");
        let full = OpenOptions::new().write(true).open("/dev/full");
        let refused = run(full.expect("a full disk").into());
        assert_eq!(refused.status.code(), Some(1), "{:?}", arguments);
        let error = String::from_utf8_lossy(&refused.stderr);
        assert!(
            error.starts_with("indraveck: standard output cannot be written: "),
            "{}",
            error
        );
    }
}

/// Errors keep their exit status where nobody can be told.
#[test]
fn a_standard_error_that_is_full_or_gone_changes_no_exit_status() {
    let folder = Folder::new();
    for (arguments, expected) in [
        (&["profile", "check", "missing.toml"][..], 1),
        (
            &["serve", "--profile", "bench.toml", "--image", "missing.bin"],
            1,
        ),
        (
            &["feed", "--profile", "bench.toml", "--image", "missing.bin"],
            1,
        ),
        (&["reset", "nowhere"], 1),
        (&["serve"], 2),
        (&["no-such-command"], 2),
    ] {
        let (reader, writer) = a_pipe();
        drop(reader);
        let full = OpenOptions::new().write(true).open("/dev/full");
        for stderr in [writer, full.expect("a full disk")] {
            let status = tool()
                .args(arguments)
                .current_dir(&folder.0)
                .stdin(Stdio::null())
                .stdout(Stdio::null())
                .stderr(stderr)
                .status();
            let status = status.expect("the tool").code();
            assert_eq!(status, Some(expected), "{:?}", arguments);
        }
    }
}

/// What another program can do to an image while it is served.
fn harm(folder: &Folder, way: &str) {
    let image = folder.path("flash.bin");
    let set_len = |length| {
        let file = OpenOptions::new().write(true).open(&image);
        file.and_then(|file| file.set_len(length))
    };
    let done = match way {
        "removed or renamed" => fs::remove_file(&image),
        "replaced" => fs::write(folder.path("new.bin"), [0xFF; 65_792])
            .and_then(|()| fs::rename(folder.path("new.bin"), &image)),
        // as cp does it
        "written" => fs::copy(folder.path("other.bin"), &image).map(|_| ()),
        "made longer" => set_len(65_793),
        _ => set_len(65_791),
    };
    done.expect("another program");
}

#[test]
fn an_image_that_is_not_there_any_more_is_noticed_before_the_next_ok() {
    for way in [
        "removed or renamed",
        "replaced",
        "written",
        "made longer",
        "cut short",
    ] {
        let folder = Folder::new();
        folder.write("other.bin", &[0x5A; 65_792]);
        let serving = Serving::start(&folder, "flash.bin", &["--link", "slot"]);
        let mut client = Client::open(&serving.port);
        client.wake_up();
        assert_eq!(client.ask(&range(0x13, 0, 0xFF)), WRITTEN);
        assert_eq!(client.ask(&data(&[0x11; 0x80])), WRITTEN);
        harm(&folder, way);
        client.send(&data(&[0x22; 0x80]));
        assert_eq!(serving.ended(), Some(1), "{}", way);
        let mut answer = [0; 1];
        assert!(!matches!(client.read(&mut answer), Ok(1)), "an answer");
        let log = String::from_utf8(folder.read("flash.bin.log")).expect("a log in words");
        let wrong = format!(
            "indraveck: the image flash.bin was {} by another program while it was in use\n  what to do: put it back and start again; ",
            way
        );
        assert!(log.contains(&wrong), "{}", log);
        // it tidied up
        assert!(fs::symlink_metadata(folder.path("slot")).is_err());
    }
}

/// Also where nothing would be stored: an inquiry.
#[test]
fn an_image_that_is_gone_is_not_answered_for_at_all() {
    let folder = Folder::new();
    let serving = Serving::start(&folder, "flash.bin", &[]);
    let mut client = Client::open(&serving.port);
    client.wake_up();
    harm(&folder, "removed or renamed");
    client.send(&command(0x00, &[]));
    assert_eq!(serving.ended(), Some(1));
    let mut answer = [0; 1];
    assert!(!matches!(client.read(&mut answer), Ok(1)), "an answer");
}
