//! The tool started for real, on a real pseudo-terminal, and a client's end of the line.
#![allow(dead_code)] // each test file uses its own part

use nix::poll::{poll, PollFd, PollFlags};
use nix::sys::signal::{kill, signal, SigHandler, Signal};
use nix::unistd::Pid;
use std::env;
use std::fs::{self, File, OpenOptions};
use std::io::{BufRead, BufReader, Read, Write};
use std::os::unix::fs::OpenOptionsExt;
use std::os::unix::io::{AsRawFd, RawFd};
use std::os::unix::process::CommandExt;
use std::path::{Path, PathBuf};
use std::process::{Child, ChildStdout, Command, Output, Stdio};
use std::sync::atomic::{AtomicUsize, Ordering};
use std::time::{Duration, Instant};

/// How long an answer may take before a test calls it missing.
const PATIENCE: Duration = Duration::from_secs(20);

pub const SHOW_FLASH: [&str; 6] = [
    "image",
    "show",
    "--profile",
    "bench.toml",
    "--image",
    "flash.bin",
];

/// The root of the repository.
pub fn root() -> PathBuf {
    Path::new(env!("CARGO_MANIFEST_DIR")).join("../..")
}

/// The tool; where its machine is emulated, by the emulator.
pub fn tool() -> Command {
    let built = env!("CARGO_BIN_EXE_indraveck");
    match env::var_os("INDRAVECK_EMULATOR") {
        Some(emulator) => {
            let mut command = Command::new(emulator);
            command.arg(built);
            command
        }
        None => Command::new(built),
    }
}

/// A folder of its own for a test, with the bench profile; removed at the end.
pub struct Folder(pub PathBuf);

static FOLDERS: AtomicUsize = AtomicUsize::new(0);

impl Folder {
    pub fn new() -> Folder {
        let number = FOLDERS.fetch_add(1, Ordering::SeqCst);
        let name = format!("indraveck-{}-{}", std::process::id(), number);
        let path = env::temp_dir().join(name);
        fs::create_dir(&path).expect("a folder for the test");
        fs::copy(root().join("profiles/bench.toml"), path.join("bench.toml"))
            .expect("the bench profile");
        Folder(path)
    }

    pub fn path(&self, name: &str) -> PathBuf {
        self.0.join(name)
    }

    pub fn read(&self, name: &str) -> Vec<u8> {
        fs::read(self.path(name)).expect("a file of the test")
    }

    pub fn write(&self, name: &str, bytes: &[u8]) {
        fs::write(self.path(name), bytes).expect("a file of the test");
    }

    /// Runs the tool in this folder to its end.
    pub fn run(&self, arguments: &[&str]) -> Output {
        tool()
            .args(arguments)
            .current_dir(&self.0)
            .stdin(Stdio::null())
            .output()
            .expect("the tool")
    }

    /// Runs the tool with these bytes on its standard input.
    pub fn run_with(&self, arguments: &[&str], input: &[u8]) -> Output {
        let mut child = tool()
            .args(arguments)
            .current_dir(&self.0)
            .stdin(Stdio::piped())
            .stdout(Stdio::piped())
            .stderr(Stdio::piped())
            .spawn()
            .expect("the tool");
        let mut stdin = child.stdin.take().expect("its standard input");
        let input = input.to_vec();
        let writer = std::thread::spawn(move || stdin.write_all(&input));
        let output = child.wait_with_output().expect("the tool");
        let _ = writer.join(); // the tool may have ended before it read all
        output
    }
}

impl Drop for Folder {
    fn drop(&mut self) {
        let _ = fs::remove_dir_all(&self.0);
    }
}

/// A small disk of its own, if this machine lets a test have one.
pub struct Disk<'a>(&'a Path);

impl Disk<'_> {
    pub fn mount<'a>(at: &'a Path, size: &str) -> Option<Disk<'a>> {
        fs::create_dir(at).expect("a folder");
        let mounted = Command::new("mount")
            .args(["-t", "tmpfs", "-o", &format!("size={}", size), "none"])
            .arg(at)
            .output();
        match mounted {
            Ok(output) if output.status.success() => Some(Disk(at)),
            _ => None,
        }
    }
}

impl Drop for Disk<'_> {
    fn drop(&mut self) {
        let _ = Command::new("umount").arg(self.0).status();
    }
}

/// A stand-in that is running.
pub struct Serving {
    child: Child,
    says: BufReader<ChildStdout>,
    pub port: PathBuf,
}

impl Serving {
    /// With the bench profile, and the image made if it is not there; the log is in a file with the image's name and `.log`.
    pub fn start(folder: &Folder, image: &str, more: &[&str]) -> Serving {
        let log = File::create(folder.path(&format!("{}.log", image))).expect("a log");
        Serving::start_into(folder, image, more, log.into())
    }

    /// With its log on this standard error.
    pub fn start_into(folder: &Folder, image: &str, more: &[&str], stderr: Stdio) -> Serving {
        let mut command = tool();
        command
            .args(["serve", "--profile", "bench.toml", "--create"])
            .args(["--image", image])
            .args(more)
            .current_dir(&folder.0)
            .stdin(Stdio::null())
            .stdout(Stdio::piped())
            .stderr(stderr);
        if !more.contains(&"--log") {
            command.arg("--log");
        }
        // whoever runs the tests may have it ignored
        unsafe {
            command.pre_exec(|| {
                signal(Signal::SIGHUP, SigHandler::SigDfl)?;
                Ok(())
            });
        }
        let mut child = command.spawn().expect("the tool");
        let mut says = BufReader::new(child.stdout.take().expect("its standard output"));
        let mut name = String::new();
        says.read_line(&mut name).expect("the port's name");
        let port = PathBuf::from(name.trim_end());
        assert!(
            port.starts_with("/dev/pts"),
            "{:?} instead of the port",
            name
        );
        Serving { child, says, port }
    }

    /// Resets the device, and waits until it says so.
    pub fn reset(&mut self) {
        self.signal(Signal::SIGUSR1);
        self.hear("reset");
    }

    /// Waits for the next word on its standard output, which has to be this one.
    pub fn hear(&mut self, expected: &str) {
        let mut word = String::new();
        self.says.read_line(&mut word).expect("a word");
        assert_eq!(word.trim_end(), expected);
    }

    pub fn process(&self) -> u32 {
        self.child.id()
    }

    pub fn signal(&self, signal: Signal) {
        kill(Pid::from_raw(self.child.id() as i32), signal).expect("a signal to the tool");
    }

    /// Ends it by a signal; its exit status, or none if the signal killed it.
    pub fn end(self, signal: Signal) -> Option<i32> {
        self.signal(signal);
        self.ended()
    }

    /// Waits until it has ended; its exit status, or none if a signal killed it.
    pub fn ended(mut self) -> Option<i32> {
        let until = Instant::now() + PATIENCE;
        loop {
            if let Some(status) = self.child.try_wait().expect("the tool's end") {
                return status.code();
            }
            assert!(Instant::now() < until, "it did not end");
            std::thread::sleep(Duration::from_millis(5));
        }
    }
}

impl Drop for Serving {
    fn drop(&mut self) {
        let _ = self.child.kill();
        let _ = self.child.wait();
    }
}

/// The words of a log in text, each line without its time, which has to be one.
pub fn words(log: &[u8]) -> Vec<String> {
    let log = std::str::from_utf8(log).expect("a log in words");
    log.lines()
        .map(|line| {
            let (time, words) = line.split_once("  ").expect("a time and words");
            let digits: String = time.chars().filter(char::is_ascii_digit).collect();
            let shape = time.replace(|c: char| c.is_ascii_digit(), "0");
            assert_eq!(shape, "0000-00-00T00:00:00.000Z", "{}", line);
            assert!(digits.starts_with("20"), "{}", line);
            words.to_string()
        })
        .collect()
}

/// Whether a text is as expected, where `...` stands for any words.
pub fn matches(expected: &str, text: &str) -> bool {
    let parts: Vec<&str> = expected.trim_end().split("...").collect();
    let text = text.trim_end();
    let (first, last) = (parts[0], parts[parts.len() - 1]);
    if parts.len() == 1 {
        return text == first;
    }
    let ends = text.starts_with(first) && text.ends_with(last);
    if !ends || text.len() < first.len() + last.len() {
        return false;
    }
    let mut rest = &text[first.len()..text.len() - last.len()];
    for part in &parts[1..parts.len() - 1] {
        rest = match rest.find(part) {
            Some(at) => &rest[at + part.len()..],
            None => return false,
        };
    }
    true
}

/// Waits until something holds.
pub fn wait_until(what: &str, mut holds: impl FnMut() -> bool) {
    let until = Instant::now() + PATIENCE;
    while !holds() {
        assert!(Instant::now() < until, "waited in vain: {}", what);
        std::thread::sleep(Duration::from_millis(5));
    }
}

/// A client's end of the line.
pub struct Client(File);

impl Client {
    pub fn open(port: &Path) -> Client {
        Client::try_open(port).expect("the port")
    }

    pub fn try_open(port: &Path) -> std::io::Result<Client> {
        let file = OpenOptions::new()
            .read(true)
            .write(true)
            .custom_flags(nix::libc::O_NOCTTY)
            .open(port)?;
        Ok(Client(file))
    }

    pub fn fd(&self) -> RawFd {
        self.0.as_raw_fd()
    }

    pub fn send(&mut self, bytes: &[u8]) {
        self.try_send(bytes).expect("bytes to the port");
    }

    pub fn try_send(&mut self, bytes: &[u8]) -> std::io::Result<()> {
        self.0.write_all(bytes)
    }

    pub fn read(&mut self, buffer: &mut [u8]) -> std::io::Result<usize> {
        self.0.read(buffer)
    }

    /// So many bytes; fewer if no more come in time.
    pub fn receive(&mut self, count: usize) -> Vec<u8> {
        let mut received = vec![0; count];
        let mut have = 0;
        while have < count && self.comes(PATIENCE) {
            have += self.0.read(&mut received[have..]).expect("the port");
        }
        received.truncate(have);
        received
    }

    /// Whether anything comes within this time.
    pub fn comes(&mut self, time: Duration) -> bool {
        let mut ends = [PollFd::new(self.0.as_raw_fd(), PollFlags::POLLIN)];
        poll(&mut ends, time.as_millis() as i32).expect("the port") > 0
    }

    /// Sends a request and takes its whole reply.
    pub fn ask(&mut self, request: &[u8]) -> Vec<u8> {
        self.send(request);
        let mut reply = self.receive(3);
        if let [0x81, high, low] = reply[..] {
            let rest = 256 * usize::from(high) + usize::from(low) + 2;
            reply.extend(self.receive(rest));
        }
        reply
    }

    pub fn wake_up(&mut self) {
        self.send(&[0, 0]);
        assert_eq!(self.receive(1), [0x00]);
        self.send(&[0x55]);
        assert_eq!(self.receive(1), [0xC3]);
    }
}

/// A packet with its length and checksum.
pub fn packet(start: u8, contents: &[u8]) -> Vec<u8> {
    let mut packet = vec![start, (contents.len() >> 8) as u8, contents.len() as u8];
    packet.extend_from_slice(contents);
    let sum = packet[1..]
        .iter()
        .fold(0u8, |sum, byte| sum.wrapping_sub(*byte));
    packet.extend([sum, 0x03]);
    packet
}

pub fn command(com: u8, information: &[u8]) -> Vec<u8> {
    packet(0x01, &[&[com], information].concat())
}

pub fn range(com: u8, first: u32, last: u32) -> Vec<u8> {
    command(com, &[first.to_be_bytes(), last.to_be_bytes()].concat())
}

pub fn data(bytes: &[u8]) -> Vec<u8> {
    packet(0x81, &[&[0x13], bytes].concat())
}

pub const AWAKE: [u8; 7] = [0x81, 0x00, 0x02, 0x00, 0x00, 0xFE, 0x03];
pub const ERASED: [u8; 7] = [0x81, 0x00, 0x02, 0x12, 0x00, 0xEC, 0x03];
pub const WRITTEN: [u8; 7] = [0x81, 0x00, 0x02, 0x13, 0x00, 0xEB, 0x03];

/// Bytes that repeat late.
pub fn pattern(count: usize, seed: u32) -> Vec<u8> {
    let mut state = seed | 1;
    let mut next = || {
        state ^= state << 13;
        state ^= state >> 17;
        state ^= state << 5;
        (state >> 8) as u8
    };
    (0..count).map(|_| next()).collect()
}
