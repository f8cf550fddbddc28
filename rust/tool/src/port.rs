//! A pseudo-terminal that a flashing script opens as its serial port.

use crate::cli::Access;
use crate::failure::{Explain, Failure, Outcome};
use crate::registry::{Entry, Registry};
use nix::errno::Errno;
use nix::fcntl::{fcntl, FcntlArg, FdFlag, OFlag};
use nix::libc;
use nix::pty::{grantpt, posix_openpt, ptsname_r, unlockpt, PtyMaster};
use nix::sys::inotify::{AddWatchFlags, InitFlags, Inotify};
use nix::sys::termios::{
    cfmakeraw, cfsetspeed, tcflow, tcflush, tcgetattr, tcsetattr, BaudRate, FlowArg, FlushArg,
    SetArg,
};
use nix::unistd::{chown, Gid, Group};
use std::fs::{self, File, OpenOptions, Permissions};
use std::io;
use std::mem::MaybeUninit;
use std::os::unix::fs::{OpenOptionsExt, PermissionsExt};
use std::os::unix::io::{AsRawFd, RawFd};
use std::path::{Path, PathBuf};

const NO_PORT: &str = "see that /dev/pts is there and has a free pseudo-terminal";
/// Numbers that may have to be passed over.
const MOST_PASSED: usize = 64;

fn no_port() -> String {
    "no pseudo-terminal could be opened".to_string()
}

/// The device's end alone. Nobody can open the other end yet.
struct Reserved {
    device: PtyMaster,
    name: PathBuf,
}

impl Reserved {
    fn take() -> Outcome<Reserved> {
        let device = posix_openpt(OFlag::O_RDWR | OFlag::O_NOCTTY | OFlag::O_NONBLOCK)
            .explain(no_port, NO_PORT)?;
        fcntl(device.as_raw_fd(), FcntlArg::F_SETFD(FdFlag::FD_CLOEXEC))
            .explain(no_port, NO_PORT)?;
        grantpt(&device).explain(no_port, NO_PORT)?;
        let name = PathBuf::from(ptsname_r(&device).explain(no_port, NO_PORT)?);
        Ok(Reserved { device, name })
    }

    /// One to which no link of a stand-in that is gone can lead any more.
    fn free_of_links(registry: &Registry, entry: &Entry) -> Outcome<Reserved> {
        let mut passed = Vec::new();
        while passed.len() < MOST_PASSED {
            let reserved = Reserved::take()?;
            registry.sweep(entry, &reserved.name);
            if !registry.haunted(&reserved.name) {
                return Ok(reserved);
            }
            // held until another number is found, or it would come again
            passed.push(reserved);
        }
        Err(Failure::new(
            "links that stand-ins of other accounts left behind lead to every free pseudo-terminal",
            "have these accounts start one stand-in each: that takes such links away",
        ))
    }
}

pub struct Port {
    /// The device's end; reads and writes do not wait.
    device: PtyMaster,
    // The script's end is kept open, so that a script may come and go and its settings stay.
    script: File,
    clients: Option<Inotify>,
    pub name: PathBuf,
}

/// What a client did to the port.
#[derive(Clone, Copy, PartialEq, Eq)]
pub enum Visit {
    Came,
    Went,
}

impl Port {
    /// Opens a port that nobody can reach by an old link, and enters it as this stand-in's.
    pub fn open(registry: &Registry, entry: &Entry, access: &Access) -> Outcome<Port> {
        let Reserved { device, name } = Reserved::free_of_links(registry, entry)?;
        entry.lead_to(&name)?;
        permit(&name, access)?;
        unlockpt(&device).explain(no_port, NO_PORT)?;
        let script = OpenOptions::new()
            .read(true)
            .write(true)
            .custom_flags(libc::O_NOCTTY)
            .open(&name)
            .explain(no_port, NO_PORT)?;
        let mut settings = tcgetattr(script.as_raw_fd()).explain(no_port, NO_PORT)?;
        cfmakeraw(&mut settings);
        // what a fresh device listens at: a client that sets no rate has this one
        cfsetspeed(&mut settings, BaudRate::B9600).explain(no_port, NO_PORT)?;
        tcsetattr(script.as_raw_fd(), SetArg::TCSANOW, &settings).explain(no_port, NO_PORT)?;
        let clients = watch(&name);
        Ok(Port {
            device,
            script,
            clients,
            name,
        })
    }

    pub fn fd(&self) -> RawFd {
        self.device.as_raw_fd()
    }

    /// Where visits can be waited for; none on a system that does not tell.
    pub fn visits_fd(&self) -> Option<RawFd> {
        self.clients.as_ref().map(AsRawFd::as_raw_fd)
    }

    /// Who came and went since this was asked last.
    pub fn visits(&self) -> Vec<Visit> {
        let events = self.clients.as_ref().map(|clients| clients.read_events());
        let came = |flags: AddWatchFlags| flags.contains(AddWatchFlags::IN_OPEN);
        let visit = |flags| {
            if came(flags) {
                Visit::Came
            } else {
                Visit::Went
            }
        };
        match events {
            Some(Ok(events)) => events.iter().map(|event| visit(event.mask)).collect(),
            _ => Vec::new(),
        }
    }

    /// Throws away what stands in the queues: what was sent and not read yet, and answers that nobody has taken.
    ///
    /// Each direction has two: bytes under way, emptied from the sender's end, and then bytes that have arrived, from the other end.
    pub fn empty(&self) {
        let device = self.device.as_raw_fd();
        let script = self.script.as_raw_fd();
        for (end, queue) in [
            (device, FlushArg::TCOFLUSH),
            (script, FlushArg::TCIFLUSH),
            (script, FlushArg::TCOFLUSH),
            (device, FlushArg::TCIFLUSH),
        ] {
            let _ = tcflush(end, queue);
        }
    }

    /// Undoes what a client may have left that keeps the next one from talking: output held back, the port to itself, or a mode in which
    /// bytes are changed or echoed. The rate and the way of waiting are the client's own and stay.
    pub fn restore(&self) {
        let script = self.script.as_raw_fd();
        let _ = tcflow(script, FlowArg::TCOON);
        unsafe { libc::ioctl(script, libc::TIOCNXCL) };
        if let Ok(mut settings) = tcgetattr(script) {
            let waiting = settings.control_chars;
            cfmakeraw(&mut settings);
            settings.control_chars = waiting;
            let _ = tcsetattr(script, SetArg::TCSANOW, &settings);
        }
    }

    /// The rate that the port is set to, in baud; none where it cannot be told.
    pub fn rate(&self) -> Option<u32> {
        let mut settings = MaybeUninit::<libc::termios2>::uninit();
        let asked = unsafe {
            libc::ioctl(
                self.script.as_raw_fd(),
                libc::TCGETS2,
                settings.as_mut_ptr(),
            )
        };
        if asked == 0 {
            return Some(unsafe { settings.assume_init() }.c_ospeed);
        }
        rate_by_name(self.script.as_raw_fd())
    }
}

/// The rate where the system only tells the names of rates.
fn rate_by_name(fd: RawFd) -> Option<u32> {
    let mut settings = MaybeUninit::<libc::termios>::uninit();
    if unsafe { libc::tcgetattr(fd, settings.as_mut_ptr()) } != 0 {
        return None;
    }
    let name = unsafe { libc::cfgetospeed(settings.as_ptr()) };
    let named = NAMED_RATES.iter().find(|(known, _)| *known == name);
    named.map(|(_, rate)| *rate)
}

const NAMED_RATES: [(libc::speed_t, u32); 24] = [
    (libc::B300, 300),
    (libc::B600, 600),
    (libc::B1200, 1_200),
    (libc::B1800, 1_800),
    (libc::B2400, 2_400),
    (libc::B4800, 4_800),
    (libc::B9600, 9_600),
    (libc::B19200, 19_200),
    (libc::B38400, 38_400),
    (libc::B57600, 57_600),
    (libc::B115200, 115_200),
    (libc::B230400, 230_400),
    (libc::B460800, 460_800),
    (libc::B500000, 500_000),
    (libc::B576000, 576_000),
    (libc::B921600, 921_600),
    (libc::B1000000, 1_000_000),
    (libc::B1152000, 1_152_000),
    (libc::B1500000, 1_500_000),
    (libc::B2000000, 2_000_000),
    (libc::B2500000, 2_500_000),
    (libc::B3000000, 3_000_000),
    (libc::B3500000, 3_500_000),
    (libc::B4000000, 4_000_000),
];

/// Lets other accounts use the port, before anybody can.
fn permit(name: &Path, access: &Access) -> Outcome<()> {
    if let Some(group) = group_of(access)? {
        chown(name, None, Some(group)).explain(
            || format!("the port cannot be given to the group {}", group),
            "give a group that this account is in",
        )?;
    }
    if let Some(mode) = access.port_mode {
        fs::set_permissions(name, Permissions::from_mode(mode.0)).explain(
            || "the port's mode cannot be set".to_string(),
            "give a mode as 0660",
        )?;
    }
    Ok(())
}

/// The group that is to use the port.
pub fn group_of(access: &Access) -> Outcome<Option<Gid>> {
    let name = match &access.port_group {
        Some(name) => name,
        None => return Ok(None),
    };
    if let Ok(number) = name.parse() {
        return Ok(Some(Gid::from_raw(number)));
    }
    match Group::from_name(name) {
        Ok(Some(group)) => Ok(Some(group.gid)),
        _ => Err(Failure::new(
            format!("there is no group {}", crate::text::shown(name)),
            "give the name or the number of a group of this machine",
        )),
    }
}

fn watch(name: &Path) -> Option<Inotify> {
    let clients = Inotify::init(InitFlags::IN_NONBLOCK | InitFlags::IN_CLOEXEC).ok()?;
    let visits = AddWatchFlags::IN_OPEN | AddWatchFlags::IN_CLOSE;
    clients.add_watch(name, visits).ok()?;
    Some(clients)
}

/// How many bytes went over; none if that would have to wait.
fn ready(done: nix::Result<usize>) -> io::Result<usize> {
    match done {
        Ok(count) => Ok(count),
        Err(Errno::EAGAIN) | Err(Errno::EINTR) => Ok(0),
        Err(error) => Err(error.into()),
    }
}

impl Port {
    pub fn read(&self, buffer: &mut [u8]) -> io::Result<usize> {
        ready(nix::unistd::read(self.fd(), buffer))
    }

    pub fn write(&self, bytes: &[u8]) -> io::Result<usize> {
        ready(nix::unistd::write(self.fd(), bytes))
    }
}
