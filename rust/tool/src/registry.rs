//! The folder where the running stand-ins of an account are found.
//!
//! Each has an entry there: `owner`, a file that it keeps locked as long as it lives, `port`, a link to its pseudo-terminal, and
//! `control`, the socket that it takes wishes on. A slot's link leads to the entry's `port` and not to the pseudo-terminal itself, whose
//! number another program may have later: an entry whose owner is gone is taken away before a stand-in opens a port of the same
//! number, so a link that was left behind leads nowhere.

use crate::failure::{Explain, Failure, Outcome};
use crate::text::shown;
use nix::errno::Errno;
use nix::fcntl::{flock, FlockArg};
use nix::unistd::geteuid;
use std::fs::{self, DirBuilder, File, OpenOptions, Permissions};
use std::io::{self, Read, Write};
use std::os::unix::fs::{symlink, DirBuilderExt, MetadataExt, OpenOptionsExt, PermissionsExt};
use std::os::unix::io::AsRawFd;
use std::path::{Path, PathBuf};
use std::thread::sleep;
use std::time::{Duration, Instant};

const SHARED: &str = "/tmp";
const FOLDER: &str = "indraveck-";
const ENTRY: &str = "stand-in-";
const TOKEN_DIGITS: usize = 16;
const NO_ROOM: &str = "see that /tmp may be written, and that the tool may open more files";

/// How long another stand-in may take to start.
const STARTING: Duration = Duration::from_secs(20);
/// How long one that was killed may take to be gone.
pub const DYING: Duration = Duration::from_secs(1);

pub struct Registry {
    folder: PathBuf,
}

/// One stand-in starts at a time.
pub struct Alone(#[allow(dead_code)] File);

impl Registry {
    pub fn open() -> Outcome<Registry> {
        let folder = Path::new(SHARED).join(format!("{}{}", FOLDER, geteuid()));
        let doing = || format!("the folder {} cannot be used", shown(&folder));
        match make_folder(&folder) {
            Err(error) if error.kind() != io::ErrorKind::AlreadyExists => {
                return Err(error).explain(doing, NO_ROOM)
            }
            _ => {}
        }
        // /tmp is everybody's: only a folder of our own is trusted
        let there = fs::symlink_metadata(&folder).explain(doing, NO_ROOM)?;
        if !there.is_dir() || there.uid() != geteuid().as_raw() || there.mode() & 0o022 != 0 {
            return Err(Failure::new(
                format!(
                    "{} is no folder of this account's that only it may write to",
                    shown(&folder)
                ),
                "remove it, or have it removed; no other place will do, since all stand-ins have to find each other",
            ));
        }
        Ok(Registry { folder })
    }

    /// Waits until no other stand-in of this account is starting.
    pub fn alone(&self) -> Outcome<Alone> {
        let path = self.folder.join("lock");
        let file = OpenOptions::new()
            .write(true)
            .create(true)
            .mode(0o600)
            .open(&path)
            .explain(|| format!("{} cannot be opened", shown(&path)), NO_ROOM)?;
        if wait_for(STARTING, || lock(&file, FlockArg::LockExclusiveNonblock)) {
            return Ok(Alone(file));
        }
        Err(Failure::new(
            format!("another stand-in holds {} and does not go on", shown(&path)),
            "end a stand-in that was stopped while it started, and try again",
        ))
    }

    fn entries(&self) -> Vec<PathBuf> {
        entries_of(&self.folder)
    }

    /// An entry of its own for this process.
    pub fn enter(&self) -> Outcome<Entry> {
        let doing = || format!("this stand-in cannot be entered in {}", shown(&self.folder));
        let folder = self
            .folder
            .join(format!("{}{}", ENTRY, token().explain(doing, NO_ROOM)?));
        make_folder(&folder).explain(doing, NO_ROOM)?;
        let entry = Entry::own(folder).explain(doing, NO_ROOM)?;
        Ok(entry)
    }

    /// Takes away what stand-ins that are gone have left. `port` is held by this process, so that no entry but this one's can have
    /// it: one whose owner is only just dying is waited for.
    pub fn sweep(&self, own: &Entry, port: &Path) {
        for entry in self.entries() {
            if entry == own.folder {
                continue;
            }
            let leads_here = leads_to(&entry, port);
            let patience = if leads_here { DYING } else { Duration::ZERO };
            if wait_for(patience, || !alive(&entry)) {
                remove(&entry);
            }
        }
    }

    /// Whether a stand-in of another account left an entry that leads to this port: it cannot be taken away from here.
    pub fn haunted(&self, port: &Path) -> bool {
        let shared = match fs::read_dir(SHARED) {
            Ok(shared) => shared,
            Err(_) => return false,
        };
        shared
            .flatten()
            .filter(|folder| folder.file_name().to_string_lossy().starts_with(FOLDER))
            .filter(|folder| folder.path() != self.folder)
            .flat_map(|folder| entries_of(&folder.path()))
            .any(|entry| leads_to(&entry, port) && !alive(&entry))
    }

    /// The entry of a stand-in on this port.
    pub fn on_port(&self, port: &Path) -> Option<PathBuf> {
        self.entries()
            .into_iter()
            .find(|entry| leads_to(entry, port) && alive(entry))
    }
}

fn make_folder(path: &Path) -> io::Result<()> {
    DirBuilder::new().mode(0o755).create(path)?;
    // whatever the umask is: other accounts may have to follow a link through it
    fs::set_permissions(path, Permissions::from_mode(0o755))
}

/// Digits that no other entry has, also not one of long ago that a link may still name.
fn token() -> io::Result<String> {
    let mut bytes = [0; TOKEN_DIGITS / 2];
    File::open("/dev/urandom")?.read_exact(&mut bytes)?;
    Ok(bytes.iter().map(|byte| format!("{:02x}", byte)).collect())
}

fn entries_of(folder: &Path) -> Vec<PathBuf> {
    let found = fs::read_dir(folder).map(|entries| {
        entries
            .flatten()
            .map(|entry| entry.path())
            .filter(|path| is_entry(path))
            .collect()
    });
    found.unwrap_or_default()
}

fn is_entry(path: &Path) -> bool {
    let name = path.file_name().unwrap_or_default().to_string_lossy();
    match name.strip_prefix(ENTRY) {
        Some(token) => {
            token.len() == TOKEN_DIGITS && token.bytes().all(|digit| digit.is_ascii_hexdigit())
        }
        None => false,
    }
}

/// The entry that a link leads to, if it is a stand-in's link: no other program makes links to such a name.
pub fn entry_of(target: &Path) -> Option<PathBuf> {
    let folder = target.parent()?;
    let ours = target.is_absolute() && target.ends_with("port") && is_entry(folder);
    ours.then(|| folder.to_path_buf())
}

fn leads_to(entry: &Path, port: &Path) -> bool {
    fs::read_link(entry.join("port")).map_or(false, |target| target == port)
}

/// Whether the owner of an entry lives: it holds a lock.
pub fn alive(entry: &Path) -> bool {
    match File::open(entry.join("owner")) {
        Ok(owner) => !lock(&owner, FlockArg::LockSharedNonblock),
        Err(error) => error.kind() != io::ErrorKind::NotFound,
    }
}

/// The number of the process that made an entry.
pub fn process_of(entry: &Path) -> String {
    let number = fs::read_to_string(entry.join("owner")).unwrap_or_default();
    match number.trim() {
        "" => "unknown".to_string(),
        number => number.to_string(),
    }
}

fn lock(file: &File, how: FlockArg) -> bool {
    loop {
        match flock(file.as_raw_fd(), how) {
            Ok(()) => return true,
            Err(Errno::EINTR) => {}
            Err(_) => return false,
        }
    }
}

/// Tries until it holds, for so long.
pub fn wait_for(time: Duration, mut holds: impl FnMut() -> bool) -> bool {
    let until = Instant::now() + time;
    loop {
        if holds() {
            return true;
        }
        if Instant::now() >= until {
            return false;
        }
        sleep(Duration::from_millis(2));
    }
}

fn remove(entry: &Path) {
    for name in ["port", "control", "owner"] {
        let _ = fs::remove_file(entry.join(name));
    }
    let _ = fs::remove_dir(entry);
}

/// This stand-in's entry; taken away at the end.
pub struct Entry {
    folder: PathBuf,
    // locked as long as the process lives
    _owner: File,
    // locked too, which keeps programs that tidy up /tmp away from an old entry
    _held: File,
}

impl Entry {
    fn own(folder: PathBuf) -> io::Result<Entry> {
        let mut owner = OpenOptions::new()
            .write(true)
            .create_new(true)
            .mode(0o644)
            .open(folder.join("owner"))?;
        if !lock(&owner, FlockArg::LockExclusiveNonblock) {
            return Err(io::Error::last_os_error());
        }
        writeln!(owner, "{}", std::process::id())?;
        let held = File::open(&folder)?;
        lock(&held, FlockArg::LockSharedNonblock);
        Ok(Entry {
            folder,
            _owner: owner,
            _held: held,
        })
    }

    /// Where a slot's link leads.
    pub fn port(&self) -> PathBuf {
        self.folder.join("port")
    }

    pub fn control(&self) -> PathBuf {
        control_of(&self.folder)
    }

    pub fn lead_to(&self, port: &Path) -> Outcome<()> {
        symlink(port, self.port())
            .explain(|| format!("{} cannot be made", shown(self.port())), NO_ROOM)
    }
}

pub fn control_of(entry: &Path) -> PathBuf {
    entry.join("control")
}

impl Drop for Entry {
    fn drop(&mut self) {
        remove(&self.folder);
    }
}
