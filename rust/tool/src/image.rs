//! Image files: the device's flash on disk.

use crate::failure::{Explain, Failure, Outcome};
use crate::number;
use crate::profile_file::Named;
use crate::registry::{wait_for, DYING};
use crate::text::shown;
use memmap2::MmapMut;
use nix::errno::Errno;
use nix::fcntl::{flock, posix_fallocate, FlockArg};
use nix::sys::inotify::{AddWatchFlags, InitFlags, Inotify};
use std::fs::{self, File, OpenOptions};
use std::io::{self, Read, Write};
use std::os::unix::fs::MetadataExt;
use std::os::unix::io::AsRawFd;
use std::path::{Path, PathBuf};

const BLANK: u8 = 0xFF;
const FULL: &str =
    "free some space on that disk and try again; no image that was there has been changed";

/// An image file, mapped: what is stored in it is in the file, for every program that reads it.
pub struct ImageFile {
    map: MmapMut,
    path: PathBuf,
    // keeps the lock
    file: File,
    /// Tells of writes by other programs; those into the mapping are this one's, and are not told.
    writes: Option<Inotify>,
}

impl ImageFile {
    /// Opens the image for one stand-in alone. Its length has to be the profile's, and its space on the disk is made sure of
    /// now, so that no write into it can find the disk full later.
    pub fn open(path: &Path, named: &Named) -> Outcome<ImageFile> {
        let file = OpenOptions::new()
            .read(true)
            .write(true)
            .open(path)
            .explain(
                || format!("the image {} cannot be opened", shown(path)),
                "give an image file that may be read and written; a blank one is made by `indraveck image new`, or by `--create` here",
            )?;
        lock(&file, path)?;
        let length = file
            .metadata()
            .explain(
                || format!("the length of {} cannot be read", shown(path)),
                "look at the disk it is on",
            )?
            .len();
        check_length(path, length, named)?;
        allocate(&file, length).explain(
            || format!("there is no room for the image {}", shown(path)),
            FULL,
        )?;
        // The lock keeps other stand-ins out; a program that cuts the file short while it is mapped ends this one (see signals).
        let map = unsafe { MmapMut::map_mut(&file) }.explain(
            || format!("the image {} cannot be mapped", shown(path)),
            "keep images on a disk of this machine, as plain files",
        )?;
        Ok(ImageFile {
            map,
            path: path.to_path_buf(),
            file,
            writes: watch(path),
        })
    }

    /// Whether it is still the file of its name, with all its bytes: what is stored in a file without a name is lost.
    pub fn check(&self) -> Outcome<()> {
        let length = self.map.len() as u64;
        let wrong = match (self.file.metadata(), fs::metadata(&self.path)) {
            (Ok(held), _) if held.len() < length => "was cut short by another program",
            (Ok(held), _) if held.len() > length => "was made longer by another program",
            (Ok(held), Ok(named)) if (held.dev(), held.ino()) == (named.dev(), named.ino()) => {
                if !self.was_written() {
                    return Ok(());
                }
                "was written by another program"
            }
            (_, Ok(_)) => "was replaced by another program",
            (_, Err(_)) => "was removed or renamed by another program",
        };
        Err(Failure::new(
            format!("the image {} {} while it was in use", shown(&self.path), wrong),
            "put it back and start again; the last request was not answered, so do not count it as done",
        ))
    }

    /// Whether the system will tell if another program writes into it.
    pub fn is_watched(&self) -> bool {
        self.writes.is_some()
    }

    fn was_written(&self) -> bool {
        let events = self.writes.as_ref().map(|writes| writes.read_events());
        matches!(events, Some(Ok(events)) if !events.is_empty())
    }

    /// Waits until what was stored is on the disk.
    pub fn sync(&self) -> Outcome<()> {
        self.map.flush().explain(
            || format!("the image {} could not be written", shown(&self.path)),
            "look at its disk; the answer to the last request was not sent, so do not count it as done",
        )
    }
}

impl AsRef<[u8]> for ImageFile {
    fn as_ref(&self) -> &[u8] {
        &self.map
    }
}

impl AsMut<[u8]> for ImageFile {
    fn as_mut(&mut self) -> &mut [u8] {
        &mut self.map
    }
}

fn watch(path: &Path) -> Option<Inotify> {
    let writes = Inotify::init(InitFlags::IN_NONBLOCK | InitFlags::IN_CLOEXEC).ok()?;
    writes.add_watch(path, AddWatchFlags::IN_MODIFY).ok()?;
    Some(writes)
}

/// One stand-in at a time; one that was just killed is waited for.
fn lock(file: &File, path: &Path) -> Outcome<()> {
    let mut locked = Ok(());
    wait_for(DYING, || {
        locked = flock(file.as_raw_fd(), FlockArg::LockExclusiveNonblock);
        locked != Err(Errno::EWOULDBLOCK)
    });
    match locked {
        Ok(()) => Ok(()),
        Err(Errno::EWOULDBLOCK) => Err(Failure::new(
            format!("the image {} is in use by another stand-in", shown(path)),
            "end that one first, or give each its own image",
        )),
        Err(error) => Err(error).explain(
            || format!("the image {} cannot be locked", shown(path)),
            "keep images on a disk of this machine",
        ),
    }
}

/// A file with holes gets its blocks.
fn allocate(file: &File, length: u64) -> io::Result<()> {
    match posix_fallocate(file.as_raw_fd(), 0, length as i64) {
        // some disks cannot be asked
        Ok(()) | Err(Errno::EOPNOTSUPP) | Err(Errno::EINVAL) => Ok(()),
        Err(error) => Err(error.into()),
    }
}

/// The bytes of an image, to look at: another program may be serving it.
pub fn read(path: &Path, named: &Named) -> Outcome<Vec<u8>> {
    let length = fs::metadata(path)
        .explain(
            || format!("the image {} cannot be read", shown(path)),
            "give the path of an image file; a blank one is made by `indraveck image new`",
        )?
        .len();
    check_length(path, length, named)?;
    let mut bytes = Vec::new();
    // no more than it should have, whatever becomes of the file meanwhile
    File::open(path)
        .and_then(|file| file.take(length + 1).read_to_end(&mut bytes))
        .explain(
            || format!("the image {} cannot be read", shown(path)),
            "give an image file that may be read",
        )?;
    check_length(path, bytes.len() as u64, named)?;
    Ok(bytes)
}

fn check_length(path: &Path, length: u64, named: &Named) -> Outcome<()> {
    let total = named.profile.total();
    if length == total {
        return Ok(());
    }
    Err(Failure::new(
        format!(
            "the image {} has {}, and the areas of the profile {} have {} together",
            shown(path),
            number::bytes(length),
            named.name,
            number::bytes(total)
        ),
        "give the image that belongs to this profile; it was left as it is",
    ))
}

/// Makes a blank image, with an ID code in its config area if one is given. A file that is there is never written over.
pub fn create(path: &Path, named: &Named, id: Option<[u8; 16]>) -> Outcome<()> {
    let mut bytes = vec![BLANK; named.profile.total() as usize];
    if let Some(id) = id {
        let at = named.profile.id_place();
        bytes[at..at + id.len()].copy_from_slice(&id);
    }
    let mut file = OpenOptions::new()
        .write(true)
        .create_new(true)
        .open(path)
        .map_err(|error| {
            let advice = if error.kind() == io::ErrorKind::AlreadyExists {
                "give another name, or move that file away; it was left as it is"
            } else {
                "give a path in a folder that is there and may be written"
            };
            Failure::new(
                format!("the image {} cannot be made: {}", shown(path), error),
                advice,
            )
        })?;
    file.write_all(&bytes)
        .and_then(|()| file.sync_all())
        .map_err(|error| {
            // half an image would only be in the way
            let _ = fs::remove_file(path);
            Failure::new(
                format!("the image {} cannot be written: {}", shown(path), error),
                FULL,
            )
        })
}
