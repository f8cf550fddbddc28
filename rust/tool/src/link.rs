//! A slot's link: a name that stays the same, and leads to this stand-in's port or nowhere.

use crate::failure::{Explain, Failure, Outcome};
use crate::registry::{self, wait_for, Entry, DYING};
use crate::text::{shown, word};
use nix::libc;
use std::fs;
use std::io;
use std::os::unix::fs::symlink;
use std::path::{Path, PathBuf};

const NO_NAME: &str = "give a name in a folder that is there and may be written";

pub struct Link {
    path: PathBuf,
    target: PathBuf,
}

/// What stands in the place of a link.
enum Found {
    Nothing,
    /// A stand-in's link, whose owner is gone.
    Stale,
    /// A stand-in's link, and the number of its process.
    Owned(String),
    Other,
    /// It cannot be told.
    Unseen(io::Error),
}

fn look(path: &Path) -> Found {
    let target = match fs::read_link(path) {
        Ok(target) => target,
        Err(error) => {
            return match error.raw_os_error() {
                Some(libc::ENOENT) => Found::Nothing,
                Some(libc::EINVAL) => Found::Other, // it is no link
                _ => Found::Unseen(error),
            };
        }
    };
    match registry::entry_of(&target) {
        Some(entry) if registry::alive(&entry) => Found::Owned(registry::process_of(&entry)),
        Some(_) => Found::Stale,
        None => Found::Other,
    }
}

/// Waits for an owner that was just killed to be gone; not while others wait to start.
pub fn wait_for_the_dying(path: &Path) {
    wait_for(DYING, || !matches!(look(path), Found::Owned(_)));
}

/// Whether a link of this name may be made: there is none, or one whose owner is gone, which is taken away. Asked before a port is
/// opened, while no other stand-in starts.
pub fn clear(path: &Path) -> Outcome<()> {
    match look(path) {
        Found::Nothing => Ok(()),
        Found::Stale => fs::remove_file(path).explain(
            || format!("the stale link {} cannot be taken away", shown(path)),
            "remove it, or give another name",
        ),
        Found::Owned(process) => Err(Failure::new(
            format!(
                "the link {} belongs to a stand-in that is running, process {}",
                shown(path),
                process
            ),
            format!(
                "give another name, or end that one first: indraveck stop {}",
                word(path)
            ),
        )),
        Found::Other => Err(Failure::new(
            format!(
                "the link {} cannot be made: something is there that no stand-in made",
                shown(path)
            ),
            "give another name, or remove it; it was left as it is",
        )),
        Found::Unseen(error) => Err(error).explain(
            || format!("the link {} cannot be made", shown(path)),
            NO_NAME,
        ),
    }
}

impl Link {
    pub fn make(path: &Path, entry: &Entry) -> Outcome<Link> {
        let target = entry.port();
        symlink(&target, path).explain(
            || format!("the link {} cannot be made", shown(path)),
            NO_NAME,
        )?;
        Ok(Link {
            path: path.to_path_buf(),
            target,
        })
    }
}

impl Drop for Link {
    fn drop(&mut self) {
        // not one that somebody else put there since
        if fs::read_link(&self.path).map_or(false, |to| to == self.target) {
            let _ = fs::remove_file(&self.path);
        }
    }
}
