//! Files that a command is given for different purposes.

use crate::failure::{Failure, Outcome};
use crate::text::shown;
use std::fs;
use std::os::unix::fs::MetadataExt;
use std::path::{Path, PathBuf};

/// Refuses one file for two purposes, before anything is written: a log in the image would be the end of the image.
pub fn apart(files: &[(&str, Option<&Path>)]) -> Outcome<()> {
    let given: Vec<(&str, &Path)> = files
        .iter()
        .filter_map(|(purpose, path)| path.map(|path| (*purpose, path)))
        .collect();
    for (i, (purpose, path)) in given.iter().enumerate() {
        for (other, place) in &given[..i] {
            if same(path, place) {
                return Err(Failure::new(
                    format!(
                        "{} is given for the {} and for the {}",
                        shown(path),
                        other,
                        purpose
                    ),
                    "give each its own file; it was left as it is",
                ));
            }
        }
    }
    Ok(())
}

/// By the place of the name, or by the file itself where both are there.
fn same(one: &Path, other: &Path) -> bool {
    let file = |path: &Path| fs::metadata(path).map(|file| (file.dev(), file.ino()));
    let both = (file(one).ok(), file(other).ok());
    place(one) == place(other) || matches!(both, (Some(a), Some(b)) if a == b)
}

/// A name in its folder, whatever way leads there.
fn place(path: &Path) -> PathBuf {
    let parent = match path.parent() {
        Some(parent) if parent != Path::new("") => parent,
        _ => Path::new("."),
    };
    let folder = fs::canonicalize(parent).unwrap_or_else(|_| parent.to_path_buf());
    folder.join(path.file_name().unwrap_or_default())
}
