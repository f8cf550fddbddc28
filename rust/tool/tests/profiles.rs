//! The profile files that come along are accepted, and have the images that their table says.

mod common;

use common::{root, Folder};
use std::fs;

/// File and image length, out of the table's rows `| [name](name) | areas | N bytes | from |`.
fn listed() -> Vec<(String, String)> {
    let readme = fs::read_to_string(root().join("profiles/README.md")).expect("the table");
    let rows = readme.lines().filter_map(|line| line.strip_prefix("| ["));
    rows.map(|row| {
        let (name, rest) = row.split_once(']').expect("a name");
        let bytes = rest.split(" | ").nth(2).expect("an image length");
        (name.to_string(), bytes.to_string())
    })
    .collect()
}

#[test]
fn every_profile_is_listed_and_accepted() {
    let listed = listed();
    let mut files: Vec<String> = fs::read_dir(root().join("profiles"))
        .expect("the profiles")
        .map(|entry| {
            entry
                .expect("an entry")
                .file_name()
                .to_string_lossy()
                .into_owned()
        })
        .filter(|name| name.ends_with(".toml"))
        .collect();
    files.sort();
    let mut names: Vec<String> = listed.iter().map(|(name, _)| name.clone()).collect();
    names.sort();
    assert_eq!(files, names);
    let folder = Folder::new();
    for (name, bytes) in &listed {
        let path = root().join("profiles").join(name);
        let path = path.to_str().expect("a path in words");
        let output = folder.run(&["profile", "check", path]);
        let text = String::from_utf8_lossy(&output.stdout);
        assert_eq!(
            output.status.code(),
            Some(0),
            "{}",
            String::from_utf8_lossy(&output.stderr)
        );
        let last = text.lines().last().expect("some lines");
        assert_eq!(last.trim(), format!("an image has {}", bytes), "{}", name);
        // and a device starts with it: the wake-up is answered
        let image = format!("{}.bin", name);
        let fed = folder.run_with(
            &["feed", "--profile", path, "--image", &image, "--create"],
            &[0x00, 0x00, 0x55],
        );
        assert_eq!(
            fed.stdout,
            [0x00, 0xC3],
            "{}",
            String::from_utf8_lossy(&fed.stderr)
        );
    }
}
