//! docs/ERRORS.md, run: each command there gets the error that stands under it, and no file changes.

mod common;

use common::{matches, root, Folder};
use std::collections::BTreeMap;
use std::fs;
use std::os::unix::ffi::OsStringExt;
use std::os::unix::fs::symlink;

fn document() -> String {
    fs::read_to_string(root().join("docs/ERRORS.md")).expect("the document")
}

/// A table's cell between two backquotes.
fn quoted(cell: &str) -> &str {
    cell.trim().trim_matches('`')
}

/// The profile files of the first table, made from the bench profile.
fn make_profiles(folder: &Folder, document: &str) -> usize {
    let bench = fs::read_to_string(folder.path("bench.toml")).expect("the bench profile");
    let rows = document.lines().filter_map(|line| line.strip_prefix("| "));
    let mut made = 0;
    for row in rows {
        let cells: Vec<&str> = row.trim_end_matches(" |").split(" | ").collect();
        if let [name, text, instead] = cells[..] {
            if !name.ends_with(".toml") {
                continue;
            }
            let (text, instead) = (quoted(text), quoted(instead));
            let profile = match text.strip_suffix("...") {
                Some(start) => {
                    let at = bench.find(start).expect("the text is in the bench profile");
                    format!("{}{}\n", &bench[..at], instead)
                }
                None => {
                    assert_eq!(bench.matches(text).count(), 1, "{} in bench.toml", text);
                    bench.replace(text, instead)
                }
            };
            folder.write(name, profile.as_bytes());
            made += 1;
        }
    }
    made
}

fn make_others(folder: &Folder) {
    let mut nine = String::from_utf8(folder.read("bench.toml")).expect("the bench profile");
    for i in 0..7 {
        nine += &format!(
            "\n[[area]]\nkind = \"data\"\nsad = 0x0200_0{}00\nead = 0x0200_0{}FF\neau = 0\nwau = 0\n",
            i, i
        );
    }
    folder.write("nine.toml", nine.as_bytes());
    folder.write("latin.toml", b"name = \"\xE9\"\n");
    make_odd_profiles(folder);
    folder.write("flash.bin", &common::pattern(65_792, 77));
    folder.write("short.bin", &[0xFF; 65_791]);
    folder.write("empty.bin", b"");
    folder.write("slot", b"");
    fs::create_dir(folder.path("folder")).expect("a folder");
    for (name, target) in [
        ("dangling", "/dev/pts/99999"),
        ("stale", "/tmp/indraveck-0/stand-in-0123456789abcdef/port"),
    ] {
        symlink(target, folder.path(name)).expect("a link");
    }
}

/// Profiles that no text of the table can make.
fn make_odd_profiles(folder: &Folder) {
    let bench = String::from_utf8(folder.read("bench.toml")).expect("the bench profile");
    let escape = bench.replacen('\n', " \u{1B}\n", 1);
    folder.write("escape.toml", escape.as_bytes());
    let comment = "#".repeat(65_537 - bench.len());
    folder.write("long.toml", (bench + &comment).as_bytes());
}

struct Case {
    command: Vec<String>,
    error: String,
    status: i32,
}

/// The blocks that start with a `$`.
fn cases(document: &str) -> Vec<Case> {
    let mut found: Vec<Case> = Vec::new();
    let mut open: Option<Case> = None;
    for line in document.lines() {
        let line = match line.strip_prefix("    ") {
            Some(line) => line,
            None => continue,
        };
        if let Some(command) = line.strip_prefix("$ indraveck") {
            assert!(open.is_none(), "no exit status before {:?}", line);
            open = Some(Case {
                command: command.split_whitespace().map(String::from).collect(),
                error: String::new(),
                status: 0,
            });
        } else if let Some(status) = line.strip_prefix("exit status ") {
            let mut case = open.take().expect("a command before its exit status");
            case.status = status.parse().expect("an exit status");
            found.push(case);
        } else {
            let case = open.as_mut().expect("a command before its error");
            case.error += line;
            case.error += "\n";
        }
    }
    found
}

/// Every file with its bytes, or where it leads.
fn contents(folder: &Folder) -> BTreeMap<String, Option<Vec<u8>>> {
    let entries = fs::read_dir(&folder.0).expect("the test's folder");
    entries
        .map(|entry| {
            let entry = entry.expect("an entry of the folder");
            let name = entry.file_name().to_string_lossy().into_owned();
            let target = fs::read_link(entry.path()).ok();
            let led_to = target.map(|target| target.into_os_string().into_vec());
            (name, led_to.or_else(|| fs::read(entry.path()).ok()))
        })
        .collect()
}

#[test]
fn every_error_of_the_document_is_given_and_nothing_is_lost() {
    let document = document();
    let folder = Folder::new();
    assert!(make_profiles(&folder, &document) >= 30);
    make_others(&folder);
    let before = contents(&folder);
    let cases = cases(&document);
    assert!(cases.len() >= 60, "only {} cases", cases.len());
    for case in &cases {
        let arguments: Vec<&str> = case.command.iter().map(String::as_str).collect();
        let output = folder.run(&arguments);
        let error = String::from_utf8_lossy(&output.stderr);
        assert!(case.status == 1 || case.status == 2);
        assert_eq!(
            output.status.code(),
            Some(case.status),
            "{:?}\n{}",
            arguments,
            error
        );
        assert!(
            matches(&case.error, &error),
            "{:?} says\n{}\ninstead of\n{}",
            arguments,
            error,
            case.error
        );
        assert_eq!(output.stdout, b"", "{:?}", arguments);
        assert!(
            contents(&folder) == before,
            "{:?} changed a file",
            arguments
        );
    }
}

#[test]
fn no_control_character_of_a_path_is_printed() {
    let folder = Folder::new();
    let bench = String::from_utf8(folder.read("bench.toml")).expect("the bench profile");
    let unacceptable = bench.replace("low = 0x0", "low = 0x1");
    for name in ["\u{1B}[2J.toml", "\u{202E}lmot.toml", "a\nb.toml"] {
        for (text, lines) in [(None, 2), (Some("x"), 2), (Some(unacceptable.as_str()), 3)] {
            if let Some(text) = text {
                folder.write(name, text.as_bytes());
            }
            let output = folder.run(&["profile", "check", name]);
            assert_eq!(output.status.code(), Some(1));
            let error = String::from_utf8(output.stderr).expect("text");
            assert!(error.contains("indraveck: the profile "), "{}", error);
            assert_eq!(error.lines().count(), lines, "{}", error);
            let is_hidden = |c: char| (c.is_control() && c != '\n') || c == '\u{202E}';
            assert!(!error.contains(is_hidden), "{:?}", error);
        }
    }
}

#[test]
fn the_comparison_notices_a_difference() {
    assert!(matches("a ... c", "a b c"));
    assert!(matches("a...", "a b c"));
    assert!(matches("a ... c", "a c b c"));
    assert!(matches("a...b...", "a c b c"));
    assert!(!matches("a...d...", "a c b c"));
    assert!(!matches("ab...b", "ab"));
    assert!(!matches("a ... c", "a b d"));
    assert!(!matches("a", "a b"));
    assert!(!matches("b", "a b"));
}

#[test]
fn no_control_character_of_a_command_line_is_printed() {
    let folder = Folder::new();
    let odd = "a\u{1B}[31mb\u{7}\nforged";
    let range = format!("0-{}", odd);
    let files = ["--profile", "bench.toml", "--image", "flash.bin"];
    for arguments in [
        vec![odd],
        vec!["--", odd],
        vec!["reset", odd],
        vec!["profile", "check", odd],
        [&["image", "show"], &files[..], &["--range", &range]].concat(),
        [&["image", "new"], &files[..], &["--id", odd]].concat(),
        [&["serve"], &files[..], &["--port-mode", odd]].concat(),
        [&["serve"], &files[..], &["--create", "--port-group", odd]].concat(),
        [
            &["serve"],
            &files[..],
            &["--create", "--log", &format!("nowhere/{}", odd)],
        ]
        .concat(),
        [
            &["serve"],
            &files[..],
            &["--create", "--link", &format!("nowhere/{}", odd)],
        ]
        .concat(),
    ] {
        let output = folder.run(&arguments);
        let error = String::from_utf8_lossy(&output.stderr).into_owned();
        assert!(matches!(output.status.code(), Some(1 | 2)), "{}", error);
        let raw = ["\u{1B}", "\u{7}", "\nforged"];
        assert!(!raw.iter().any(|raw| error.contains(raw)), "{:?}", error);
    }
}
