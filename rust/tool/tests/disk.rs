//! Disks without room: a clear error, and no image lost or left half made.

mod common;

use common::{tool, Disk, Folder};
use std::fs::{self, File};
use std::process::{Command, Output};

/// The words that start the tool, for a shell.
fn words() -> String {
    let command = tool();
    let mut words = vec![command.get_program().to_string_lossy().into_owned()];
    words.extend(
        command
            .get_args()
            .map(|word| word.to_string_lossy().into_owned()),
    );
    words.join(" ")
}

fn shell(folder: &Folder, script: &str) -> Output {
    Command::new("sh")
        .args(["-c", script])
        .current_dir(&folder.0)
        .output()
        .expect("a shell")
}

/// Files may have 16 KB here, a quarter of the image.
#[test]
fn an_image_that_cannot_be_written_whole_is_not_left_behind() {
    let folder = Folder::new();
    let script = format!(
        "ulimit -f 32; trap '' XFSZ; exec {} image new --profile bench.toml --image flash.bin",
        words()
    );
    let output = shell(&folder, &script);
    assert_eq!(output.status.code(), Some(1));
    let error = String::from_utf8_lossy(&output.stderr);
    assert!(
        error.starts_with("indraveck: the image flash.bin cannot be written: "),
        "{}",
        error
    );
    assert!(
        error.contains("what to do: free some space on that disk"),
        "{}",
        error
    );
    assert!(!folder.path("flash.bin").exists());
}

/// An image with holes needs room when it is written: that is made sure of before the first answer, not found out by a write.
#[test]
fn a_full_disk_is_found_before_the_first_answer() {
    let folder = Folder::new();
    let place = folder.path("disk");
    let _disk = match Disk::mount(&place, "96k") {
        Some(disk) => disk,
        None => {
            println!("no disk can be mounted here: this part needs root");
            return;
        }
    };
    fs::write(place.join("other"), vec![0x11; 60_000]).expect("another file");
    let image = File::create(place.join("flash.bin")).expect("an image");
    image.set_len(65_792).expect("an image with holes");
    for arguments in [
        &[
            "serve",
            "--profile",
            "bench.toml",
            "--image",
            "disk/flash.bin",
        ][..],
        &[
            "image",
            "new",
            "--profile",
            "bench.toml",
            "--image",
            "disk/new.bin",
        ],
    ] {
        let output = folder.run(arguments);
        let error = String::from_utf8_lossy(&output.stderr);
        assert_eq!(output.status.code(), Some(1), "{}", error);
        assert!(error.contains("No space left on device"), "{}", error);
        assert!(error.contains("what to do: free some space"), "{}", error);
        assert_eq!(output.stdout, b"");
    }
    assert!(!place.join("new.bin").exists());
    assert_eq!(
        fs::metadata(place.join("flash.bin"))
            .expect("the image")
            .len(),
        65_792
    );
    assert_eq!(
        fs::read(place.join("other")).expect("the other"),
        vec![0x11; 60_000]
    );
}
