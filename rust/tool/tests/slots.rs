//! Slots: a link leads to its own stand-in or nowhere, whoever is killed and started.

mod common;

use common::{words, Client, Folder, Serving, AWAKE};
use nix::sys::signal::Signal;
use std::fs;
use std::os::unix::fs::symlink;
use std::path::{Path, PathBuf};

const SLOTS: usize = 16;
const ROUNDS: usize = 50;

fn serve(link: &str) -> Vec<&str> {
    let start = ["serve", "--profile", "bench.toml", "--image", "other.bin"];
    [&start[..], &["--create", "--link", link]].concat()
}

/// What `entry/port` and the link of a slot lead to in the end; none if nowhere.
fn led_to(link: &Path) -> Option<PathBuf> {
    fs::canonicalize(link).ok()
}

#[test]
fn a_killed_slot_is_not_met_under_another_ones_name() {
    let folder = Folder::new();
    let first = Serving::start(&folder, "first.bin", &["--link", "first"]);
    assert_eq!(led_to(&folder.path("first")), Some(first.port.clone()));
    assert_eq!(first.end(Signal::SIGKILL), None);
    // as a rule this one gets the same number
    let second = Serving::start(&folder, "second.bin", &["--link", "second"]);
    assert!(fs::symlink_metadata(folder.path("first")).is_ok());
    assert!(Client::try_open(&folder.path("first")).is_err());
    // by its own name, and while the other runs
    let first = Serving::start(&folder, "first.bin", &["--link", "first"]);
    assert_ne!(first.port, second.port);
    assert_eq!(led_to(&folder.path("first")), Some(first.port.clone()));
    assert_eq!(led_to(&folder.path("second")), Some(second.port.clone()));
}

/// Numbers that look random and are the same in every run.
struct Dice(u32);

impl Dice {
    fn below(&mut self, limit: usize) -> usize {
        self.0 = self.0.wrapping_mul(1_664_525).wrapping_add(1_013_904_223);
        (self.0 >> 8) as usize % limit
    }
}

/// The ID code that a slot's image has: a client that is let in by it has met that slot.
fn id_of(slot: usize) -> [u8; 16] {
    let mut id = [0xC0; 16];
    id[15] = slot as u8;
    id
}

fn meets(link: &Path, slot: usize) {
    let mut client = Client::open(link);
    client.wake_up();
    let answer = client.ask(&common::command(0x30, &id_of(slot)));
    assert_eq!(
        answer,
        [0x81, 0x00, 0x02, 0x30, 0x00, 0xCE, 0x03],
        "{:?} leads to another slot than {}",
        link,
        slot
    );
    assert_eq!(client.ask(&common::command(0x00, &[])), AWAKE);
}

fn start(folder: &Folder, slot: usize) -> Serving {
    let (image, link) = (format!("{}.bin", slot), format!("slot{}", slot));
    Serving::start(folder, &image, &["--link", &link])
}

#[test]
fn sixteen_slots_killed_and_restarted_in_any_order_keep_their_links() {
    let folder = Folder::new();
    let link = |slot: usize| folder.path(&format!("slot{}", slot));
    let mut running: Vec<Option<Serving>> = Vec::new();
    for slot in 0..SLOTS {
        let mut image = vec![0xFF; 65_792];
        image[0x1_0000..0x1_0010].copy_from_slice(&id_of(slot));
        folder.write(&format!("{}.bin", slot), &image);
        running.push(Some(start(&folder, slot)));
    }
    let mut dice = Dice(12);
    for _ in 0..ROUNDS {
        // some are killed, one at least; whoever is down may be started again, in an order of its own
        for _ in 0..1 + dice.below(4) {
            if let Some(killed) = running[dice.below(SLOTS)].take() {
                assert_eq!(killed.end(Signal::SIGKILL), None);
            }
        }
        let mut down: Vec<usize> = (0..SLOTS).filter(|slot| running[*slot].is_none()).collect();
        for _ in 0..dice.below(down.len() + 1) {
            let slot = down.swap_remove(dice.below(down.len()));
            running[slot] = Some(start(&folder, slot));
            meets(&link(slot), slot);
        }
        let ports: Vec<&PathBuf> = running.iter().flatten().map(|up| &up.port).collect();
        for slot in 0..SLOTS {
            match &running[slot] {
                Some(up) => assert_eq!(led_to(&link(slot)).as_ref(), Some(&up.port)),
                None => {
                    let met = led_to(&link(slot));
                    assert!(
                        met.iter().all(|port| !ports.contains(&port)),
                        "slot {} is down and leads to {:?}",
                        slot,
                        met
                    );
                }
            }
        }
    }
}

#[test]
fn a_link_of_a_running_stand_in_is_refused_to_another() {
    let folder = Folder::new();
    let serving = Serving::start(&folder, "flash.bin", &["--link", "slot"]);
    let refused = folder.run(&serve("slot"));
    assert_eq!(refused.status.code(), Some(1));
    let error = String::from_utf8_lossy(&refused.stderr);
    let expected = format!(
        "indraveck: the link slot belongs to a stand-in that is running, process {}\n  what to do: give another name, or end that one first: indraveck stop slot\n",
        serving.process()
    );
    // under an emulator the number is the emulator's, which is the same process
    assert_eq!(error, expected);
    assert_eq!(refused.stdout, b"");
    assert_eq!(led_to(&folder.path("slot")), Some(serving.port.clone()));
}

#[test]
fn what_no_stand_in_made_is_left_alone() {
    let folder = Folder::new();
    folder.write("slot", b"something else");
    symlink("/dev/pts/99999", folder.path("dangling")).expect("a link");
    symlink("/dev/null", folder.path("living")).expect("a link");
    for link in ["slot", "dangling", "living"] {
        let before = fs::read_link(folder.path(link)).ok();
        let refused = folder.run(&serve(link));
        assert_eq!(refused.status.code(), Some(1));
        let error = String::from_utf8_lossy(&refused.stderr);
        let wrong = format!("the link {} cannot be made", link);
        assert!(error.contains(&wrong), "{}", error);
        assert!(error.contains("it was left as it is"), "{}", error);
        // nothing was said to be a port
        assert_eq!(refused.stdout, b"");
        assert_eq!(fs::read_link(folder.path(link)).ok(), before);
    }
    assert_eq!(folder.read("slot"), b"something else");
}

#[test]
fn every_signal_that_ends_it_takes_the_link_away() {
    let folder = Folder::new();
    for signal in [
        Signal::SIGTERM,
        Signal::SIGINT,
        Signal::SIGHUP,
        Signal::SIGQUIT,
    ] {
        let serving = Serving::start(&folder, "flash.bin", &["--link", "slot"]);
        let entry = fs::read_link(folder.path("slot")).expect("the link");
        let entry = entry.parent().expect("its entry").to_path_buf();
        assert!(entry.exists());
        assert_eq!(serving.end(signal), Some(0), "{}", signal);
        assert!(fs::symlink_metadata(folder.path("slot")).is_err());
        assert!(!entry.exists());
        let log = words(&folder.read("flash.bin.log"));
        assert_eq!(
            log.last().map(String::as_str),
            Some("ended; 0 answers sent")
        );
    }
}

/// An entry that a stand-in of another account left behind cannot be taken away: its port's number is passed over.
#[test]
fn a_port_that_another_accounts_old_link_leads_to_is_passed_over() {
    let folder = Folder::new();
    let first = Serving::start(&folder, "flash.bin", &[]);
    let port = first.port.clone();
    assert_eq!(first.end(Signal::SIGTERM), Some(0));
    let other = Path::new("/tmp").join(format!("indraveck-other-{}", std::process::id()));
    let entry = other.join("stand-in-00112233445566ff");
    fs::create_dir_all(&entry).expect("an entry");
    fs::write(entry.join("owner"), b"1\n").expect("its owner");
    symlink(&port, entry.join("port")).expect("its port");
    let second = Serving::start(&folder, "flash.bin", &[]);
    let passed_over = second.port != port;
    fs::remove_dir_all(&other).expect("the entry's end");
    assert!(passed_over);
}
