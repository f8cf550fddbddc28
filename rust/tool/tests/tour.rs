//! README's tour, run: its commands are taken from the README itself, pasted one behind the other into one shell, and what they print is
//! compared with the lines under them.

mod common;

use common::{matches, root, Folder};
use std::fs;
use std::os::unix::fs::symlink;
use std::process::{Command, Stdio};

struct Step {
    command: String,
    printed: String,
}

impl Step {
    fn in_background(&self) -> bool {
        self.command.ends_with('&')
    }
}

/// The indented lines of the section: commands behind a `$`, and what each prints.
fn steps(readme: &str) -> Vec<Step> {
    let (_, tour) = readme.split_once("\n## A tour").expect("a tour");
    let (tour, _) = tour.split_once("\n## ").expect("its end");
    let mut steps: Vec<Step> = Vec::new();
    for line in tour.lines() {
        let line = match line.strip_prefix("    ") {
            Some(line) => line,
            None => continue,
        };
        if let Some(command) = line.strip_prefix("$ ") {
            steps.push(Step {
                command: command.to_string(),
                printed: String::new(),
            });
        } else {
            let step = steps.last_mut().expect("a command before what it prints");
            step.printed += line;
            step.printed += "\n";
        }
    }
    steps
}

/// One shell for all of them; what each prints, and its exit status, go into files. A command sees the exit status of the one before it.
const PASTE: &str = r#"
i=0
while [ -e command.$i ]; do
    (exit ${status:-0})
    eval "$(cat command.$i)" >printed.$i 2>&1
    status=$?
    echo $status >status.$i
    i=$((i + 1))
done
kill $(jobs -p) 2>/dev/null
wait
"#;

#[test]
fn the_tour_of_the_readme_goes_as_it_says() {
    let readme = fs::read_to_string(root().join("README.md")).expect("the README");
    let steps = steps(&readme);
    assert!(steps.len() >= 20, "only {} commands", steps.len());
    let folder = Folder::new();
    for name in ["indraveck", "examples", "profiles"] {
        symlink(root().join(name), folder.path(name)).expect("a link");
    }
    for (i, step) in steps.iter().enumerate() {
        folder.write(&format!("command.{}", i), step.command.as_bytes());
    }
    let shell = Command::new("bash")
        .args(["-c", PASTE])
        .current_dir(&folder.0)
        .stdin(Stdio::null())
        .status()
        .expect("a shell");
    assert!(shell.code().is_some());
    for (i, step) in steps.iter().enumerate() {
        let printed = String::from_utf8(folder.read(&format!("printed.{}", i))).expect("words");
        let status = folder.read(&format!("status.{}", i));
        assert_eq!(status, b"0\n", "{}\n{}", step.command, printed);
        // what is in the background may say more later
        let expected = if step.in_background() {
            format!("{}...", step.printed)
        } else {
            step.printed.clone()
        };
        assert!(
            matches(&expected, &printed),
            "{}\nprints\n{}\nand the README says\n{}",
            step.command,
            printed,
            step.printed
        );
    }
}

#[test]
fn a_tour_is_taken_apart_into_commands_and_what_they_print() {
    let readme = "x\n## A tour\n\n    $ one\n    two\n    ...\n\nwords\n\n    $ three &\n\n## Else\n    $ four\n";
    let steps = steps(readme);
    let taken: Vec<(&str, &str)> = steps
        .iter()
        .map(|step| (&step.command[..], &step.printed[..]))
        .collect();
    assert_eq!(taken, [("one", "two\n...\n"), ("three &", "")]);
    assert!(!steps[0].in_background() && steps[1].in_background());
}
