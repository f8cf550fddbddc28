//! The command line.

use crate::number;
use clap::{Args, Parser, Subcommand};
use std::path::{Path, PathBuf};

/// A stand-in for a microcontroller in serial boot mode.
///
/// Exit status: 0 if what was asked was done, 1 if not (the error says what to do), 2 if the command line is wrong.
#[derive(Parser)]
#[command(name = "indraveck", version, max_term_width = 100)]
pub struct Cli {
    #[command(subcommand)]
    pub command: Command,
}

#[derive(Subcommand)]
pub enum Command {
    /// Open a pseudo-terminal, print its name, and answer on it like the device
    #[command(after_help = WHILE_IT_RUNS)]
    Serve(Serve),
    /// Reset the device of a running stand-in: what was sent before reaches it, then both queues are emptied, then it is fresh
    Reset(Slot),
    /// Say what a running stand-in is doing
    Status(Status),
    /// End a running stand-in; it is gone when this returns
    Stop(Slot),
    /// Answer the bytes on standard input with the replies on standard output
    Feed(Feed),
    /// Profile files
    #[command(subcommand)]
    Profile(Profiles),
    /// Image files
    #[command(subcommand)]
    Image(Images),
}

/// What a stand-in is made of.
#[derive(Args)]
pub struct Target {
    /// The profile file: what the device is
    #[arg(long, value_name = "FILE")]
    pub profile: PathBuf,
    /// The image file: the device's flash
    #[arg(long, value_name = "FILE")]
    pub image: PathBuf,
    /// Make a blank image if there is none
    #[arg(long)]
    pub create: bool,
}

/// Where the log goes, and how it is written.
#[derive(Args)]
pub struct Logging {
    /// Log each exchange in words, and why there was none: to FILE (added at its end), or without FILE, or with -, to standard error
    #[arg(long, value_name = "FILE", num_args = 0..=1)]
    log: Option<Option<PathBuf>>,
    /// Log one JSON object a line instead of words; to standard error unless --log says where
    #[arg(long)]
    pub log_json: bool,
}

impl Logging {
    /// None without a log; otherwise its file, or none for standard error.
    pub fn place(&self) -> Option<Option<&Path>> {
        match &self.log {
            Some(Some(file)) if file.as_os_str() == "-" => Some(None),
            Some(file) => Some(file.as_deref()),
            None if self.log_json => Some(None),
            None => None,
        }
    }
}

/// Who may open the port, and tell the stand-in what to do.
#[derive(Args)]
pub struct Access {
    /// The mode of the port, as 0660, for clients of other accounts
    #[arg(long, value_name = "MODE", value_parser = mode)]
    pub port_mode: Option<Mode>,
    /// The group of the port, by name or number
    #[arg(long, value_name = "GROUP")]
    pub port_group: Option<String>,
}

const WHILE_IT_RUNS: &str = "\
While it runs (SLOT is the name given by --link, or the port's):
  indraveck reset SLOT    reset the device; the flash stays
  indraveck status SLOT   say what it is doing
  indraveck stop SLOT     end it

SIGUSR1 resets the device too, and `reset` is printed when that is done.
Ctrl-C, SIGTERM, SIGHUP (but not under nohup) and SIGQUIT end it: exit status 0, the link is taken away.
What was answered OK is in the image file, also after kill -9; start again with the same --link to take the link over.";

#[derive(Args)]
pub struct Serve {
    #[command(flatten)]
    pub target: Target,
    /// Make a link to the port, for a name that stays the same, and take it away at the end
    #[arg(long, value_name = "SLOT")]
    pub link: Option<PathBuf>,
    #[command(flatten)]
    pub logging: Logging,
    /// Do not answer bytes that come at another rate than the device's line setting: they are noise, as on a wire
    #[arg(long)]
    pub strict_rate: bool,
    #[command(flatten)]
    pub access: Access,
}

#[derive(Args)]
pub struct Feed {
    #[command(flatten)]
    pub target: Target,
    #[command(flatten)]
    pub logging: Logging,
}

#[derive(Args)]
pub struct Slot {
    /// The link that `indraveck serve --link` made, or the port's name
    #[arg(value_name = "SLOT")]
    pub slot: PathBuf,
}

#[derive(Args)]
pub struct Status {
    #[command(flatten)]
    pub slot: Slot,
    /// Wait up to 10 seconds for a stand-in that is starting
    #[arg(long)]
    pub wait: bool,
}

#[derive(Subcommand)]
pub enum Profiles {
    /// Say whether a profile is acceptable, and which rules it breaks
    Check {
        /// The profile file
        #[arg(value_name = "FILE")]
        file: PathBuf,
    },
}

#[derive(Subcommand)]
pub enum Images {
    /// Make a blank image; a file that is there is never written over
    New(New),
    /// Show the areas with their blank and used parts and the stored ID, or a range in hexadecimal
    Show(Show),
}

#[derive(Args)]
pub struct New {
    /// The profile file that the image is for
    #[arg(long, value_name = "FILE")]
    pub profile: PathBuf,
    /// The image file to make
    #[arg(long, value_name = "FILE")]
    pub image: PathBuf,
    /// An ID code to store, as 32 hexadecimal digits; blanks may stand between them
    #[arg(long, value_name = "HEX", value_parser = id_code)]
    pub id: Option<IdCode>,
}

#[derive(Args)]
pub struct Show {
    /// The profile file that the image is for
    #[arg(long, value_name = "FILE")]
    pub profile: PathBuf,
    /// The image file
    #[arg(long, value_name = "FILE")]
    pub image: PathBuf,
    /// Addresses, both inclusive, as 0x4000-0x40FF or 00004000h-000040FFh
    #[arg(long, value_name = "FIRST-LAST", value_parser = range)]
    pub range: Option<Range>,
}

#[derive(Clone, Copy, Debug, PartialEq, Eq)]
pub struct Range {
    pub first: u32,
    pub last: u32,
}

fn range(text: &str) -> Result<Range, String> {
    let (first, last) = text
        .split_once('-')
        .or_else(|| text.split_once(" to "))
        .ok_or("write it as FIRST-LAST, for instance 0x4000-0x40FF")?;
    let range = Range {
        first: number::parse(first)?,
        last: number::parse(last)?,
    };
    if range.last < range.first {
        return Err("the last address lies below the first".to_string());
    }
    Ok(range)
}

#[derive(Clone, Copy, Debug, PartialEq, Eq)]
pub struct IdCode(pub [u8; 16]);

fn id_code(text: &str) -> Result<IdCode, String> {
    let wrong = || "an ID code is 32 hexadecimal digits".to_string();
    let digits: Vec<u8> = text
        .chars()
        .filter(|character| *character != ' ')
        .map(|character| character.to_digit(16).map(|digit| digit as u8))
        .collect::<Option<Vec<u8>>>()
        .ok_or_else(wrong)?;
    if digits.len() != 32 {
        return Err(wrong());
    }
    let mut id = [0; 16];
    for (byte, pair) in id.iter_mut().zip(digits.chunks(2)) {
        *byte = 16 * pair[0] + pair[1];
    }
    Ok(IdCode(id))
}

#[derive(Clone, Copy, Debug, PartialEq, Eq)]
pub struct Mode(pub u32);

fn mode(text: &str) -> Result<Mode, String> {
    let octal = !text.is_empty() && text.bytes().all(|digit| (b'0'..=b'7').contains(&digit));
    match u32::from_str_radix(text, 8) {
        Ok(mode) if octal && mode <= 0o777 => Ok(Mode(mode)),
        _ => Err("a mode is up to 0777 in octal digits, for instance 0660".to_string()),
    }
}

#[cfg(test)]
mod tests {
    use super::*;
    use clap::CommandFactory;

    #[test]
    fn the_command_line_is_put_together_soundly() {
        Cli::command().debug_assert();
    }

    #[test]
    fn ranges_and_ids_are_read_strictly() {
        let both = Range {
            first: 0x4000,
            last: 0x40FF,
        };
        assert_eq!(range("0x4000-0x40FF"), Ok(both));
        assert_eq!(range("00004000h-000040FFh"), Ok(both));
        assert_eq!(range("00004000h to 000040FFH"), Ok(both));
        assert_eq!(range("16,384-16639"), Ok(both));
        assert!(range("0x4000").is_err());
        assert!(range("0x4001-0x4000").is_err());
        let counted: Vec<u8> = (0..16).collect();
        assert_eq!(
            id_code("000102030405060708090a0b0c0D0E0F").map(|id| id.0.to_vec()),
            Ok(counted.clone())
        );
        // as `image show` prints it
        assert_eq!(
            id_code("00 01 02 03 04 05 06 07 08 09 0A 0B 0C 0D 0E 0F").map(|id| id.0.to_vec()),
            Ok(counted)
        );
        for wrong in [
            "",
            "00",
            "0x0102030405060708090a0b0c0d0e0f",
            "+1+1+1+1+1+1+1+1+1+1+1+1+1+1+1+1",
        ] {
            assert!(id_code(wrong).is_err(), "{} was read", wrong);
        }
    }

    #[test]
    fn modes_are_octal() {
        assert_eq!(mode("0660"), Ok(Mode(0o660)));
        assert_eq!(mode("777"), Ok(Mode(0o777)));
        for wrong in ["", "0888", "1777", "+7", "rw", "0x1F"] {
            assert!(mode(wrong).is_err(), "{} was read", wrong);
        }
    }
}
