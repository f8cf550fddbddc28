//! `indraveck profile check` and `indraveck image show`: what there is, in words.

use crate::cli::{Range, Show};
use crate::failure::{Failure, Outcome};
use crate::image;
use crate::number::{address, bytes, grouped, hex};
use crate::print;
use crate::profile_file::{self, Named};
use crate::words;
use indraveck::{Area, Kind, Profile};
use std::path::Path;

pub fn check(path: &Path) -> Outcome<()> {
    let named = profile_file::accepted(path)?;
    let mut text = format!("the profile {} is acceptable\n", named.name);
    text += &format!(
        "  SCI {}, RMB {}, type {:02X}h, boot firmware {}\n",
        grouped(named.profile.sci.into()),
        grouped(named.profile.rmb.into()),
        named.profile.typ,
        words::bfv((named.profile.bfv >> 8) as u8, named.profile.bfv as u8)
    );
    text += &format!("  {}\n", window(&named.profile));
    for (number, area) in named.profile.areas.iter().enumerate() {
        text += &format!("  area {}: {}\n", number, describe(area));
    }
    text += &format!("  an image has {}\n", bytes(named.profile.total()));
    print::all(&text)
}

fn window(profile: &Profile) -> String {
    if profile.low == profile.high {
        "no window: all of the user areas can be erased and written".to_string()
    } else {
        format!(
            "window: user areas can be erased and written from {} to below {}",
            address(profile.low),
            address(profile.high)
        )
    }
}

fn kind(area: &Area) -> &'static str {
    match area.kind {
        Kind::User => "user",
        Kind::Data => "data",
        Kind::Config => "config",
    }
}

fn unit(name: &str, size: u32) -> String {
    if size == 0 {
        format!("cannot be {}", name)
    } else {
        format!("{} by {}", name, bytes(size.into()))
    }
}

fn describe(area: &Area) -> String {
    format!(
        "{}, {} to {} ({}), {}, {}",
        kind(area),
        address(area.sad),
        address(area.ead),
        bytes(area.size()),
        unit("erased", area.eau),
        unit("written", area.wau)
    )
}

pub fn show(arguments: &Show) -> Outcome<()> {
    let named = profile_file::accepted(&arguments.profile)?;
    let flash = image::read(&arguments.image, &named)?;
    print::all(&match &arguments.range {
        Some(range) => part(&named, &flash, range)?,
        None => areas(&named.profile, &flash) + &id(&named.profile, &flash),
    })
}

/// A stretch of bytes that are all blank, or none of whose sixteens is.
struct Stretch {
    used: bool,
    from: usize,
    to: usize,
}

/// The blank and used parts, by lines of sixteen bytes.
fn stretches(part: &[u8]) -> Vec<Stretch> {
    let mut found: Vec<Stretch> = Vec::new();
    for (number, sixteen) in part.chunks(16).enumerate() {
        let used = sixteen.iter().any(|byte| *byte != 0xFF);
        let from = number * 16;
        let to = from + sixteen.len();
        match found.last_mut() {
            Some(last) if last.used == used => last.to = to,
            _ => found.push(Stretch { used, from, to }),
        }
    }
    found
}

const MOST_LINES: usize = 24;

fn areas(profile: &Profile, flash: &[u8]) -> String {
    let mut text = String::new();
    let mut base = 0;
    for (number, area) in profile.areas.iter().enumerate() {
        text += &format!("area {}: {}\n", number, describe(area));
        let part = &flash[base..base + area.size() as usize];
        let found = stretches(part);
        for stretch in found.iter().take(MOST_LINES) {
            text += &format!(
                "  {} to {}  {}  {}\n",
                address(area.sad + stretch.from as u32),
                address(area.sad + (stretch.to - 1) as u32),
                if stretch.used { "used " } else { "blank" },
                bytes((stretch.to - stretch.from) as u64)
            );
        }
        if found.len() > MOST_LINES {
            text += &format!("  and {} parts more\n", found.len() - MOST_LINES);
        }
        base += part.len();
    }
    text
}

fn id(profile: &Profile, flash: &[u8]) -> String {
    let at = profile.id_place();
    let id = &flash[at..at + 16];
    if id.iter().all(|byte| *byte == 0xFF) {
        return "ID code: none stored\n".to_string();
    }
    let note = match (id[0] & 0x80, id[0] & 0x40) {
        (0, _) => "bit 127 is 0: every authentication is refused (DCh)",
        (_, 0) => "bit 126 is 0: no total erase",
        _ => "bits 127 and 126 are 1: this code, or total erase",
    };
    format!("ID code: {}\n  {}\n", hex(id), note)
}

fn part(named: &Named, flash: &[u8], range: &Range) -> Outcome<String> {
    let mut base = 0;
    for area in &named.profile.areas {
        if area.sad <= range.first && range.last <= area.ead {
            let from = base + (range.first - area.sad) as usize;
            let to = base + (range.last - area.sad) as usize + 1;
            return Ok(in_hex(range.first, &flash[from..to]));
        }
        base += area.size() as usize;
    }
    Err(Failure::new(
        format!(
            "{} to {} does not lie in one area of the profile {}",
            address(range.first),
            address(range.last),
            named.name
        ),
        "give a range inside one area; `indraveck profile check` lists them",
    ))
}

fn in_hex(first: u32, part: &[u8]) -> String {
    let mut shown = String::new();
    for (line, sixteen) in part.chunks(16).enumerate() {
        let text: String = sixteen
            .iter()
            .map(|byte| match byte {
                0x20..=0x7E => *byte as char,
                _ => '.',
            })
            .collect();
        shown += &format!(
            "{}  {:<47}  {}\n",
            address(first + 16 * line as u32),
            hex(sixteen),
            text
        );
    }
    shown
}
