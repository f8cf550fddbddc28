//! The reader of profile files beside another one, the crate toml: on the profiles, and on the bench profile with every byte changed.
//!
//! Both give the same profile, or both refuse. The exceptions are listed, each with its reason.

mod common;

use common::root;
use indraveck::profile_file::{parse, Named};
use indraveck::{Area, Kind, Profile};
use std::convert::TryFrom;
use std::fs;
use std::str;
use toml::value::{Table, Value};

/// What the other reader makes of a text.
fn other(bytes: &[u8]) -> Option<Named> {
    let text = str::from_utf8(bytes).ok()?;
    let mut top = text.parse::<Value>().ok()?.as_table()?.clone();
    let name = top.remove("name")?.as_str()?.to_string();
    let (low, high) = match top.remove("window") {
        None => (0, 0),
        Some(window) => window_of(window)?,
    };
    let areas = match top.remove("area") {
        None => Vec::new(),
        Some(areas) => areas
            .as_array()?
            .iter()
            .map(area_of)
            .collect::<Option<_>>()?,
    };
    let profile = Profile {
        areas,
        sci: number(&mut top, "sci")?,
        rmb: number(&mut top, "rmb")?,
        typ: number(&mut top, "typ")?,
        bfv: number(&mut top, "bfv")?,
        low,
        high,
    };
    let good = top.is_empty() && !name.trim().is_empty();
    Some(Named { name, profile }).filter(|_| good)
}

fn number<T: TryFrom<i64>>(table: &mut Table, key: &str) -> Option<T> {
    T::try_from(table.remove(key)?.as_integer()?).ok()
}

fn window_of(window: Value) -> Option<(u32, u32)> {
    let mut window = window.as_table()?.clone();
    let limits = (number(&mut window, "low")?, number(&mut window, "high")?);
    Some(limits).filter(|_| window.is_empty())
}

fn area_of(area: &Value) -> Option<Area> {
    let mut area = area.as_table()?.clone();
    let kind = match area.remove("kind")?.as_str()? {
        "user" => Kind::User,
        "data" => Kind::Data,
        "config" => Kind::Config,
        _ => return None,
    };
    let entry = Area {
        kind,
        sad: number(&mut area, "sad")?,
        ead: number(&mut area, "ead")?,
        eau: number(&mut area, "eau")?,
        wau: number(&mut area, "wau")?,
    };
    Some(entry).filter(|_| area.is_empty())
}

/// The other reader takes these, and TOML 1.0 forbids them.
const STRICTER: [&str; 2] = [
    "a control character, U+007F",
    "has a sign; only decimal numbers may",
];

/// Whether both read it; apart from the exceptions none is read by one alone, or otherwise.
fn is_read_alike(bytes: &[u8]) -> bool {
    let text = || String::from_utf8_lossy(bytes).into_owned();
    match (parse(bytes), other(bytes)) {
        (Ok(ours), Some(theirs)) => {
            assert_eq!(ours, theirs, "{}", text());
            true
        }
        (Err(_), None) => false,
        (Ok(_), None) => panic!("only this one reads\n{}", text()),
        (Err(error), Some(_)) => {
            let listed = STRICTER.iter().any(|words| error.message().contains(words));
            assert!(listed, "only the other reads, {} in\n{}", error, text());
            false
        }
    }
}

fn bench() -> String {
    fs::read_to_string(root().join("profiles/bench.toml")).expect("the bench profile")
}

const BYTES: &[u8] = b"\0\t\n\r\x0B\x1B !\"#'+,-.012789:=AFGX[\\]_abenox{}\x7F\x80\xC3\xFF";

#[test]
fn every_profile_and_every_changed_byte_is_read_alike() {
    for entry in fs::read_dir(root().join("profiles")).expect("the profiles") {
        let path = entry.expect("an entry").path();
        let is_profile = path.extension().map_or(false, |end| end == "toml");
        let bytes = fs::read(&path).expect("a file");
        assert_eq!(is_read_alike(&bytes), is_profile, "{}", path.display());
    }
    let bench = bench().into_bytes();
    let mut read = 0;
    for at in 0..bench.len() {
        let (start, end) = bench.split_at(at);
        read += usize::from(is_read_alike(start));
        read += usize::from(is_read_alike(&[start, &end[1..]].concat()));
        for byte in BYTES {
            read += usize::from(is_read_alike(&[start, &[*byte], end].concat()));
            read += usize::from(is_read_alike(&[start, &[*byte], &end[1..]].concat()));
        }
    }
    assert!(read > 10_000, "only {} were read", read);
}

#[test]
fn every_moved_and_every_repeated_line_is_read_alike() {
    let bench = bench();
    let lines: Vec<&str> = bench.lines().collect();
    let mut read = 0;
    for from in 0..lines.len() {
        for to in 0..lines.len() {
            let mut repeated = lines.clone();
            repeated.insert(to, lines[from]);
            read += usize::from(is_read_alike(repeated.join("\n").as_bytes()));
            let mut moved = lines.clone();
            let line = moved.remove(from);
            moved.insert(to, line);
            read += usize::from(is_read_alike(moved.join("\r\n").as_bytes()));
        }
    }
    assert!(read > 100, "only {} were read", read);
}

/// Well written and not, between semicolons; `^` is a line's end.
const VALUES: &str = r#"0;-0;+0;00;-1;+1;0x1;0X1;0xdeadBEEF;0x00ff;0x;0o17;0o8;0b101;0b2;1_0;1__0;_1;1_;0x_1;0x1_;256;65536;4294967295;4294967296;
9223372036854775807;9223372036854775808;-9223372036854775808;1.0;1e3;inf;true;1979-05-27;07:32:00;user;"user";'user';"""user""";
'''user''';'''^user''';'''^^user''';"\u0075ser";"\U00000075ser";"\uD800";"\u75";"\x75";"a\tb\\";"""us\^  er""";"""us\  ^^er""";"""us\ er""";
"""a""b""";'''a''b''';"config";'data';'';"";"a;'a;'a^b';[];[1];[1,];[,];[^1^,^2 # two^];[[1],[2]];{};{ low = 1, high = 2 };
{ low = 1, high = 2, };{ low = 1^, high = 2 };{low=1,low=2};# 1;;1 # one;1 1;1,2;café;'café'"#;

#[test]
fn every_value_is_read_alike_in_every_place() {
    let bench = bench();
    let mut read = 0;
    for (at, _) in bench.match_indices(" = ") {
        let end = at + bench[at..].find('\n').expect("a line's end");
        for value in VALUES.replace(";\n", ";").split(';') {
            let value = value.replace('^', "\n");
            let text = format!("{} = {}{}", &bench[..at], value, &bench[end..]);
            read += usize::from(is_read_alike(text.as_bytes()));
        }
    }
    assert!(read > 100, "only {} were read", read);
}

/// Tables under other headers and keys.
const WINDOWS: [&str; 9] = [
    "window = { low = 1, high = 2 }\n",
    "window.low = 1\nwindow.high = 2\n",
    "window.low = 1\n[window]\nhigh = 2\n",
    "[window]\nlow = 1\n[window]\nhigh = 2\n",
    "[window]\nlow = 1\n[window.high]\n",
    "[[window]]\nlow = 1\nhigh = 2\n",
    "['window']\n\"low\" = 1\n'high' = 2\n",
    "[ window ] # one\nlow=1\nhigh\t=\t2\n",
    "window = {}\nwindow.low = 1\nwindow.high = 2\n",
];

#[test]
fn every_window_is_read_alike() {
    let bench = bench();
    let start = bench.find("[window]").expect("a window");
    let end = bench.find("\n[[area]]").expect("an area");
    let read = WINDOWS.iter().filter(|window| {
        let text = format!("{}{}{}", &bench[..start], window, &bench[end..]);
        is_read_alike(text.as_bytes())
    });
    assert_eq!(read.count(), 4);
}
