//! Profile files: what is read, and what is said about entries that no profile has, with line and column; limits; changed bytes.

use indraveck::profile_file::{parse, read, shown, Named, ParseError, ReadError};
use indraveck::profile_file::{DEEPEST, LARGEST_FILE, LONGEST_NAME};
use indraveck::Profile;
use std::error::Error;
use std::fs;
use std::path::{Path, PathBuf};

fn profiles() -> PathBuf {
    Path::new(env!("CARGO_MANIFEST_DIR")).join("../../profiles")
}

fn bench() -> String {
    fs::read_to_string(profiles().join("bench.toml")).expect("the bench profile")
}

/// The bench profile with a text replaced that occurs once.
fn edited(text: &str, instead: &str) -> String {
    let bench = bench();
    assert_eq!(bench.matches(text).count(), 1, "{} in bench.toml", text);
    bench.replace(text, instead)
}

fn said(text: impl AsRef<[u8]>) -> String {
    match parse(text.as_ref()) {
        Ok(named) => panic!("it was read: {:?}", named),
        Err(error) => error.to_string(),
    }
}

/// Each edit of the bench profile with what is said about it.
fn check_edits(cases: &[(&str, &str, &str)]) {
    for (text, instead, expected) in cases {
        assert_eq!(said(edited(text, instead)), *expected, "{:?}", instead);
    }
}

fn is_bench(text: &str) {
    let named = parse(text.as_bytes()).unwrap_or_else(|error| panic!("{} in\n{}", error, text));
    assert_eq!(named.name, "bench", "{}", text);
    assert_eq!(named.profile, Profile::bench(), "{}", text);
}

#[test]
fn every_profile_of_the_folder_is_read_and_acceptable() {
    let mut count = 0;
    for entry in fs::read_dir(profiles()).expect("the profiles") {
        let path = entry.expect("an entry").path();
        if path.extension().map_or(true, |end| end != "toml") {
            continue;
        }
        let named = read(&path).expect("a profile file");
        let stem = path.file_stem().expect("a name").to_string_lossy();
        assert_eq!(named.name, stem);
        assert_eq!(named.profile.broken_rules(), []);
        count += 1;
    }
    assert!(count >= 6);
    is_bench(&bench());
}

#[test]
fn other_spellings_say_the_same() {
    is_bench(&bench().replace('\n', "\r\n"));
    is_bench(&format!("\u{FEFF}{}", bench()));
    is_bench(bench().trim_end());
    is_bench(&bench().replace(" = ", "="));
    is_bench(&bench().replace(" = ", "\t =\t"));
    is_bench(&bench().replace("[[area]]", "[[ 'area' ]] # another"));
    is_bench(&edited("[window]\nlow = 0x0\nhigh = 0x0\n", ""));
    is_bench(&edited(
        "\n[window]\nlow = 0x0\nhigh = 0x0\n",
        "window = { low = 0, high = 0 }\n",
    ));
    is_bench(&edited(
        "\n[window]\nlow = 0x0\nhigh = 0x0\n",
        "window.low = 0\nwindow . 'high' = 0\n",
    ));
    is_bench(&edited("rmb = 4", "\"rm\\u0062\" = 4"));
    is_bench(&edited("sci = 60_000_000", "sci = +60000000"));
    is_bench(&edited("bfv = 0x0100", "bfv = 0o400"));
    is_bench(&edited("wau = 0x10", "wau = 0b1_0000"));
    is_bench(&edited("low = 0x0", "low = -0"));
    for name in [
        "'bench'",
        "'''bench'''",
        "\"\"\"\nbench\"\"\"",
        "'''\r\nbench'''",
        "\"\"\"ben\\\n   \n  ch\"\"\"",
        "\"\"\"ben\\  \r\n\tch\"\"\"",
        "\"\\u0062e\\U0000006Ech\"",
    ] {
        is_bench(&edited("\"bench\"", name));
    }
}

#[test]
fn areas_may_be_a_list_of_inline_tables() {
    let at = bench().find("[window]").expect("a window");
    let areas = "area = [ # all of them
        { kind = 'user', sad = 0, ead = 0xFFFF, eau = 0x2000, wau = 0x80 },

        { kind = 'config', sad = 0x0100_0000, ead = 0x0100_00FF, eau = 0, wau = 16 }, # the last
    ]\n";
    is_bench(&format!("{}{}", &bench()[..at], areas));
}

#[test]
fn a_name_is_kept_as_it_is() {
    for (written, name) in [
        (r#""\b\t\n\f\r\"\\""#, "\u{8}\t\n\u{C}\r\"\\"),
        (r#""\u001B[2J""#, "\u{1B}[2J"),
        (r"'\u001B'", r"\u001B"),
        (r#"'''a'b''c'''''"#, "a'b''c''"),
        ("\"\"\"a\"b\"\"c\"\"\"\"\"", "a\"b\"\"c\"\""),
        ("'''one\r\ntwo'''", "one\ntwo"),
        ("\"caf\u{E9} \u{1F600}\"", "caf\u{E9} \u{1F600}"),
    ] {
        let text = edited("\"bench\"", written);
        assert_eq!(parse(text.as_bytes()).expect(written).name, name);
    }
}

const UNKNOWN: &[(&str, &str, &str)] = &[
    (
        "wau = 0x80",
        "wua = 0x80",
        "line 18, column 1: unknown key `wua`; [[area]] has `kind`, `sad`, `ead`, `eau`, `wau`; did you mean `wau`?",
    ),
    (
        "wau = 0x10",
        "\twau = 0x10\nea = 3",
        "line 26, column 1: unknown key `ea`; [[area]] has `kind`, `sad`, `ead`, `eau`, `wau`; did you mean `ead` or `eau`?",
    ),
    (
        "wau = 0x10",
        "wau = 0x10\nspeed = 3",
        "line 26, column 1: unknown key `speed`; [[area]] has `kind`, `sad`, `ead`, `eau`, `wau`",
    ),
    (
        "high = 0x0",
        "high = 0x0\nrmb = 3",
        "line 12, column 1: unknown key `rmb`; [window] has `low`, `high`; it belongs above the first table",
    ),
    (
        "[window]",
        "[Windows]",
        "line 9, column 2: unknown key `Windows`; a profile has `name`, `typ`, `bfv`, `sci`, `rmb`, `window`, `area`; did you mean `window`?",
    ),
    (
        "typ = 0x01",
        "z = 1\ny = 1\ntyp = 0x01",
        "line 4, column 1: unknown key `z`; a profile has `name`, `typ`, `bfv`, `sci`, `rmb`, `window`, `area`",
    ),
    (
        "typ = 0x01",
        "\"ty\\u001Bp\" = 0x01",
        "line 4, column 1: unknown key `ty\\u001Bp`; a profile has `name`, `typ`, `bfv`, `sci`, `rmb`, `window`, `area`; did you mean `typ`?",
    ),
];

#[test]
fn keys_that_a_profile_does_not_have() {
    check_edits(UNKNOWN);
    let error = said(format!("{} = 1", "k".repeat(60_000)));
    let cut = format!("line 1, column 1: unknown key `{}...`; a", "k".repeat(40));
    assert!(error.starts_with(&cut), "{}", error);
}

const MISSING: &[(&str, &str, &str)] = &[
    ("rmb = 4_000_000", "", "it has no `rmb`"),
    ("name = \"bench\"", "", "it has no `name`"),
    (
        "low = 0x0",
        "",
        "line 9, column 1: this [window] has no `low`",
    ),
    (
        "eau = 0x2000",
        "",
        "line 13, column 1: this [[area]] has no `eau`",
    ),
    (
        "kind = \"config\"",
        "",
        "line 20, column 1: this [[area]] has no `kind`",
    ),
    (
        "\n[window]\nlow = 0x0\nhigh = 0x0\n",
        "window = { high = 0 }",
        "line 8, column 10: this [window] has no `low`",
    ),
];

#[test]
fn keys_that_are_missing() {
    check_edits(MISSING);
    let error = parse(b"").expect_err("nothing in it");
    assert_eq!(error.place(), None);
    assert_eq!((error.line(), error.column()), (None, None));
    assert_eq!(error.message(), "it has no `name`");
}

const WRONG_TYPE: &[(&str, &str, &str)] = &[
    (
        "name = \"bench\"",
        "name = 7",
        "line 3, column 8: a number stands here, and `name` is text in quotes",
    ),
    (
        "typ = 0x01",
        "typ = \"1\"",
        "line 4, column 7: text stands here, and `typ` is a number of one byte, 0 to 0xFF",
    ),
    (
        "bfv = 0x0100",
        "bfv = [1, 0]",
        "line 5, column 7: a list stands here, and `bfv` is a number of two bytes, 0 to 0xFFFF",
    ),
    (
        "sad = 0x0100_0000",
        "sad = {}",
        "line 22, column 7: a table stands here, and `sad` is a number of four bytes, 0 to 0xFFFF_FFFF",
    ),
    (
        "kind = \"user\"",
        "kind = 0",
        "line 14, column 8: a number stands here, and `kind` is text in quotes",
    ),
    (
        "kind = \"config\"",
        "kind = \"boot\"",
        "line 21, column 8: `boot` is no kind of area; there are `user`, `data`, `config`",
    ),
    (
        "[window]",
        "[[window]]",
        "line 9, column 3: a list of tables stands here, and `window` is one table, [window]",
    ),
];

#[test]
fn values_of_the_wrong_type() {
    check_edits(WRONG_TYPE);
    let start = "name = 'x'\ntyp = 1\nbfv = 1\nsci = 1\nrmb = 1\n";
    assert_eq!(
        said(format!("{}[area]", start)),
        "line 6, column 2: a table stands here, and `area` is a list of tables, each [[area]]"
    );
    assert_eq!(
        said(format!("{}area = [\n1]", start)),
        "line 7, column 1: a number stands here, and an area is a table"
    );
}

const OUT_OF_LIMITS: &[(&str, &str, &str)] = &[
    (
        "typ = 0x01",
        "typ = 0x100",
        "line 4, column 7: `0x100` is no number of one byte, 0 to 0xFF",
    ),
    (
        "bfv = 0x0100",
        "bfv = 65536",
        "line 5, column 7: `65536` is no number of two bytes, 0 to 0xFFFF",
    ),
    (
        "low = 0x0",
        "low = -1",
        "line 10, column 7: `-1` is no number of four bytes, 0 to 0xFFFF_FFFF",
    ),
    (
        "ead = 0x0100_00FF",
        "ead = 0x1_0000_0000",
        "line 23, column 7: `0x1_0000_0000` is no number of four bytes, 0 to 0xFFFF_FFFF",
    ),
];

#[test]
fn numbers_out_of_their_limits() {
    check_edits(OUT_OF_LIMITS);
    let most = edited("ead = 0x0100_00FF", "ead = 0xFFFF_FFFF");
    let named = parse(most.as_bytes()).expect("a number of four bytes");
    assert_eq!(named.profile.areas[1].ead, u32::MAX);
}

#[test]
fn names_that_are_too_short_or_too_long() {
    let name = |length: usize| edited("\"bench\"", &format!("\"{}\"", "\u{E9}".repeat(length)));
    assert!(parse(name(LONGEST_NAME).as_bytes()).is_ok());
    assert_eq!(
        said(name(LONGEST_NAME + 1)),
        "line 3, column 8: a name has at most 64 characters, and this one 65"
    );
    assert_eq!(said(name(0)), "line 3, column 8: the name is empty");
    assert_eq!(
        said(edited("\"bench\"", "\" \\n\"")),
        "line 3, column 8: the name is empty"
    );
}

#[test]
fn nothing_lies_deeper_than_the_limit() {
    let deep = "more than 16 levels of keys and lists";
    let lists = |count: usize| format!("a = {}{}", "[".repeat(count), "]".repeat(count));
    assert!(said(lists(DEEPEST - 1)).contains("unknown key"));
    assert_eq!(said(lists(DEEPEST)), format!("line 1, column 20: {}", deep));
    let dots = |count: usize| format!("[{}]\nx = 1", vec!["a"; count].join("."));
    assert!(said(dots(DEEPEST - 1)).contains("unknown key"));
    assert_eq!(said(dots(DEEPEST)), format!("line 2, column 1: {}", deep));
    assert_eq!(
        said(dots(DEEPEST + 1)),
        format!("line 1, column 34: {}", deep)
    );
    let braces = format!("a = {}{}", "{a = ".repeat(16), "}".repeat(16));
    assert_eq!(said(braces), format!("line 1, column 81: {}", deep));
}

#[test]
fn no_nesting_overflows_the_stack() {
    let most = LARGEST_FILE - 10;
    for (start, text) in [
        ("", "["),
        ("", "[["),
        ("a = ", "["),
        ("a = ", "{a="),
        ("a = ", "[{a.a="),
        ("a = ", "[\n"),
        ("", "a."),
        ("[", "a."),
        ("[[", "a . "),
        ("", "[a]\n"),
        ("", "[[a]]\n"),
    ] {
        assert!(said(format!("{}{}", start, text.repeat(most / text.len()))).len() < 200);
        let error = said(format!("{}{}", start, text.repeat(100_000)));
        assert!(error.starts_with("it has more than 65,536 bytes"));
    }
}

#[test]
fn a_large_file_is_not_read() {
    let mut text = bench();
    text += &"#".repeat(LARGEST_FILE - text.len());
    is_bench(&text);
    text += "#";
    let large = "it has more than 65,536 bytes; a profile has far fewer";
    assert_eq!(said(&text), large);
    let error = read("/dev/zero").expect_err("it never ends");
    assert_eq!(error.to_string(), large);
}

#[test]
fn many_keys_end_quickly() {
    let keys: Vec<String> = (0..6500).map(|key| format!("k{} = 1\n", key)).collect();
    assert!(said(keys.concat()).contains("unknown key `k0`"));
    let areas = "[[area]]\n".repeat(7000);
    let text = edited("[[area]]\nkind = \"user\"", &areas);
    assert!(said(text).contains("line 13, column 1: this [[area]] has no `kind`"));
}

#[test]
fn what_the_system_says_is_handed_on() {
    match read("missing.toml").expect_err("no such file") {
        ReadError::System(error) => assert_eq!(error.kind(), std::io::ErrorKind::NotFound),
        ReadError::Parse(error) => panic!("{}", error),
    }
    match read(profiles()).expect_err("a folder") {
        ReadError::System(error) => assert_eq!(error.raw_os_error(), Some(21)),
        ReadError::Parse(error) => panic!("{}", error),
    }
}

#[test]
fn errors_are_short_also_for_a_programmer() {
    let error: ParseError = parse(b"a").expect_err("no `=`");
    assert_eq!((error.line(), error.column()), (Some(1), Some(2)));
    assert_eq!(
        format!("{:?}", error),
        "ParseError(line 1, column 2: `=` is missing here)"
    );
    let error = ReadError::from(error);
    assert_eq!(
        format!("{:?}", error),
        "ReadError(line 1, column 2: `=` is missing here)"
    );
    let error: Box<dyn Error> = error.into();
    assert!(error.source().is_none());
}

#[test]
fn nothing_hidden_is_shown() {
    assert_eq!(
        shown("a\u{1B}[31m\u{7F}\u{85}\t"),
        r"a\u001B[31m\u007F\u0085\u0009"
    );
    assert_eq!(
        shown("\u{202E}\u{2066}\u{200B}\u{FEFF}"),
        r"\u202E\u2066\u200B\uFEFF"
    );
    assert_eq!(shown("\u{E0041}"), r"\U000E0041");
    assert_eq!(shown("caf\u{E9} \u{1F600} \\"), "caf\u{E9} \u{1F600} \\");
}

/// An error names a place in the text, and can be printed as it is.
fn check_error(text: &[u8], error: &ParseError) {
    let printed = error.to_string();
    assert!(!printed.chars().any(char::is_control), "{:?}", printed);
    assert!(printed.len() < 300, "{}", printed);
    let place = match error.place() {
        Some(place) => place,
        None => {
            assert!(printed.starts_with("it has no `"), "{}", printed);
            return;
        }
    };
    let lines: Vec<&[u8]> = text.split(|byte| *byte == b'\n').collect();
    let line = lines.get(place.line - 1).expect("a line of the file");
    let columns = String::from_utf8_lossy(line).chars().count();
    assert!(place.column >= 1 && place.column <= columns + 1);
}

#[test]
fn every_changed_byte_is_read_or_named() {
    let bench = bench().into_bytes();
    let mut refused = 0;
    let mut try_text = |text: &[u8]| match parse(text) {
        Ok(Named { name, .. }) => assert!(!name.is_empty()),
        Err(error) => {
            refused += 1;
            check_error(text, &error);
        }
    };
    let mut count = 0;
    for at in 0..=bench.len() {
        let (start, end) = bench.split_at(at);
        try_text(start);
        for byte in *b"\0\t\n\r\x1B \"'#,.=0_aA[]{}\\-\x7F\x80\xC3\xFF" {
            try_text(&[start, &[byte], end].concat());
            if let Some((_, rest)) = end.split_first() {
                try_text(&[start, &[byte], rest].concat());
            }
            count += 1;
        }
        if let Some((first, rest)) = end.split_first() {
            try_text(&[start, rest].concat());
            try_text(&[start, &[*first, *first, *first], rest].concat());
        }
    }
    assert!(refused > count, "{} of twice {} refused", refused, count);
}
