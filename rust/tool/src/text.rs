//! Text that may be printed whatever it holds.

use indraveck::profile_file;
use std::path::Path;

/// A path for a person.
pub fn shown(path: impl AsRef<Path>) -> String {
    profile_file::shown(&path.as_ref().to_string_lossy())
}

/// A path as a word of a command line.
pub fn word(path: impl AsRef<Path>) -> String {
    let text = shown(path);
    let plain = |c: char| c.is_alphanumeric() || "_./@%+=:,-".contains(c);
    if text.starts_with('-') {
        return word(Path::new(".").join(text));
    }
    if !text.is_empty() && text.chars().all(plain) {
        return text;
    }
    format!("'{}'", text.replace('\'', "'\\''"))
}

/// Some lines for a person.
pub fn shown_lines(text: &str) -> String {
    let lines: Vec<String> = text.lines().map(profile_file::shown).collect();
    lines.join("\n")
}

/// A JSON string.
pub fn json(text: &str) -> String {
    let mut quoted = String::from("\"");
    for character in text.chars() {
        match character {
            '"' => quoted += "\\\"",
            '\\' => quoted += "\\\\",
            '\n' => quoted += "\\n",
            other if other.is_control() => quoted += &format!("\\u{:04x}", other as u32),
            other => quoted.push(other),
        }
    }
    quoted + "\""
}

#[cfg(test)]
mod tests {
    use super::*;

    #[test]
    fn a_word_can_be_pasted_into_a_shell() {
        for (path, expected) in [
            ("slot0", "slot0"),
            ("a b", "'a b'"),
            ("it's", "'it'\\''s'"),
            ("-x", "./-x"),
            ("-x y", "'./-x y'"),
            ("", "''"),
        ] {
            assert_eq!(word(path), expected);
        }
    }

    #[test]
    fn json_strings_are_escaped() {
        assert_eq!(
            json("a\"b\\c\n\u{1b}\u{7f}"),
            "\"a\\\"b\\\\c\\n\\u001b\\u007f\""
        );
    }
}
