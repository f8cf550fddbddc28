//! Text out of a file or a path, made safe to print.

/// So much of a file's text stands in an error at most, in characters.
const LONGEST_QUOTE: usize = 40;

/// A text with every character escaped that would not be seen as itself: control characters, and those that turn the direction of
/// writing or take no room. They are written as TOML writes them.
///
/// ```
/// use indraveck::profile_file::shown;
///
/// assert_eq!(shown("caf\u{E9}"), "caf\u{E9}");
/// assert_eq!(shown("\u{1B}[2J"), r"\u001B[2J");
/// ```
pub fn shown(text: &str) -> String {
    let mut safe = String::with_capacity(text.len());
    for character in text.chars() {
        if is_hidden(character) {
            safe += &escaped(character);
        } else {
            safe.push(character);
        }
    }
    safe
}

fn escaped(character: char) -> String {
    match u32::from(character) {
        number @ 0..=0xFFFF => format!("\\u{:04X}", number),
        number => format!("\\U{:08X}", number),
    }
}

fn is_hidden(character: char) -> bool {
    character.is_control()
        || matches!(
            character,
            '\u{AD}'
                | '\u{61C}'
                | '\u{180E}'
                | '\u{200B}'..='\u{200F}'
                | '\u{2028}'..='\u{202E}'
                | '\u{2060}'..='\u{206F}'
                | '\u{FEFF}'
                | '\u{FFF9}'..='\u{FFFB}'
                | '\u{E0000}'..='\u{E007F}'
        )
}

/// The file's own words in an error: safe to print, and cut where they are long.
pub(super) fn quoted(text: &str) -> String {
    let start: String = text.chars().take(LONGEST_QUOTE).collect();
    let cut = if start.len() < text.len() { "..." } else { "" };
    format!("`{}{}`", shown(&start), cut)
}
