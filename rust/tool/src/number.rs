//! Numbers as people write and read them.

use crate::text;

/// A number as it is printed anywhere here: 16384, 16,384, 0x4000 or 00004000h; underscores may stand between digits.
pub fn parse(text: &str) -> Result<u32, String> {
    let wrong = || {
        format!(
            "`{}` is no number of up to 32 bits; write it as 16384, 0x4000 or 4000h",
            text::shown(text)
        )
    };
    let plain = text.replace('_', "");
    let prefixed = plain
        .strip_prefix("0x")
        .or_else(|| plain.strip_prefix("0X"));
    let hexadecimal = prefixed.or_else(|| plain.strip_suffix(['h', 'H']));
    let (digits, radix) = match hexadecimal {
        Some(digits) => (digits.to_string(), 16),
        None => (ungrouped(&plain).ok_or_else(wrong)?, 10),
    };
    // the system's reading takes a sign
    if !digits.chars().all(|digit| digit.is_digit(radix)) {
        return Err(wrong());
    }
    u32::from_str_radix(&digits, radix).map_err(|_| wrong())
}

/// Without the commas between thousands; none where they stand elsewhere.
fn ungrouped(text: &str) -> Option<String> {
    let groups: Vec<&str> = text.split(',').collect();
    let right = |(i, group): (usize, &&str)| match i {
        0 => groups.len() == 1 || (1..=3).contains(&group.len()),
        _ => group.len() == 3,
    };
    groups
        .iter()
        .enumerate()
        .all(right)
        .then(|| groups.concat())
}

/// With commas between thousands.
pub fn grouped(number: u64) -> String {
    let digits = number.to_string();
    let mut text = String::new();
    for (i, digit) in digits.chars().enumerate() {
        if i > 0 && (digits.len() - i) % 3 == 0 {
            text.push(',');
        }
        text.push(digit);
    }
    text
}

/// So many of something, in words.
pub fn counted(count: u64, name: &str) -> String {
    let plural = if count == 1 { "" } else { "s" };
    format!("{} {}{}", grouped(count), name, plural)
}

/// So many bytes, in words.
pub fn bytes(count: u64) -> String {
    counted(count, "byte")
}

/// An address, as the paper writes it.
pub fn address(number: u32) -> String {
    format!("{:08X}h", number)
}

/// Bytes in hexadecimal with spaces between.
pub fn hex(bytes: &[u8]) -> String {
    let each: Vec<String> = bytes.iter().map(|byte| format!("{:02X}", byte)).collect();
    each.join(" ")
}

#[cfg(test)]
mod tests {
    use super::*;

    #[test]
    fn numbers_are_read_in_both_notations() {
        assert_eq!(parse("0x0100_00ff"), Ok(0x0100_00FF));
        assert_eq!(parse("65535"), Ok(65535));
        for wrong in [
            "",
            "0x",
            "h",
            "-1",
            "+1",
            "0x+1",
            "0x1_0000_0000",
            "12k",
            "0x4000h",
            "1,00",
            ",100",
            "1000,000",
            "12,34h",
        ] {
            assert!(
                parse(wrong).unwrap_err().contains(wrong),
                "{} was read",
                wrong
            );
        }
    }

    #[test]
    fn what_is_printed_can_be_typed_back() {
        for number in [0, 9, 999, 1_000, 65_535, 16_777_216, 60_000_000, u32::MAX] {
            assert_eq!(parse(&address(number)), Ok(number));
            assert_eq!(parse(&grouped(number.into())), Ok(number));
            assert_eq!(parse(&format!("{:#X}", number)), Ok(number));
        }
    }

    #[test]
    fn thousands_are_set_apart() {
        assert_eq!(grouped(0), "0");
        assert_eq!(grouped(999), "999");
        assert_eq!(grouped(1_000), "1,000");
        assert_eq!(grouped(16_777_216), "16,777,216");
    }
}
