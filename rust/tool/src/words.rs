//! Exchanges in words.

use crate::line::Exchange;
use crate::number::{address, bytes, grouped, hex};
use indraveck::host::status_in_words;
use indraveck::Stage;

const TOTAL_ERASE: [u8; 16] = *b"ALeRASE\xFF\xFF\xFF\xFF\xFF\xFF\xFF\xFF\xFF";

fn four(part: &[u8]) -> u32 {
    part.iter()
        .fold(0, |value, byte| value << 8 | u32::from(*byte))
}

fn range(part: &[u8]) -> String {
    format!(
        "{} to {}",
        address(four(&part[..4])),
        address(four(&part[4..8]))
    )
}

/// What was asked.
fn request(exchange: &Exchange) -> String {
    let com = exchange.request.get(3).copied();
    let length = exchange.request.len();
    let information = if length >= 6 {
        &exchange.request[4..length - 2]
    } else {
        &[]
    };
    match exchange.before.stage {
        Stage::Setting { .. } => "wake-up".to_string(),
        _ if length == 3 => format!(
            "packet refused at its length {}",
            grouped(four(&exchange.request[1..3]).into())
        ),
        Stage::Writing { next, .. } => format!(
            "write data, {} at {}",
            bytes(information.len() as u64),
            address(next)
        ),
        Stage::Reading { next, .. } => format!("next packet of the read, at {}", address(next)),
        Stage::Authentication | Stage::Command => command(com.unwrap_or_default(), information),
    }
}

fn command(com: u8, information: &[u8]) -> String {
    let name = match com {
        0x00 => "inquiry",
        0x12 => "erase",
        0x13 => "write",
        0x15 => "read",
        0x30 if information == TOTAL_ERASE => "total erase",
        0x30 => "authenticate",
        0x34 => "baud rate",
        0x3A => "signature",
        0x3B => "area",
        _ => return format!("command {:02X}h", com),
    };
    let detail = match (com, information.len()) {
        (0x12 | 0x13 | 0x15, 8) => range(information),
        (0x34, 4) => grouped(four(information).into()),
        (0x3B, 1) => information[0].to_string(),
        _ => return format!("{} ({:02X}h)", name, com),
    };
    format!("{} ({:02X}h) {}", name, com, detail)
}

/// Where the device stands.
pub fn stage(stage: Stage) -> String {
    let transfer = |name, next, left: u32| {
        format!(
            "{}, {} at {} and on to go",
            name,
            bytes(left.into()),
            address(next)
        )
    };
    match stage {
        Stage::Setting { low_pulses: 0 } => "setting: not woken up".to_string(),
        Stage::Setting { low_pulses: 1 } => "setting: one low pulse has come".to_string(),
        Stage::Setting { .. } => "setting: the low pulses are acknowledged".to_string(),
        Stage::Authentication => "authentication: an ID code has to be given".to_string(),
        Stage::Command => "command".to_string(),
        Stage::Writing { next, left } => transfer("writing", next, left),
        Stage::Reading { next, left } => transfer("reading", next, left),
    }
}

/// What was answered.
fn reply(exchange: &Exchange) -> String {
    let data = |from: usize| &exchange.reply[from..exchange.reply.len() - 2];
    match (exchange.before.stage, exchange.reply) {
        (Stage::Setting { .. }, [0x00]) => "00h, the low pulses are acknowledged".to_string(),
        (Stage::Setting { .. }, [0xC3]) => "C3h, the device is awake".to_string(),
        // a read of one byte is as long as a status
        (_, [0x81, 0x00, 0x02, res, status, _, 0x03]) if *res != 0x15 => {
            format!("{:02X}h {}", status, status_in_words(*status))
        }
        (_, [0x81, _, _, 0x15, ..]) => format!("{} read", bytes(data(4).len() as u64)),
        (_, [0x81, 0x00, 0x0D, 0x3A, ..]) => signature(data(4)),
        (_, [0x81, 0x00, 0x12, 0x3B, ..]) => area(data(4)),
        (_, other) => hex(other),
    }
}

fn signature(data: &[u8]) -> String {
    format!(
        "SCI {}, RMB {}, {} areas, type {:02X}h, boot firmware {}",
        grouped(four(&data[..4]).into()),
        grouped(four(&data[4..8]).into()),
        data[8],
        data[9],
        bfv(data[10], data[11])
    )
}

/// A boot firmware version.
pub fn bfv(high: u8, low: u8) -> String {
    format!("{:02X}{:02X}h", high, low)
}

fn area(data: &[u8]) -> String {
    let kind = match data[0] {
        0 => "user",
        1 => "data",
        _ => "config",
    };
    let unit = |name: &str, part: &[u8]| match four(part) {
        0 => format!("no {} unit", name),
        size => format!("{} unit {}", name, bytes(size.into())),
    };
    format!(
        "{}, {}, {}, {}",
        kind,
        range(&data[1..9]),
        unit("erase", &data[9..13]),
        unit("write", &data[13..17])
    )
}

/// Where the device stands behind it.
fn then(exchange: &Exchange) -> String {
    match (exchange.before.stage, exchange.after.stage) {
        (Stage::Setting { .. }, Stage::Authentication) => {
            "; an ID code is stored and has to be given".to_string()
        }
        (Stage::Setting { .. }, Stage::Command) => "; no ID code is stored".to_string(),
        (Stage::Authentication, Stage::Command) => "; commands are open".to_string(),
        (Stage::Authentication, Stage::Setting { .. }) => {
            "; everything is blank, the device waits to be woken up".to_string()
        }
        (_, Stage::Writing { left, .. }) | (_, Stage::Reading { left, .. }) => {
            format!("; {} to go", bytes(left.into()))
        }
        (Stage::Writing { .. }, Stage::Command) => "; the write has ended".to_string(),
        (Stage::Reading { .. }, Stage::Command) => "; the read has ended".to_string(),
        _ => String::new(),
    }
}

/// One line for the log.
pub fn describe(exchange: &Exchange) -> String {
    format!(
        "{}: {}{}",
        request(exchange),
        reply(exchange),
        then(exchange)
    )
}
