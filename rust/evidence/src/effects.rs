//! What happened, counted: agreement says nothing about what never came up.

use std::collections::BTreeMap;
use std::fmt;

/// Counters of named effects.
#[derive(Clone, Default)]
pub struct Effects {
    /// By the name's place in memory, since names are compared at every call; the same name may stand in several places.
    counts: BTreeMap<(usize, usize), (&'static str, u64)>,
}

impl Effects {
    pub fn happened(&mut self, effect: &'static str) {
        let key = (effect.as_ptr() as usize, effect.len());
        self.counts.entry(key).or_insert((effect, 0)).1 += 1;
    }

    pub fn count(&self, effect: &str) -> u64 {
        let same = self.counts.values().filter(|(name, _)| *name == effect);
        same.map(|(_, count)| count).sum()
    }

    /// Those that happened less often than they should, in words.
    pub fn missing(&self, expected: &[(&str, u64)]) -> Vec<String> {
        let rare = expected
            .iter()
            .filter(|(effect, least)| self.count(effect) < *least);
        rare.map(|(effect, least)| {
            let count = self.count(effect);
            format!(
                "\"{}\" happened {} times, expected {}",
                effect, count, least
            )
        })
        .collect()
    }
}

impl fmt::Display for Effects {
    fn fmt(&self, f: &mut fmt::Formatter) -> fmt::Result {
        let mut by_name: BTreeMap<&str, u64> = BTreeMap::new();
        for (effect, count) in self.counts.values() {
            *by_name.entry(effect).or_insert(0) += count;
        }
        for (effect, count) in by_name {
            writeln!(f, "{:>10}  {}", count, effect)?;
        }
        Ok(())
    }
}

/// The effect's name of a refused command, by its status.
pub(crate) fn command_refused(status: u8) -> &'static str {
    match status {
        0xC0 => "command refused with C0",
        0xC1 => "command refused with C1",
        0xC2 => "command refused with C2",
        0xC3 => "command refused with C3",
        0xD0 => "command refused with D0",
        0xD4 => "command refused with D4",
        0xDA => "command refused with DA",
        0xDB => "command refused with DB",
        0xDC => "command refused with DC",
        _ => "command refused otherwise",
    }
}

pub(crate) fn write_ended(status: u8) -> &'static str {
    match status {
        0xC1 => "write ended with C1",
        0xC2 => "write ended with C2",
        0xE2 => "write ended with E2",
        _ => "write ended otherwise",
    }
}

pub(crate) fn read_ended(status: u8) -> &'static str {
    match status {
        0xC1 => "read ended with C1",
        0xC2 => "read ended with C2",
        _ => "read ended otherwise",
    }
}

pub(crate) fn start_refused(refusal: u32) -> &'static str {
    match refusal {
        0 => "start accepted",
        1 => "start refused with 1",
        4 => "start refused with 4",
        5 => "start refused with 5",
        _ => "start refused otherwise",
    }
}

pub(crate) fn reset_refused(refusal: u32) -> &'static str {
    match refusal {
        0 => "reset accepted",
        1 => "reset refused with 1",
        4 => "reset refused with 4",
        5 => "reset refused with 5",
        _ => "reset refused otherwise",
    }
}

pub(crate) fn feed_refused(refusal: u32) -> &'static str {
    match refusal {
        1 => "feed refused with 1",
        2 => "feed refused with 2",
        3 => "feed refused with 3",
        4 => "feed refused with 4",
        5 => "feed refused with 5",
        _ => "feed refused otherwise",
    }
}

/// The effect's name of reading a record, by the answer.
pub(crate) fn record_read(answer: u32) -> &'static str {
    match answer {
        0x48 => "host record read",
        0x44 => "device record read",
        0x52 => "reset read",
        1 => "record unreadable with 1",
        2 => "record unreadable with 2",
        3 => "record unreadable with 3",
        4 => "record unreadable with 4",
        6 => "recording's end read",
        _ => "record read otherwise",
    }
}

pub(crate) fn record_written(direction: u32, answer: u32) -> &'static str {
    match (answer, direction) {
        (7, 0x48) => "host record written",
        (7, 0x44) => "device record written",
        (7, 0x52) => "reset written",
        (2, _) => "record refused with 2",
        (3, _) => "record refused with 3",
        (5, _) => "record refused with 5",
        _ => "record written otherwise",
    }
}

pub(crate) fn replay_ended(ended: u32) -> &'static str {
    match ended {
        0 => "replay refused",
        1 => "replay ended with 1",
        2 => "replay ended with 2",
        3 => "replay ended with 3",
        4 => "replay ended with 4",
        6 => "replay ended at the end",
        _ => "replay ended otherwise",
    }
}

/// The effect's name of building a packet, by the answer.
pub(crate) fn packet_built(answer: u32) -> &'static str {
    match answer {
        1 => "packet built",
        2 => "packet refused with 2",
        3 => "packet refused with 3",
        4 => "packet refused with 4",
        5 => "packet refused with 5",
        _ => "packet built otherwise",
    }
}

/// The effect's name of a verdict.
pub(crate) fn judged(verdict: u32) -> &'static str {
    match verdict {
        0 => "judge unanswered",
        1 => "judge passed",
        2 => "judge said wrong reply",
        257..=511 => "judge refused",
        _ => "judge said otherwise",
    }
}
