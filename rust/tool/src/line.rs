//! What goes over the line, exchange by exchange.

use indraveck::{Device, Stage, State};

/// A request, as far as it was received, and its reply.
pub struct Exchange<'a> {
    pub before: State,
    /// From the start byte on; empty while waking up.
    pub request: &'a [u8],
    pub reply: &'a [u8],
    pub after: State,
}

/// What became of the bytes of one feed.
pub struct Taken<'a> {
    pub consumed: usize,
    /// How many bytes in front the device passed over; none while waking up.
    pub skipped: usize,
    pub exchange: Option<Exchange<'a>>,
}

/// Feeds a device and keeps the bytes of the request that is under way.
#[derive(Default)]
pub struct Line {
    request: Vec<u8>,
    reply: Vec<u8>,
}

/// The byte that a packet starts with; none while waking up.
fn start_byte(stage: Stage) -> Option<u8> {
    match stage {
        Stage::Setting { .. } => None,
        Stage::Authentication | Stage::Command => Some(0x01),
        Stage::Writing { .. } | Stage::Reading { .. } => Some(0x81),
    }
}

impl Line {
    /// Feeds bytes up to the one that completes the first reply.
    pub fn feed<I: AsRef<[u8]> + AsMut<[u8]>>(
        &mut self,
        device: &mut Device<I>,
        input: &[u8],
    ) -> Taken {
        let before = device.state();
        if before.held == 0 {
            self.request.clear();
        }
        let (consumed, reply) = device.feed_once(input);
        self.reply.clear();
        self.reply.extend_from_slice(reply);
        let skipped = self.keep(&before, &input[..consumed]);
        let exchange = if self.reply.is_empty() {
            None
        } else {
            Some(Exchange {
                before,
                request: &self.request,
                reply: &self.reply,
                after: device.state(),
            })
        };
        Taken {
            consumed,
            skipped,
            exchange,
        }
    }

    /// The bytes in front of the start byte are skipped, as the device skips them.
    fn keep(&mut self, before: &State, bytes: &[u8]) -> usize {
        let start = match start_byte(before.stage) {
            Some(start) => start,
            None => return 0,
        };
        let from = if self.request.is_empty() {
            let found = bytes.iter().position(|byte| *byte == start);
            found.unwrap_or(bytes.len())
        } else {
            0
        };
        self.request.extend_from_slice(&bytes[from..]);
        from
    }

    /// How many bytes of a packet have come, and how many it will have if its length is known; none if no packet has begun.
    pub fn begun(&self, state: &State) -> Option<(usize, Option<usize>)> {
        let held = state.held as usize;
        if held == 0 {
            return None;
        }
        let whole = match self.request[..] {
            [_, high, low, ..] => Some(256 * usize::from(high) + usize::from(low) + 5),
            _ => None,
        };
        Some((held, whole))
    }
}

impl Exchange<'_> {
    /// Whether the device said OK to a request that may have changed the flash.
    pub fn stored(&self) -> bool {
        matches!(self.reply, [0x81, 0x00, 0x02, 0x12 | 0x13 | 0x30, 0x00, ..])
    }
}
