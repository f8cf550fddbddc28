//! Lent bytes between guards.

const GUARD: usize = 32;
const GUARDS: [u8; GUARD] = guards();

/// No two neighbours are equal and none is 00h or FFh, so that neither a fill nor a copy by one place looks untouched.
const fn guards() -> [u8; GUARD] {
    let mut bytes = [0; GUARD];
    let mut at = 0;
    while at < GUARD {
        bytes[at] = 0x40 + (at as u8).wrapping_mul(37) % 0x7F;
        at += 1;
    }
    bytes
}

/// Bytes to lend, inside a larger allocation whose other bytes nobody may touch.
#[derive(Clone, Default)]
pub(crate) struct Guarded {
    bytes: Vec<u8>,
}

impl Guarded {
    pub(crate) fn new(lent: &[u8]) -> Guarded {
        let mut guarded = Guarded::default();
        guarded.set(lent);
        guarded
    }

    pub(crate) fn set(&mut self, lent: &[u8]) {
        self.bytes.clear();
        self.bytes.reserve(lent.len() + 2 * GUARD);
        self.bytes.extend_from_slice(&GUARDS);
        self.bytes.extend_from_slice(lent);
        self.bytes.extend_from_slice(&GUARDS);
    }

    pub(crate) fn lent(&self) -> &[u8] {
        &self.bytes[GUARD..self.bytes.len() - GUARD]
    }

    pub(crate) fn lent_mut(&mut self) -> &mut [u8] {
        let behind = self.bytes.len() - GUARD;
        &mut self.bytes[GUARD..behind]
    }

    pub(crate) fn is_guarded(&self) -> bool {
        self.bytes.starts_with(&GUARDS) && self.bytes.ends_with(&GUARDS)
    }
}
