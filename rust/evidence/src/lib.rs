//! The proved library beside an independent model.
//!
//! A [`Line`] lends both the same bytes, makes the same calls on both and compares everything that comes back. [`histories`] makes
//! random calls, and [`systematic`] goes through the boundaries one by one. [`recordings`] does the same for recorded lines: random ones,
//! and the boundaries of their records; [`exchanges`] for the host's end: requests built, and replies judged. In both, bytes come as they were
//! sent or with some [`damage`]. [`session`] and [`errands`] are what the benchmarks measure.

pub mod damage;
mod effects;
pub mod errands;
pub mod exchanges;
mod guarded;
pub mod histories;
mod line;
mod noise;
pub mod packets;
pub mod profiles;
pub mod recordings;
pub mod session;
mod subject;
pub mod systematic;

pub use effects::Effects;
pub use line::{Lent, Line, Pair};
pub use noise::Noise;
#[cfg(feature = "proved")]
pub use subject::Proved;
pub use subject::{Fed, Judge, Model, Numbers, Said, Subject};
pub use subject::{BUFFER_BYTES, PROFILE_BYTES, STATE_BYTES};

/// What the tests compare with the model: the proved library, or where it isn't linked the model itself.
pub fn tested() -> Box<dyn Subject> {
    #[cfg(feature = "proved")]
    return Box::new(Proved);
    #[cfg(not(feature = "proved"))]
    return Box::new(Model(None));
}
