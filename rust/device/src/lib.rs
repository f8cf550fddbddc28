//! A proved stand-in for a microcontroller in serial boot mode, and the host's end of its line.
//!
//! A [`Device`] owns its profile, its flash image, its state and its buffers. Received bytes go in, replies come out, and the image
//! can be looked at between any two bytes:
//!
//! ```
//! use indraveck::{Device, Profile};
//!
//! let profile = Profile::bench();
//! let image = vec![0xFF; profile.total() as usize];
//! let mut device = Device::start(&profile, image).expect("the bench profile is acceptable");
//! assert_eq!(device.feed_all(&[0x00, 0x00, 0x55]), [0x00, 0xC3]);
//! ```
//!
//! | To | there is |
//! |---|---|
//! | handle each reply as it comes | [`Device::feed`], [`Device::feed_once`] |
//! | have the replies back | [`Device::feed_all`], [`Device::feed_each`] |
//! | write to it and read from it, as from a serial port | [`Port`] |
//! | take a snapshot | [`Device`]'s `clone`; [`Device::save`] and [`Device::resume`] over an end of the program |
//! | be the host: send requests to a device and judge its replies | [`host`] |
//! | damage the flash | [`Device::image_mut`] |
//! | ask whether it would understand a host's rate | [`Device::matches_rate`] |
//! | read a profile file | [`profile_file`] |
//! | say what is wrong with a profile | [`Profile::broken_rules`] |
//! | write a line down, or read what was written down | [`recording`] |
//! | do a recorded line over again | [`replay()`] |
//!
//! What the device answers and stores, and what the host's end sends and judges, is proved in Rattle; [`raw`] has the same functions on
//! plain slices. The library keeps nothing, so devices are independent of each other, on any threads.

#![deny(missing_docs)]

mod device;
pub mod host;
mod port;
mod profile;
pub mod profile_file;
mod rate;
pub mod raw;
pub mod recording;
mod refusal;
mod replay;
mod rules;
mod saved;
mod state;

pub use device::{Device, BUFFER_BYTES};
pub use port::Port;
pub use profile::{Area, Kind, Profile, AREAS, PROFILE_BYTES};
pub use refusal::{Refusal, StartError};
pub use replay::{replay, Ended, Replayed};
pub use rules::Rule;
pub use saved::Saved;
pub use state::{Stage, State, STATE_BYTES};
