//! A device's state, kept while the device is gone.

use crate::device::{Device, BUFFER_BYTES};
use crate::profile::Profile;
use crate::refusal::{Refusal, StartError};
use crate::state::{State, STATE_BYTES};
use std::fmt;

/// Where in the state's bytes the count of held bytes stands.
const HELD: usize = 29;

/// What a device keeps beside its profile and its image: the state, and the bytes of an incomplete packet.
#[derive(Clone, PartialEq, Eq)]
pub struct Saved {
    state: [u8; STATE_BYTES],
    /// As many as the state says.
    held: Vec<u8>,
}

impl Saved {
    /// The state's 33 bytes, as in `include/indraveck.h`, and the held bytes behind them.
    pub fn to_bytes(&self) -> Vec<u8> {
        [&self.state[..], &self.held].concat()
    }

    /// What [`to_bytes`](Saved::to_bytes) gave. Refused as an unfit state unless there are 33 bytes and as many behind them as the state
    /// holds. Whether the state fits a profile is for [`Device::resume`] to say.
    pub fn from_bytes(bytes: &[u8]) -> Result<Saved, Refusal> {
        if bytes.len() < STATE_BYTES {
            return Err(Refusal::UnfitState);
        }
        let (front, held) = bytes.split_at(STATE_BYTES);
        let mut state = [0; STATE_BYTES];
        state.copy_from_slice(front);
        let count = [
            state[HELD],
            state[HELD + 1],
            state[HELD + 2],
            state[HELD + 3],
        ];
        if u32::from_be_bytes(count) as usize != held.len() {
            return Err(Refusal::UnfitState);
        }
        Ok(Saved {
            state,
            held: held.to_vec(),
        })
    }
}

/// Short: the stage's number, and how many bytes are held.
impl fmt::Debug for Saved {
    fn fmt(&self, f: &mut fmt::Formatter) -> fmt::Result {
        f.debug_struct("Saved")
            .field("stage", &self.state[0])
            .field("held", &self.held.len())
            .finish_non_exhaustive()
    }
}

impl<I: AsRef<[u8]> + AsMut<[u8]>> Device<I> {
    /// What [`resume`](Device::resume) needs beside the profile and the image, to go on at this byte.
    ///
    /// ```
    /// use indraveck::{Device, Profile};
    ///
    /// let profile = Profile::bench();
    /// let mut device = Device::start(&profile, vec![0xFF; profile.total() as usize]).unwrap();
    /// device.feed_all(&[0x00, 0x00, 0x55, 0x01, 0x00]);
    /// let saved = device.save();
    /// let image = device.into_image();
    ///
    /// let mut device = Device::resume(&profile, image, &saved).unwrap();
    /// assert_eq!(device.feed_all(&[0x01, 0x00, 0xFF, 0x03]), [0x81, 0x00, 0x02, 0x00, 0x00, 0xFE, 0x03]);
    /// ```
    pub fn save(&self) -> Saved {
        let held = State::of_library(&self.state).held as usize;
        Saved {
            state: self.state,
            held: self.receive[..held].to_vec(),
        }
    }

    /// A device that goes on where another was saved. Refused, with the image given back, exactly when the library would refuse to
    /// feed it: for the profile, for the image's length, or because the state does not fit.
    ///
    /// What was answered before is not saved: [`payload`](Device::payload) has nothing until the next packet.
    pub fn resume(profile: &Profile, image: I, saved: &Saved) -> Result<Device<I>, StartError<I>> {
        let profile = match profile.to_bytes() {
            Some(bytes) => bytes,
            None => return Err(StartError::new(Refusal::UnacceptableProfile, image)),
        };
        let mut device = Device {
            profile,
            image,
            state: saved.state,
            receive: [0; BUFFER_BYTES],
            reply: [0; BUFFER_BYTES],
        };
        // of more than fit the library sees the count, and refuses
        let held = saved.held.len().min(BUFFER_BYTES);
        device.receive[..held].copy_from_slice(&saved.held[..held]);
        // empty input changes nothing, and is refused as any other
        match device.try_feed_once(&[]).map(|_| ()) {
            Ok(()) => Ok(device),
            Err(refusal) => Err(StartError::new(refusal, device.image)),
        }
    }
}
