//! The replay of a recorded line.

use crate::profile::Profile;
use crate::raw;
use crate::recording::{self, Unreadable, UnreadableAt};
use crate::refusal::Refusal;

/// How far a replay read its recording, and why no further.
#[must_use = "the reading may have ended at a record that cannot be read"]
#[derive(Clone, Copy, Debug, PartialEq, Eq)]
pub struct Replayed {
    /// How many of the recording's bytes were read.
    pub read: usize,
    /// Why no more.
    pub ended: Ended,
}

/// Why a replay read no further.
#[derive(Clone, Copy, Debug, PartialEq, Eq)]
pub enum Ended {
    /// The recording was read to its end.
    AtEnd,
    /// The record behind the bytes that were read cannot be, for this reason. The records before it were replayed, and none behind it.
    Unreadable(Unreadable),
}

impl Replayed {
    /// `Ok` only if the recording was read to its end; otherwise the record with which the reading ended.
    pub fn whole(self) -> Result<(), UnreadableAt> {
        match self.ended {
            Ended::AtEnd => Ok(()),
            Ended::Unreadable(reason) => Err(UnreadableAt {
                place: self.read,
                reason,
            }),
        }
    }
}

/// Replays a recorded line on an image: what each request that was answered OK erased or wrote. Says how many of the [recording]'s bytes
/// were read and why no more: all, unless there is a record that cannot be read, with which the reading ends. A refused replay leaves
/// the image.
///
/// Each request is one host record, with the reply as the device record right behind it. A record without its partner does nothing, and
/// a request in two host records is not put together.
///
/// ```
/// use indraveck::recording::Unreadable;
/// use indraveck::{replay, Ended, Profile, Replayed};
///
/// let erase = [0x01, 0x00, 0x09, 0x12, 0x00, 0x00, 0x00, 0x00, 0x00, 0x00, 0x1F, 0xFF, 0xC7, 0x03];
/// let ok = [0x81, 0x00, 0x02, 0x12, 0x00, 0xEC, 0x03];
/// let recording = [&[0x52, 0x4C, 0x48, 0x00, 14], &erase[..], &[0x52, 0x4C, 0x44, 0x00, 7], &ok[..]].concat();
///
/// let profile = Profile::bench();
/// let mut image = vec![0x5A; profile.total() as usize];
/// let cut = replay(&profile, &mut image, &recording[..30])?;
/// assert_eq!(cut, Replayed { read: 19, ended: Ended::Unreadable(Unreadable::CutShort) });
/// assert_eq!(image[0], 0x5A);
///
/// replay(&profile, &mut image, &recording)?.whole()?;
/// assert_eq!((image[0x1FFF], image[0x2000]), (0xFF, 0x5A));
/// # Ok::<(), Box<dyn std::error::Error>>(())
/// ```
pub fn replay(profile: &Profile, image: &mut [u8], recording: &[u8]) -> Result<Replayed, Refusal> {
    let profile = profile.to_bytes().ok_or(Refusal::UnacceptableProfile)?;
    let replayed = raw::replay(&profile, image, recording);
    Refusal::check(replayed.refusal)?;
    let ended = match replayed.ended {
        recording::END => Ended::AtEnd,
        answer => Ended::Unreadable(Unreadable::of_answer(answer)),
    };
    Ok(Replayed {
        read: replayed.read,
        ended,
    })
}
