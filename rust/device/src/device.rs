//! A device that owns what the library is lent.

use crate::profile::{Profile, PROFILE_BYTES};
use crate::raw;
use crate::refusal::{Refusal, StartError};
use crate::state::{State, STATE_BYTES};
use std::fmt;

/// The least length of a receive and of a reply buffer: a packet of the longest length, with start byte, length, SUM and ETX.
pub const BUFFER_BYTES: usize = 1030;

/// A device with its flash image in `I`: a vector, a mapped file, anything that lends its bytes.
///
/// A clone is a snapshot: it answers as the device would from here on, with an image of its own.
///
/// ```
/// use indraveck::{Device, Profile};
///
/// let profile = Profile::bench();
/// let mut device = Device::start(&profile, vec![0xFF; profile.total() as usize]).unwrap();
/// device.feed_all(&[0x00]);
/// let mut snapshot = device.clone();
/// assert_eq!(device.feed_all(&[0x00, 0x55]), [0x00, 0xC3]);
/// assert_eq!(snapshot.feed_all(&[0x00, 0x55]), [0x00, 0xC3]);
/// ```
///
/// # Panics
///
/// A started device is never refused anything, so the functions that feed and reset need no `Result`. There is one way to change that:
/// giving the image another length (see [`image_mut`](Device::image_mut)). Then they panic, and those named `try_` say which refusal
/// it is.
#[derive(Clone)]
pub struct Device<I> {
    pub(crate) profile: [u8; PROFILE_BYTES],
    pub(crate) image: I,
    pub(crate) state: [u8; STATE_BYTES],
    pub(crate) receive: [u8; BUFFER_BYTES],
    pub(crate) reply: [u8; BUFFER_BYTES],
}

/// Short: what it is and where it stands, never its bytes.
impl<I: AsRef<[u8]>> fmt::Debug for Device<I> {
    fn fmt(&self, f: &mut fmt::Formatter) -> fmt::Result {
        let state = State::of_library(&self.state);
        f.debug_struct("Device")
            .field("areas", &self.profile[0])
            .field("sci", &self.sci())
            .field("stage", &state.stage)
            .field("held", &state.held)
            .field("image_len", &self.image.as_ref().len())
            .finish_non_exhaustive()
    }
}

impl<I: AsRef<[u8]> + AsMut<[u8]>> Device<I> {
    /// A device in its fresh state. A refused start gives the image back.
    pub fn start(profile: &Profile, image: I) -> Result<Device<I>, StartError<I>> {
        let profile = match profile.to_bytes() {
            Some(bytes) => bytes,
            None => return Err(StartError::new(Refusal::UnacceptableProfile, image)),
        };
        let mut state = [0; STATE_BYTES];
        match Refusal::check(raw::start(&profile, image.as_ref(), &mut state)) {
            Ok(()) => Ok(Device {
                profile,
                image,
                state,
                receive: [0; BUFFER_BYTES],
                reply: [0; BUFFER_BYTES],
            }),
            Err(refusal) => Err(StartError::new(refusal, image)),
        }
    }

    /// The fresh state again; the flash stays as it is.
    pub fn reset(&mut self) {
        self.try_reset()
            .expect("the image still has the profile's length")
    }

    /// As [`reset`](Device::reset); refused, and the state left, if the image has another length than at the start.
    pub fn try_reset(&mut self) -> Result<(), Refusal> {
        let answer = raw::reset(&self.profile, self.image.as_ref(), &mut self.state);
        Refusal::check(answer)
    }

    /// Feeds bytes up to the one that completes the first reply: how many were consumed, and the reply, empty if there is none.
    ///
    /// Without a reply all of the bytes are consumed, so a loop over what is left ends.
    pub fn feed_once(&mut self, input: &[u8]) -> (usize, &[u8]) {
        self.try_feed_once(input)
            .expect("the image still has the profile's length")
    }

    /// As [`feed_once`](Device::feed_once); refused, and nothing changed, if the image has another length than at the start.
    pub fn try_feed_once(&mut self, input: &[u8]) -> Result<(usize, &[u8]), Refusal> {
        let fed = raw::feed(
            &self.profile,
            self.image.as_mut(),
            &mut self.state,
            &mut self.receive,
            &mut self.reply,
            input,
        );
        Refusal::check(fed.refusal)?;
        Ok((fed.consumed, &self.reply[..fed.count]))
    }

    /// Feeds all of the bytes, and hands each reply on as it comes.
    pub fn feed(&mut self, input: &[u8], mut on_reply: impl FnMut(&[u8])) {
        let mut rest = input;
        while !rest.is_empty() {
            let (consumed, reply) = self.feed_once(rest);
            if !reply.is_empty() {
                on_reply(reply);
            }
            rest = &rest[consumed..];
        }
    }

    /// Feeds all of the bytes: what the device sends back, one reply right behind the other.
    ///
    /// ```
    /// # use indraveck::{Device, Profile};
    /// # let profile = Profile::bench();
    /// # let mut device = Device::start(&profile, vec![0xFF; profile.total() as usize]).unwrap();
    /// assert_eq!(device.feed_all(&[0x00, 0x00, 0x55]), [0x00, 0xC3]);
    /// ```
    pub fn feed_all(&mut self, input: &[u8]) -> Vec<u8> {
        let mut bytes = Vec::new();
        self.feed(input, |reply| bytes.extend_from_slice(reply));
        bytes
    }

    /// Feeds all of the bytes: the replies, each by itself.
    ///
    /// ```
    /// # use indraveck::{Device, Profile};
    /// # let profile = Profile::bench();
    /// # let mut device = Device::start(&profile, vec![0xFF; profile.total() as usize]).unwrap();
    /// assert_eq!(device.feed_each(&[0x00, 0x00, 0x55]), [[0x00], [0xC3]]);
    /// ```
    pub fn feed_each(&mut self, input: &[u8]) -> Vec<Vec<u8>> {
        let mut replies = Vec::new();
        self.feed(input, |reply| replies.push(reply.to_vec()));
        replies
    }

    /// The packet that was answered last, or what is held of the next one: COM or RES and what follows before SUM, out of the first
    /// `count` received bytes; `None` unless they are exactly one good packet.
    ///
    /// That an answered packet still stands in the buffer is so today; the library promises only the bytes that are held.
    pub fn payload(&self, count: usize) -> Option<&[u8]> {
        raw::payload(&self.receive, count).map(|part| &self.receive[part])
    }

    /// The flash.
    pub fn image(&self) -> &I {
        &self.image
    }

    /// The flash, to write behind the device's back: a bit that flips, a sector that went bad. The device sees it with its next byte.
    ///
    /// The image has to keep its length. While it has another one the device does nothing: `try_feed_once` and `try_reset` refuse with
    /// [`Refusal::WrongImageLength`], the other functions that feed or reset panic. With its length back it goes on where it was.
    ///
    /// ```
    /// # use indraveck::{Device, Profile};
    /// # let profile = Profile::bench();
    /// # let mut device = Device::start(&profile, vec![0xFF; profile.total() as usize]).unwrap();
    /// device.image_mut()[0x2000] ^= 0x01;
    /// assert_eq!(device.image()[0x2000], 0xFE);
    /// ```
    pub fn image_mut(&mut self) -> &mut I {
        &mut self.image
    }

    /// The image back, and the device's end.
    pub fn into_image(self) -> I {
        self.image
    }

    /// Where the device stands.
    pub fn state(&self) -> State {
        State::of_library(&self.state)
    }

    /// The rate of the line as the device has it set, in baud, rounded to the nearest (see [`State::rate`]).
    pub fn line_rate(&self) -> u32 {
        self.state().rate(self.sci())
    }

    /// Whether a host that runs at `rate` can be understood: the device's exact rate differs from it by at most 4 % of it, the
    /// tolerance of the baud rate command (see [`State::matches_rate`]).
    ///
    /// ```
    /// # use indraveck::{Device, Profile};
    /// # let profile = Profile::bench();
    /// let device = Device::start(&profile, vec![0xFF; profile.total() as usize]).unwrap();
    /// assert_eq!(device.line_rate(), 9578);
    /// assert!(device.matches_rate(9600));
    /// assert!(!device.matches_rate(115_200));
    /// ```
    pub fn matches_rate(&self, rate: u32) -> bool {
        self.state().matches_rate(self.sci(), rate)
    }
}

impl<I> Device<I> {
    fn sci(&self) -> u32 {
        let sci = &self.profile[4..8];
        u32::from_be_bytes([sci[0], sci[1], sci[2], sci[3]])
    }
}
