//! Why a call is refused.

use std::error::Error;
use std::fmt;

/// A refused call. There is no case for an accepted one: nothing here means OK by default.
#[derive(Clone, Copy, Debug, PartialEq, Eq)]
pub enum Refusal {
    /// 4: the profile is not acceptable; [`Profile::broken_rules`](crate::Profile::broken_rules) says why.
    UnacceptableProfile,
    /// 1: the image is not as long as the profile's areas together.
    WrongImageLength,
    /// 5: the state does not fit the profile and the bytes held, or is no state.
    UnfitState,
    /// 2: the receive buffer has fewer than 1,030 bytes.
    ShortReceiveBuffer,
    /// 3: the reply buffer has fewer than 1,030 bytes.
    ShortReplyBuffer,
}

impl Refusal {
    /// The refusal of a number; `Ok` for 0, the number of an accepted call.
    ///
    /// # Panics
    ///
    /// On a number that the library never answers.
    pub fn check(number: u32) -> Result<(), Refusal> {
        match number {
            0 => Ok(()),
            1 => Err(Refusal::WrongImageLength),
            2 => Err(Refusal::ShortReceiveBuffer),
            3 => Err(Refusal::ShortReplyBuffer),
            4 => Err(Refusal::UnacceptableProfile),
            5 => Err(Refusal::UnfitState),
            _ => panic!("the library answered {}, which is no refusal", number),
        }
    }

    /// Its number in the protocol and in `include/indraveck.h`.
    pub fn number(self) -> u32 {
        match self {
            Refusal::WrongImageLength => 1,
            Refusal::ShortReceiveBuffer => 2,
            Refusal::ShortReplyBuffer => 3,
            Refusal::UnacceptableProfile => 4,
            Refusal::UnfitState => 5,
        }
    }
}

impl fmt::Display for Refusal {
    fn fmt(&self, f: &mut fmt::Formatter) -> fmt::Result {
        let words = match self {
            Refusal::UnacceptableProfile => "the profile is not acceptable",
            Refusal::WrongImageLength => "the image is not as long as the profile's areas together",
            Refusal::UnfitState => "the state does not fit the profile and the bytes held",
            Refusal::ShortReceiveBuffer => "the receive buffer has fewer than 1,030 bytes",
            Refusal::ShortReplyBuffer => "the reply buffer has fewer than 1,030 bytes",
        };
        write!(f, "{} (refusal {})", words, self.number())
    }
}

impl Error for Refusal {}

/// A start or a resumption that was refused, with the image that was lent for it.
pub struct StartError<I> {
    /// Why.
    pub refusal: Refusal,
    /// The image, as it was.
    pub image: I,
}

impl<I> StartError<I> {
    pub(crate) fn new(refusal: Refusal, image: I) -> StartError<I> {
        StartError { refusal, image }
    }
}

/// Without the image: it is as large as the flash.
impl<I> fmt::Debug for StartError<I> {
    fn fmt(&self, f: &mut fmt::Formatter) -> fmt::Result {
        f.debug_struct("StartError")
            .field("refusal", &self.refusal)
            .finish_non_exhaustive()
    }
}

impl<I> fmt::Display for StartError<I> {
    fn fmt(&self, f: &mut fmt::Formatter) -> fmt::Result {
        self.refusal.fmt(f)
    }
}

impl<I> Error for StartError<I> {}
