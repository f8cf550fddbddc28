//! The two devices, and the two hosts, behind one interface of bytes.

use indraveck_model::{self as model, Fault, Found, Replayed, Request, Taken, Unbuilt};
use std::ops::Range;

pub const PROFILE_BYTES: usize = 156;
pub const STATE_BYTES: usize = 33;
/// The least length of a receive and of a reply buffer.
pub const BUFFER_BYTES: usize = 1030;

#[derive(Clone, Copy, Debug, PartialEq, Eq)]
pub struct Fed {
    pub refusal: u32,
    pub consumed: usize,
    pub count: usize,
}

impl Fed {
    fn refused(refusal: u32) -> Fed {
        Fed {
            refusal,
            consumed: 0,
            count: 0,
        }
    }
}

/// A request as numbers, or three numbers that are none.
#[derive(Clone, Copy, Debug, PartialEq, Eq)]
pub struct Numbers {
    pub request: u32,
    pub first: u32,
    pub second: u32,
}

/// A judge of replies, of either subject. It is kept by value, so that what is measured makes no other calls.
#[derive(Clone)]
pub enum Judge {
    #[cfg(feature = "proved")]
    Proved(JudgeBytes),
    /// The model's, kept as bytes and decoded at each call, as the library's has to be.
    Model([u8; model::JUDGE_BYTES]),
    /// One with a fault, which not all bytes show.
    Faulty(Option<Fault>, model::Judge),
}

/// What a judge says when it is asked.
#[derive(Clone, Debug, PartialEq, Eq)]
pub struct Said {
    pub verdict: u32,
    /// The first data bytes of the reply.
    pub kept: [u8; 17],
    pub sci: Option<u32>,
    pub area: Option<model::Area>,
}

impl Judge {
    /// The verdict behind some bytes, and what was taken of them.
    #[inline]
    pub fn take(&mut self, bytes: &[u8]) -> (u32, Taken) {
        match self {
            #[cfg(feature = "proved")]
            Judge::Proved(judge) => judge.take(bytes),
            Judge::Model(kept) => {
                let mut judge = model::judge_from(kept).expect("a judge's own bytes");
                let taken = judge.take(bytes);
                *kept = model::judge_bytes(&judge);
                (judge.verdict().number(), taken)
            }
            Judge::Faulty(fault, judge) => {
                let taken = judge.take_with(*fault, bytes);
                (judge.verdict().number(), taken)
            }
        }
    }

    pub fn said(&self) -> Said {
        match self {
            #[cfg(feature = "proved")]
            Judge::Proved(judge) => judge.said(),
            Judge::Model(kept) => {
                let judge = model::judge_from(kept).expect("a judge's own bytes");
                Said {
                    verdict: judge.verdict().number(),
                    kept: *judge.kept(),
                    sci: judge.sci(),
                    area: judge.area(),
                }
            }
            Judge::Faulty(fault, judge) => Said {
                verdict: judge.verdict().number(),
                kept: *judge.kept(),
                sci: judge.sci_with(*fault),
                area: judge.area_with(*fault),
            },
        }
    }

    /// The bytes in which it is kept, where it has any.
    pub fn bytes(&self) -> Option<&[u8]> {
        match self {
            #[cfg(feature = "proved")]
            Judge::Proved(judge) => Some(judge.lent()),
            Judge::Model(kept) => Some(kept),
            Judge::Faulty(..) => None,
        }
    }

    /// Whether what is around its bytes is as it was, where it has bytes.
    pub fn is_guarded(&self) -> bool {
        match self {
            #[cfg(feature = "proved")]
            Judge::Proved(judge) => judge.is_guarded(),
            Judge::Model(_) | Judge::Faulty(..) => true,
        }
    }
}

/// The library's judge, in the middle of bytes that nobody may touch.
#[cfg(feature = "proved")]
#[derive(Clone)]
pub struct JudgeBytes([u8; JUDGE_GUARD + JUDGE_BYTES + JUDGE_GUARD]);

#[cfg(feature = "proved")]
const JUDGE_BYTES: usize = 36;
#[cfg(feature = "proved")]
const JUDGE_GUARD: usize = 6;

#[cfg(feature = "proved")]
impl JudgeBytes {
    const GUARD: u8 = 0x6B;

    fn begin(numbers: Numbers) -> Option<JudgeBytes> {
        let mut judge = JudgeBytes([JudgeBytes::GUARD; JUDGE_GUARD + JUDGE_BYTES + JUDGE_GUARD]);
        let Numbers {
            request,
            first,
            second,
        } = numbers;
        match indraveck::raw::judge_begin(judge.lent_mut(), request, first, second) {
            1 => Some(judge),
            5 => {
                let untouched = judge.0.iter().all(|byte| *byte == JudgeBytes::GUARD);
                assert!(untouched, "a judge that was not begun is left");
                None
            }
            answer => panic!("a judge was begun with {}", answer),
        }
    }

    fn lent(&self) -> &[u8] {
        &self.0[JUDGE_GUARD..JUDGE_GUARD + JUDGE_BYTES]
    }

    fn lent_mut(&mut self) -> &mut [u8] {
        &mut self.0[JUDGE_GUARD..JUDGE_GUARD + JUDGE_BYTES]
    }

    #[inline]
    fn take(&mut self, bytes: &[u8]) -> (u32, Taken) {
        let taken = indraveck::raw::judge_take(self.lent_mut(), bytes);
        let (count, from, to) = (taken.count, taken.from, taken.to);
        (taken.verdict, Taken { count, from, to })
    }

    /// By the header's places.
    fn said(&self) -> Said {
        let judge = self.lent();
        let verdict = indraveck::raw::judge_verdict(judge);
        let mut kept = [0; 17];
        kept.copy_from_slice(&judge[19..]);
        let four =
            |at: usize| u32::from_be_bytes([kept[at], kept[at + 1], kept[at + 2], kept[at + 3]]);
        let area = model::Area {
            koa: kept[0],
            sad: four(1),
            ead: four(5),
            eau: four(9),
            wau: four(13),
        };
        let passed = |request: u8| verdict == 1 && judge[2] == request;
        Said {
            verdict,
            kept,
            sci: passed(7).then(|| four(0)),
            area: passed(8).then_some(area),
        }
    }

    fn is_guarded(&self) -> bool {
        let guards = self.0[..JUDGE_GUARD]
            .iter()
            .chain(&self.0[JUDGE_GUARD + JUDGE_BYTES..]);
        guards.into_iter().all(|byte| *byte == JudgeBytes::GUARD)
    }
}

/// A device and a host as `include/indraveck.h` describes them.
pub trait Subject {
    /// What a difference calls it.
    fn name(&self) -> String;

    fn start(&self, profile: &[u8], image: &[u8], state: &mut [u8]) -> u32;

    fn reset(&self, profile: &[u8], image: &[u8], state: &mut [u8]) -> u32;

    fn feed(
        &self,
        profile: &[u8],
        image: &mut [u8],
        state: &mut [u8],
        receive: &mut [u8],
        reply: &mut [u8],
        input: &[u8],
    ) -> Fed;

    fn payload(&self, receive: &[u8], count: usize) -> Option<Range<usize>>;

    fn read_record(&self, recording: &[u8], at: usize) -> Found;

    fn write_record(
        &self,
        buffer: &mut [u8],
        at: usize,
        direction: u32,
        bytes: &[u8],
    ) -> (u32, usize);

    fn replay(&self, profile: &[u8], image: &mut [u8], recording: &[u8]) -> Replayed;

    /// Builds the packet of a request: the answer, and how long the packet is.
    fn build(&self, buffer: &mut [u8], numbers: Numbers, bytes: &[u8]) -> (u32, usize);

    /// A judge of the reply to a request; `None` if there is no such request.
    fn judge(&self, numbers: Numbers) -> Option<Judge>;
}

/// The proved library.
#[cfg(feature = "proved")]
pub struct Proved;

#[cfg(feature = "proved")]
impl Subject for Proved {
    fn name(&self) -> String {
        "the library".to_string()
    }

    fn start(&self, profile: &[u8], image: &[u8], state: &mut [u8]) -> u32 {
        indraveck::raw::start(profile, image, state)
    }

    fn reset(&self, profile: &[u8], image: &[u8], state: &mut [u8]) -> u32 {
        indraveck::raw::reset(profile, image, state)
    }

    fn feed(
        &self,
        profile: &[u8],
        image: &mut [u8],
        state: &mut [u8],
        receive: &mut [u8],
        reply: &mut [u8],
        input: &[u8],
    ) -> Fed {
        let fed = indraveck::raw::feed(profile, image, state, receive, reply, input);
        Fed {
            refusal: fed.refusal,
            consumed: fed.consumed,
            count: fed.count,
        }
    }

    fn payload(&self, receive: &[u8], count: usize) -> Option<Range<usize>> {
        indraveck::raw::payload(receive, count)
    }

    fn read_record(&self, recording: &[u8], at: usize) -> Found {
        let found = indraveck::raw::read_record(recording, at);
        Found {
            answer: found.answer,
            from: found.from,
            to: found.to,
        }
    }

    fn write_record(
        &self,
        buffer: &mut [u8],
        at: usize,
        direction: u32,
        bytes: &[u8],
    ) -> (u32, usize) {
        indraveck::raw::write_record(buffer, at, direction, bytes)
    }

    fn replay(&self, profile: &[u8], image: &mut [u8], recording: &[u8]) -> Replayed {
        let replayed = indraveck::raw::replay(profile, image, recording);
        Replayed {
            refusal: replayed.refusal,
            read: replayed.read,
            ended: replayed.ended,
        }
    }

    #[inline]
    fn build(&self, buffer: &mut [u8], numbers: Numbers, bytes: &[u8]) -> (u32, usize) {
        let Numbers {
            request,
            first,
            second,
        } = numbers;
        indraveck::raw::build(buffer, request, first, second, bytes)
    }

    #[inline]
    fn judge(&self, numbers: Numbers) -> Option<Judge> {
        JudgeBytes::begin(numbers).map(Judge::Proved)
    }
}

/// The request that has these numbers, as the model has it.
pub(crate) fn request_of(numbers: Numbers) -> Option<Request> {
    Request::of_numbers(numbers.request, numbers.first, numbers.second)
}

/// The model, right or with one deliberate fault. It decodes profile and state at each call, as the library has to.
pub struct Model(pub Option<Fault>);

impl Model {
    fn start_state(&self, profile: &model::Profile, image: &[u8]) -> (u32, model::State) {
        match self.0 {
            None => model::start(profile, image),
            fault => model::start_with(fault, profile, image),
        }
    }
}

impl Subject for Model {
    fn name(&self) -> String {
        match self.0 {
            None => "the model".to_string(),
            Some(fault) => format!("the model with {:?}", fault),
        }
    }

    fn start(&self, profile: &[u8], image: &[u8], state: &mut [u8]) -> u32 {
        let (refusal, bytes) = match model::profile_from(profile) {
            None => (4, [0; STATE_BYTES]),
            Some(profile) => {
                let (refusal, fresh) = self.start_state(&profile, image);
                (refusal, model::state_bytes(&fresh))
            }
        };
        if state.len() == STATE_BYTES {
            state.copy_from_slice(&bytes);
            refusal
        } else if refusal != 0 {
            refusal
        } else {
            5
        }
    }

    fn reset(&self, profile: &[u8], image: &[u8], state: &mut [u8]) -> u32 {
        let profile = match model::profile_from(profile) {
            None => return 4,
            Some(profile) => profile,
        };
        let (refusal, fresh) = match (self.0, model::state_from(state)) {
            // any 33 bytes may be reset, so that the model gets a state for those that are none
            (_, None) => self.start_state(&profile, image),
            (None, Some(old)) => model::reset(&profile, image, &old),
            (fault, Some(old)) => model::reset_with(fault, &profile, image, &old),
        };
        if refusal != 0 {
            return refusal;
        }
        if state.len() != STATE_BYTES {
            return 5;
        }
        state.copy_from_slice(&model::state_bytes(&fresh));
        0
    }

    fn feed(
        &self,
        profile: &[u8],
        image: &mut [u8],
        state: &mut [u8],
        receive: &mut [u8],
        reply: &mut [u8],
        input: &[u8],
    ) -> Fed {
        let profile = match model::profile_from(profile) {
            None => return Fed::refused(4),
            Some(profile) => profile,
        };
        let mut decoded = match model::state_from(state) {
            Some(decoded) => decoded,
            // profile and image come before the state, also where its bytes are none
            None => {
                return Fed::refused(match self.start_state(&profile, image).0 {
                    0 => 5,
                    refusal => refusal,
                })
            }
        };
        let fed = match self.0 {
            None => model::feed(&profile, image, &mut decoded, receive, reply, input),
            fault => model::feed_with(fault, &profile, image, &mut decoded, receive, reply, input),
        };
        if fed.refusal == 0 {
            state.copy_from_slice(&model::state_bytes(&decoded));
        }
        Fed {
            refusal: fed.refusal,
            consumed: fed.consumed,
            count: fed.count,
        }
    }

    fn payload(&self, receive: &[u8], count: usize) -> Option<Range<usize>> {
        model::payload(receive, count)
    }

    fn read_record(&self, recording: &[u8], at: usize) -> Found {
        match self.0 {
            None => model::read_record(recording, at),
            fault => model::read_record_with(fault, recording, at),
        }
    }

    fn write_record(
        &self,
        buffer: &mut [u8],
        at: usize,
        direction: u32,
        bytes: &[u8],
    ) -> (u32, usize) {
        match self.0 {
            None => model::write_record(buffer, at, direction, bytes),
            fault => model::write_record_with(fault, buffer, at, direction, bytes),
        }
    }

    fn replay(&self, profile: &[u8], image: &mut [u8], recording: &[u8]) -> Replayed {
        let profile = match model::profile_from(profile) {
            Some(profile) => profile,
            // bytes of another length are no profile, and are refused as one without areas is
            None => model::Profile {
                noa: 0,
                ..crate::profiles::bench()
            },
        };
        match self.0 {
            None => model::replay_recording(&profile, image, recording),
            fault => model::replay_recording_with(fault, &profile, image, recording),
        }
    }

    #[inline]
    fn build(&self, buffer: &mut [u8], numbers: Numbers, bytes: &[u8]) -> (u32, usize) {
        let request = match request_of(numbers) {
            Some(request) => request,
            None => return (5, 0),
        };
        let built = match self.0 {
            None => model::build(request, bytes, buffer),
            fault => model::build_with(fault, request, bytes, buffer),
        };
        match built {
            Ok(length) => (1, length),
            Err(Unbuilt::WrongAmount) => (2, 0),
            Err(Unbuilt::NothingLeft) => (3, 0),
            Err(Unbuilt::NoRoom) => (4, 0),
        }
    }

    #[inline]
    fn judge(&self, numbers: Numbers) -> Option<Judge> {
        let request = request_of(numbers)?;
        Some(match self.0 {
            None => Judge::Model(model::judge_bytes(&model::Judge::start(request))),
            fault => Judge::Faulty(fault, model::Judge::start_with(fault, request)),
        })
    }
}
