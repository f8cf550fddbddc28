//! The eleven functions of `include/indraveck.h` on slices. Each takes any slices: what is wrong is refused with its number, and
//! nothing but the slices is read or written. That is proved of the library, so the calls are safe.
//!
//! The header says what stands where in the bytes of a profile, of a state and of a judge, and what has to be kept between two feeds.
//!
//! ```
//! use indraveck::{raw, Profile, BUFFER_BYTES, STATE_BYTES};
//!
//! let profile = Profile::bench();
//! let mut image = vec![0xFF; profile.total() as usize];
//! let profile = profile.to_bytes().unwrap();
//! let mut state = [0; STATE_BYTES];
//! let (mut receive, mut reply) = ([0; BUFFER_BYTES], [0; BUFFER_BYTES]);
//! assert_eq!(raw::start(&profile, &image, &mut state), 0);
//! let fed = raw::feed(&profile, &mut image, &mut state, &mut receive, &mut reply, &[0x00, 0x00, 0x55]);
//! assert_eq!((fed.refusal, fed.consumed, fed.count), (0, 2, 1));
//! assert_eq!(reply[0], 0x00);
//! ```

extern "C" {
    fn indraveck_start(
        profile: *const u8,
        profile_len: usize,
        image: *const u8,
        image_len: usize,
        state: *mut u8,
        state_len: usize,
    ) -> u32;
    fn indraveck_reset(
        profile: *const u8,
        profile_len: usize,
        image: *const u8,
        image_len: usize,
        state: *mut u8,
        state_len: usize,
    ) -> u32;
    fn indraveck_feed(
        profile: *const u8,
        profile_len: usize,
        image: *mut u8,
        image_len: usize,
        state: *mut u8,
        state_len: usize,
        receive: *mut u8,
        receive_len: usize,
        reply: *mut u8,
        reply_len: usize,
        input: *const u8,
        input_len: usize,
        consumed: *mut u64,
        count: *mut u64,
    ) -> u32;
    fn indraveck_payload(
        receive: *const u8,
        receive_len: usize,
        count: usize,
        start: *mut u64,
        length: *mut u64,
    ) -> u32;
    fn indraveck_build(
        buffer: *mut u8,
        buffer_len: usize,
        request: u32,
        first: u32,
        second: u32,
        bytes: *const u8,
        bytes_len: usize,
        length: *mut u64,
    ) -> u32;
    fn indraveck_judge_begin(
        judge: *mut u8,
        judge_len: usize,
        request: u32,
        first: u32,
        second: u32,
    ) -> u32;
    fn indraveck_judge_take(
        judge: *mut u8,
        judge_len: usize,
        bytes: *const u8,
        bytes_len: usize,
        taken: *mut u64,
        from: *mut u64,
        to: *mut u64,
    ) -> u32;
    fn indraveck_judge_verdict(judge: *const u8, judge_len: usize) -> u32;
    fn indraveck_read_record(
        recording: *const u8,
        recording_len: usize,
        at: usize,
        from: *mut u64,
        to: *mut u64,
    ) -> u32;
    fn indraveck_write_record(
        buffer: *mut u8,
        buffer_len: usize,
        at: usize,
        direction: u32,
        bytes: *const u8,
        bytes_len: usize,
        to: *mut u64,
    ) -> u32;
    fn indraveck_replay(
        profile: *const u8,
        profile_len: usize,
        image: *mut u8,
        image_len: usize,
        recording: *const u8,
        recording_len: usize,
        read: *mut u64,
        ended: *mut u32,
    ) -> u32;
}

/// The number of the refusal, 0 for accepted, and what a feed consumed and answered.
#[derive(Clone, Copy, Debug, PartialEq, Eq)]
pub struct Fed {
    /// The number of the refusal, 0 for accepted; [`Refusal::check`](crate::Refusal::check) has it in words.
    pub refusal: u32,
    /// How many bytes of the input were consumed.
    pub consumed: usize,
    /// How long the reply at the front of the reply buffer is, 0 if there is none.
    pub count: usize,
}

/// Writes a fresh state, and answers the number of the refusal, 0 for accepted. A refused start writes zeros, unless the state's length
/// is wrong: then it is left.
#[inline]
pub fn start(profile: &[u8], image: &[u8], state: &mut [u8]) -> u32 {
    unsafe {
        indraveck_start(
            profile.as_ptr(),
            profile.len(),
            image.as_ptr(),
            image.len(),
            state.as_mut_ptr(),
            state.len(),
        )
    }
}

/// Writes a fresh state, whatever the bytes were, and answers the number of the refusal, 0 for accepted. A refused reset leaves them.
#[inline]
pub fn reset(profile: &[u8], image: &[u8], state: &mut [u8]) -> u32 {
    unsafe {
        indraveck_reset(
            profile.as_ptr(),
            profile.len(),
            image.as_ptr(),
            image.len(),
            state.as_mut_ptr(),
            state.len(),
        )
    }
}

/// Feeds bytes up to the one that completes the first reply. A refused feed changes nothing.
#[inline]
pub fn feed(
    profile: &[u8],
    image: &mut [u8],
    state: &mut [u8],
    receive: &mut [u8],
    reply: &mut [u8],
    input: &[u8],
) -> Fed {
    let mut consumed = 0;
    let mut count = 0;
    let refusal = unsafe {
        indraveck_feed(
            profile.as_ptr(),
            profile.len(),
            image.as_mut_ptr(),
            image.len(),
            state.as_mut_ptr(),
            state.len(),
            receive.as_mut_ptr(),
            receive.len(),
            reply.as_mut_ptr(),
            reply.len(),
            input.as_ptr(),
            input.len(),
            &mut consumed,
            &mut count,
        )
    };
    // both are at most a slice's length
    Fed {
        refusal,
        consumed: consumed as usize,
        count: count as usize,
    }
}

/// Where the payload stands in the receive buffer; `None` where it is empty.
#[inline]
pub fn payload(receive: &[u8], count: usize) -> Option<std::ops::Range<usize>> {
    let mut start = 0;
    let mut length = 0;
    let there = unsafe {
        indraveck_payload(
            receive.as_ptr(),
            receive.len(),
            count,
            &mut start,
            &mut length,
        )
    };
    if there == 0 {
        return None;
    }
    let start = start as usize;
    Some(start..start + length as usize)
}

/// Builds the packet of a request at the front of a buffer: 1 if it was built, or 2 to 5, never 0; and its length, 0 if it was not built.
/// [`Request::packet_into`](crate::host::Request::packet_into) has it in words.
#[inline]
pub fn build(
    buffer: &mut [u8],
    request: u32,
    first: u32,
    second: u32,
    bytes: &[u8],
) -> (u32, usize) {
    // no length, so that one which was not written is not taken for one
    let mut length = u64::MAX;
    let answer = unsafe {
        indraveck_build(
            buffer.as_mut_ptr(),
            buffer.len(),
            request,
            first,
            second,
            bytes.as_ptr(),
            bytes.len(),
            &mut length,
        )
    };
    // at most the buffer's
    (answer, length as usize)
}

/// Writes a judge of the reply to a request: 1 if it was written, or 5 or 6, never 0; then the bytes are left.
/// [`Judge::new`](crate::host::Judge::new) has it in words.
#[inline]
pub fn judge_begin(judge: &mut [u8], request: u32, first: u32, second: u32) -> u32 {
    unsafe { indraveck_judge_begin(judge.as_mut_ptr(), judge.len(), request, first, second) }
}

/// The verdict behind some bytes, how many of them a judge took, and which of those are the reply's data.
#[must_use = "bytes that were not taken are still the caller's"]
#[derive(Clone, Copy, Debug, PartialEq, Eq)]
pub struct Taken {
    /// The verdict: 0 unanswered, 1 passed, 2 wrong reply, 256 and the status code refused; 3 of bytes that are no judge.
    pub verdict: u32,
    /// How many bytes were taken.
    pub count: usize,
    /// Where the reply's data begins among them.
    pub from: usize,
    /// Where it ends; where it begins if there is none.
    pub to: usize,
}

/// Gives a judge bytes that came back; [`Judge::take`](crate::host::Judge::take) has it in words.
#[inline]
pub fn judge_take(judge: &mut [u8], bytes: &[u8]) -> Taken {
    let mut taken = u64::MAX;
    let mut from = u64::MAX;
    let mut to = u64::MAX;
    let verdict = unsafe {
        indraveck_judge_take(
            judge.as_mut_ptr(),
            judge.len(),
            bytes.as_ptr(),
            bytes.len(),
            &mut taken,
            &mut from,
            &mut to,
        )
    };
    // all are at most how many bytes there are
    Taken {
        verdict,
        count: taken as usize,
        from: from as usize,
        to: to as usize,
    }
}

/// A judge's verdict, or 3 of bytes that are no judge; [`Judge::verdict`](crate::host::Judge::verdict) has it in words.
#[inline]
pub fn judge_verdict(judge: &[u8]) -> u32 {
    unsafe { indraveck_judge_verdict(judge.as_ptr(), judge.len()) }
}

/// What reading one record answered, and where the record's bytes stand.
#[derive(Clone, Copy, Debug, PartialEq, Eq)]
pub struct Found {
    /// The record's direction, 6 at the recording's end, or 1 to 4 for a record that cannot be read; never 0.
    pub answer: u32,
    /// Where the record's bytes begin; the place that was asked for if there is no record.
    pub from: usize,
    /// Where they end and the next record begins; the place that was asked for if there is no record.
    pub to: usize,
}

/// Reads the record at a place of a recording; [`recording::read`](crate::recording::read) has it in words.
#[inline]
pub fn read_record(recording: &[u8], at: usize) -> Found {
    // no place in a slice, so that one which was not written is not taken for one
    let mut from = u64::MAX;
    let mut to = u64::MAX;
    let answer = unsafe {
        indraveck_read_record(recording.as_ptr(), recording.len(), at, &mut from, &mut to)
    };
    // both are places in the recording, or `at`
    Found {
        answer,
        from: from as usize,
        to: to as usize,
    }
}

/// Writes one record at a place of a buffer: 7 if it was written, or 2, 3 or 5, never 0; and the place behind it, or `at` if it was not
/// written. [`recording::write`](crate::recording::write) has it in words.
#[inline]
pub fn write_record(buffer: &mut [u8], at: usize, direction: u32, bytes: &[u8]) -> (u32, usize) {
    let mut to = u64::MAX;
    let answer = unsafe {
        indraveck_write_record(
            buffer.as_mut_ptr(),
            buffer.len(),
            at,
            direction,
            bytes.as_ptr(),
            bytes.len(),
            &mut to,
        )
    };
    // a place in the buffer, or `at`
    (answer, to as usize)
}

/// The number of the refusal, 0 for accepted, and how far a replay read.
#[derive(Clone, Copy, Debug, PartialEq, Eq)]
pub struct Replayed {
    /// The number of the refusal, 0 for accepted; [`Refusal::check`](crate::Refusal::check) has it in words.
    pub refusal: u32,
    /// How many of the recording's bytes were read.
    pub read: usize,
    /// Why no more: 6 for the recording's end, 1 to 4 for a record that cannot be read, 0 if the replay was refused.
    pub ended: u32,
}

/// Replays a recorded line on the image. A refused replay leaves it.
#[inline]
pub fn replay(profile: &[u8], image: &mut [u8], recording: &[u8]) -> Replayed {
    // neither is an answer, so that one which was not written is not taken for one
    let mut read = u64::MAX;
    let mut ended = u32::MAX;
    let refusal = unsafe {
        indraveck_replay(
            profile.as_ptr(),
            profile.len(),
            image.as_mut_ptr(),
            image.len(),
            recording.as_ptr(),
            recording.len(),
            &mut read,
            &mut ended,
        )
    };
    // at most the recording's length
    Replayed {
        refusal,
        read: read as usize,
        ended,
    }
}
