//! Recordings: records one behind the other, read and written one at a time.
//! A record is a mark, a direction, a length (high byte first) and that many
//! bytes. Places count from 0; a place behind the last byte is the end.

use crate::faults::{Fault, Faults, Right};
use std::ops::Range;

const MARK: [u8; 2] = [0x52, 0x4C];
pub(crate) const HOST: u8 = 0x48;
pub(crate) const DEVICE: u8 = 0x44;
pub(crate) const RESET: u8 = 0x52;

/// Mark, direction and length: what precedes the contents.
const HEAD: usize = 5;
const LONGEST: usize = 1030;

const BAD_MARK: u32 = 1;
const BAD_DIRECTION: u32 = 2;
const BAD_LENGTH: u32 = 3;
const CUT_SHORT: u32 = 4;
const NO_ROOM: u32 = 5;
pub(crate) const END: u32 = 6;
const WRITTEN: u32 = 7;

/// What a reader answers: the record's direction, 6 at the end or 1 to 4 for
/// a refusal, and where the record's contents begin and end. Without a record
/// both are the place that was asked for.
#[derive(Clone, Copy, Debug, PartialEq, Eq)]
pub struct Found {
    pub answer: u32,
    pub from: usize,
    pub to: usize,
}

/// Reads the record at a place.
pub fn read_record(recording: &[u8], at: usize) -> Found {
    reading(Right, recording, at)
}

/// [`read_record`] of a reader with a fault.
pub fn read_record_with(f: Option<Fault>, recording: &[u8], at: usize) -> Found {
    reading(f, recording, at)
}

/// Writes one record at a place: 7 and the place behind it, or the number of
/// the refusal (2, 3 or 5) and the place itself.
pub fn write_record(buffer: &mut [u8], at: usize, direction: u32, bytes: &[u8]) -> (u32, usize) {
    writing(Right, buffer, at, direction, bytes)
}

/// [`write_record`] of a writer with a fault.
pub fn write_record_with(
    f: Option<Fault>,
    buffer: &mut [u8],
    at: usize,
    direction: u32,
    bytes: &[u8],
) -> (u32, usize) {
    writing(f, buffer, at, direction, bytes)
}

fn is_direction(byte: u8) -> bool {
    matches!(byte, HOST | DEVICE | RESET)
}

/// Only a reset has no contents, and it never has any.
fn may_have(direction: u8, length: usize) -> bool {
    match direction {
        RESET => length == 0,
        _ => (1..=LONGEST).contains(&length),
    }
}

#[inline]
pub(crate) fn reading<F: Faults>(f: F, recording: &[u8], at: usize) -> Found {
    match record_at(f, recording, at) {
        Ok((direction, contents)) => Found {
            answer: direction.into(),
            from: contents.start,
            to: contents.end,
        },
        Err(answer) => {
            let moves = f.has(Fault::UnreadableRecordPassed) && answer != END;
            Found {
                answer,
                from: at,
                to: if moves { at.saturating_add(1) } else { at },
            }
        }
    }
}

/// Takes the next field off the front. One that isn't whole is cut short.
fn field<'a>(rest: &mut &'a [u8], length: usize) -> Result<&'a [u8], u32> {
    if rest.len() < length {
        return Err(CUT_SHORT);
    }
    let (field, behind) = rest.split_at(length);
    *rest = behind;
    Ok(field)
}

/// The direction, and where the contents stand; or the answer without a
/// record. Each field is judged before the next is looked for.
fn record_at<F: Faults>(f: F, recording: &[u8], at: usize) -> Result<(u8, Range<usize>), u32> {
    if at >= recording.len() {
        let end = at == recording.len() || f.has(Fault::BehindTheEndIsEnd);
        return Err(if end { END } else { CUT_SHORT });
    }
    let mut rest = &recording[at..];
    early(f, rest)?;

    let mark = field(&mut rest, MARK.len())?;
    let marked = mark == MARK || f.has(Fault::HalfOfTheMarkRead) && mark[0] == MARK[0];
    if !marked {
        return Err(BAD_MARK);
    }

    if f.has(Fault::LengthBeforeDirection)
        && rest.len() >= 3
        && !readable(f, rest[0], stated(f, &rest[1..3]))
    {
        return Err(BAD_LENGTH);
    }
    let direction = field(&mut rest, 1)?[0];
    if !is_direction(direction) {
        if f.has(Fault::UnknownDirectionSkipped) && rest.len() >= 2 {
            let behind = at + HEAD + stated(f, &rest[..2]);
            return record_at(f, recording, behind);
        }
        return Err(BAD_DIRECTION);
    }

    if f.has(Fault::HalfLengthJudged) && rest.len() == 1 {
        let mut lengths = (0..=0xFF).map(|low| usize::from(rest[0]) << 8 | low);
        if lengths.all(|length| !may_have(direction, length)) {
            return Err(BAD_LENGTH);
        }
    }
    let length = stated(f, field(&mut rest, 2)?);
    if f.has(Fault::ContentsBeforeLength) && rest.len() < length {
        return Err(CUT_SHORT);
    }
    if !readable(f, direction, length) {
        return Err(BAD_LENGTH);
    }

    let there = rest.len();
    let length = match field(&mut rest, length) {
        Err(_) if f.has(Fault::CutContentsRead) => there,
        contents => contents?.len(),
    };
    let from = at + HEAD;
    Ok((direction, from..from + length))
}

/// What some faulty readers say before they look at any field.
fn early<F: Faults>(f: F, rest: &[u8]) -> Result<(), u32> {
    if rest.len() < HEAD {
        if f.has(Fault::PartOfAHeadIsEnd) {
            return Err(END);
        }
        if f.has(Fault::HeadBeforeMark) {
            return Err(CUT_SHORT);
        }
    }
    if f.has(Fault::HalfOfTheMarkJudged) && rest[0] != MARK[0] {
        return Err(BAD_MARK);
    }
    Ok(())
}

#[inline]
fn stated<F: Faults>(f: F, bytes: &[u8]) -> usize {
    let bytes = [bytes[0], bytes[1]];
    usize::from(if f.has(Fault::LengthLowByteFirst) {
        u16::from_le_bytes(bytes)
    } else {
        u16::from_be_bytes(bytes)
    })
}

#[inline]
fn readable<F: Faults>(f: F, direction: u8, length: usize) -> bool {
    let wrongly = match direction {
        RESET => f.has(Fault::ResetWithContentsRead),
        HOST if length == 0 => f.has(Fault::EmptyHostRecordRead),
        DEVICE if length == 0 => f.has(Fault::EmptyDeviceRecordRead),
        _ => length == LONGEST + 1 && f.has(Fault::Length1031Read),
    };
    if f.has(Fault::Length1030Unreadable) && length == LONGEST {
        return false;
    }
    wrongly || may_have(direction, length)
}

#[inline]
fn writable<F: Faults>(f: F, direction: u8, length: usize) -> bool {
    let wrongly = match direction {
        RESET => f.has(Fault::ResetWithContentsWritten),
        _ if length == 0 => f.has(Fault::EmptyRecordWritten),
        _ => length == LONGEST + 1 && f.has(Fault::Length1031Written),
    };
    wrongly || may_have(direction, length)
}

fn writing<F: Faults>(
    f: F,
    buffer: &mut [u8],
    at: usize,
    direction: u32,
    bytes: &[u8],
) -> (u32, usize) {
    match write_at(f, buffer, at, direction, bytes) {
        Ok(behind) => (WRITTEN, behind),
        Err(answer) if f.has(Fault::UnwrittenRecordPassed) => (answer, at.wrapping_add(HEAD)),
        Err(answer) => (answer, at),
    }
}

/// The place behind the record, or why it isn't written.
fn write_at<F: Faults>(
    f: F,
    buffer: &mut [u8],
    at: usize,
    direction: u32,
    bytes: &[u8],
) -> Result<usize, u32> {
    let low = direction as u8;
    let known = is_direction(low)
        && (u32::from(low) == direction || f.has(Fault::DirectionAbove255Written));
    let length_is_good = writable(f, low, bytes.len());
    let behind = match at.checked_add(HEAD + bytes.len()) {
        Some(behind) if behind <= buffer.len() => Ok(behind),
        _ => Err(NO_ROOM),
    };

    if f.has(Fault::LengthBeforeDirectionWritten) && !length_is_good {
        return Err(BAD_LENGTH);
    }
    if !known {
        return Err(BAD_DIRECTION);
    }
    if f.has(Fault::RoomBeforeLength) {
        behind?;
    }
    if !length_is_good {
        return Err(BAD_LENGTH);
    }
    if f.has(Fault::ExactFitRefused) && behind == Ok(buffer.len()) {
        return Err(NO_ROOM);
    }
    let wrapped = at.wrapping_add(HEAD + bytes.len());
    if f.has(Fault::FarPlaceWraps) && wrapped < at {
        return Ok(wrapped);
    }

    let length = bytes.len() as u16;
    let length = if f.has(Fault::LengthLowByteFirstWritten) {
        length.to_le_bytes()
    } else {
        length.to_be_bytes()
    };
    let head = [MARK[0], MARK[1], low, length[0], length[1]];
    if f.has(Fault::HeadWithoutRoomWritten) && behind.is_err() {
        if let Some(place) = buffer.get_mut(at..).and_then(|rest| rest.get_mut(..HEAD)) {
            place.copy_from_slice(&head);
        }
    }
    let behind = behind?;
    buffer[at..at + HEAD].copy_from_slice(&head);
    buffer[at + HEAD..behind].copy_from_slice(bytes);
    if f.has(Fault::BytesBehindCleared) {
        buffer[behind..].fill(0);
    }
    Ok(behind)
}
