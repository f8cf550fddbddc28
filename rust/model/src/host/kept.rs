//! A judge as 36 bytes, for whoever keeps it between two calls: verdict 2,
//! request 1, its numbers 4 and 4, how much of the reply came 4, its length 2,
//! RES 1, sum 1, the first data bytes 17.

use super::judge::{Judge, Verdict};
use super::Request;

/// How many bytes a judge has.
pub const JUDGE_BYTES: usize = 36;

fn four(bytes: &[u8], at: usize) -> u32 {
    let mut number = [0; 4];
    number.copy_from_slice(&bytes[at..at + 4]);
    u32::from_be_bytes(number)
}

/// The judge in the bytes; `None` where they are none.
pub fn judge_from(bytes: &[u8]) -> Option<Judge> {
    if bytes.len() != JUDGE_BYTES {
        return None;
    }
    let verdict = match (bytes[0], bytes[1]) {
        (0, 0) => Verdict::Unanswered,
        (0, 1) => Verdict::Passed,
        (0, 2) => Verdict::WrongReply,
        (1, code) if code != 0 => Verdict::Refused(code),
        _ => return None,
    };
    let request = Request::of_numbers(u32::from(bytes[2]), four(bytes, 3), four(bytes, 7))?;
    let mut judge = Judge::start(request);
    judge.verdict = verdict;
    judge.came = four(bytes, 11) as usize;
    judge.length = usize::from(bytes[15]) << 8 | usize::from(bytes[16]);
    judge.res = bytes[17];
    judge.sum = bytes[18];
    judge.kept.copy_from_slice(&bytes[19..]);
    Some(judge)
}

/// The judge's bytes.
pub fn judge_bytes(judge: &Judge) -> [u8; JUDGE_BYTES] {
    let mut bytes = [0; JUDGE_BYTES];
    let (request, first, second) = judge.request.numbers();
    bytes[..2].copy_from_slice(&(judge.verdict.number() as u16).to_be_bytes());
    bytes[2] = request as u8;
    bytes[3..7].copy_from_slice(&first.to_be_bytes());
    bytes[7..11].copy_from_slice(&second.to_be_bytes());
    bytes[11..15].copy_from_slice(&(judge.came as u32).to_be_bytes());
    bytes[15] = (judge.length >> 8) as u8;
    bytes[16] = judge.length as u8;
    bytes[17] = judge.res;
    bytes[18] = judge.sum;
    bytes[19..].copy_from_slice(&judge.kept);
    bytes
}
