//! What `crates/show_host` and `crates/show_judge` have to print, worked out by
//! the model: what these programs are compared with is this, and not their own
//! output.

use crate::bench::{self, hex};
use crate::host_counts;
use indraveck_model::*;
use std::cell::RefCell;

/// What the buffers hold before a packet is built.
const UNTOUCHED: u8 = 0xEE;
/// A buffer that any packet fits into, with one byte to spare.
const AMPLE: usize = bench::BUFFER + 1;
/// So many requests of a plan are printed.
const SHOWN: usize = 12;

thread_local! {
    static SAID: RefCell<String> = RefCell::new(String::new());
}

/// One line more.
macro_rules! say {
    ($($part:tt)*) => {
        SAID.with(|said| {
            said.borrow_mut().push_str(&format!($($part)*));
            said.borrow_mut().push('\n');
        })
    };
}

/// What these print.
fn said(parts: &[fn()]) -> String {
    SAID.with(|said| said.borrow_mut().clear());
    for part in parts {
        part();
    }
    SAID.with(|said| said.borrow().clone())
}

/// All that `show_host` has to print.
pub fn requests() -> String {
    said(&[packets, amounts, room, plans, no_plans])
}

/// All that `show_judge` has to print.
pub fn replies() -> String {
    said(&[lines, noise_and_lengths, cuts, longest, counts])
}

fn counts() {
    title("each byte changed to every value: unanswered passed refused wrong");
    for line in host_counts::lines() {
        say!("{line}");
    }
}

fn title(words: &str) {
    say!("== {words}");
}

fn erase(sad: u32, ead: u32) -> Request {
    Request::Erase { sad, ead }
}

fn write(sad: u32, ead: u32) -> Request {
    Request::Write { sad, ead }
}

fn read(sad: u32, ead: u32) -> Request {
    Request::Read { sad, ead }
}

fn next(left: u32) -> Request {
    Request::Next { left }
}

fn request_text(request: Request) -> String {
    match request {
        Request::Inquiry => "inquiry".into(),
        Request::Erase { sad, ead } => format!("erase {sad} to {ead}"),
        Request::Write { sad, ead } => format!("write {sad} to {ead}"),
        Request::Read { sad, ead } => format!("read {sad} to {ead}"),
        Request::Authenticate => "authenticate".into(),
        Request::Baud(brt) => format!("baud {brt}"),
        Request::Signature => "signature".into(),
        Request::Area(number) => format!("area {number}"),
        Request::WriteData => "write data".into(),
        Request::Next { left } => format!("next, left {left}"),
    }
}

fn hex_text(bytes: &[u8]) -> String {
    let pairs: Vec<String> = bytes.iter().map(|byte| format!("{byte:02X}")).collect();
    pairs.join(" ")
}

/// All of the bytes, or of many the first eight and the last two.
fn bytes_text(bytes: &[u8]) -> String {
    match bytes.len() {
        0 => "no bytes".into(),
        1..=24 => hex_text(bytes),
        count => {
            let (first, last) = (hex_text(&bytes[..8]), hex_text(&bytes[count - 2..]));
            format!("{first} .. {last} ({count} bytes)")
        }
    }
}

/// A request's packet in a buffer of so many bytes, the rest of which stays.
fn show_built(request: Request, bytes: &[u8], room: usize) {
    let mut buffer = vec![UNTOUCHED; room];
    let answer = build(request, bytes, &mut buffer);
    let said = match answer {
        Ok(count) => bytes_text(&buffer[..count]),
        Err(Unbuilt::WrongAmount) => "wrong amount".into(),
        Err(Unbuilt::NothingLeft) => "nothing left".into(),
        Err(Unbuilt::NoRoom) => "no room".into(),
    };
    let behind = answer.unwrap_or(0);
    assert!(buffer[behind..].iter().all(|byte| *byte == UNTOUCHED));
    let (request, count) = (request_text(request), bytes.len());
    say!("{request} with {count} in {room}: {said}");
}

fn packets() {
    title("packets");
    let code = [&b"ALeRASE"[..], &[0xFF; 9]].concat();
    show_built(Request::Inquiry, &[], AMPLE);
    show_built(erase(0x4000, 0x7FFF), &[], AMPLE);
    show_built(write(0, 0x7F), &[], AMPLE);
    show_built(read(0, u32::MAX), &[], AMPLE);
    show_built(read(1, 0), &[], AMPLE);
    show_built(Request::Authenticate, &code, AMPLE);
    show_built(Request::Baud(9600), &[], AMPLE);
    show_built(Request::Signature, &[], AMPLE);
    show_built(Request::Area(2), &[], AMPLE);
    show_built(Request::WriteData, &code, AMPLE);
    show_built(Request::WriteData, &[0xA5], AMPLE);
    show_built(next(1), &[], AMPLE);
    show_built(next(0xFFFF_FC00), &[], AMPLE);
}

fn amounts() {
    title("amounts");
    let many = [0x5A; 1025];
    show_built(Request::WriteData, &many[..1024], AMPLE);
    show_built(Request::WriteData, &many, AMPLE);
    show_built(Request::WriteData, &[], AMPLE);
    show_built(Request::Authenticate, &many[..15], AMPLE);
    show_built(Request::Authenticate, &many[..17], AMPLE);
    show_built(Request::Inquiry, &many[..1], AMPLE);
    show_built(next(5), &many[..1], AMPLE);
    show_built(next(0), &[], AMPLE);
    show_built(next(0), &many[..1], AMPLE);
}

fn room() {
    title("room");
    show_built(Request::Inquiry, &[], 7);
    show_built(Request::Area(0), &[], 7);
    show_built(next(9), &[], 7);
    show_built(Request::WriteData, &[1], 7);
    show_built(Request::WriteData, &[1, 2], 7);
    show_built(Request::WriteData, &[], 7);
    show_built(next(0), &[], 7);
    show_built(erase(0, 0x1FFF), &[], 13);
    show_built(Request::Baud(115_200), &[], 13);
}

/// Lets the judge take bytes, and says what it then says.
fn taken_text(judge: &mut Judge, bytes: &[u8]) -> String {
    let Taken { count, from, to } = judge.take(bytes);
    let verdict = match judge.verdict() {
        Verdict::Unanswered => "unanswered".into(),
        Verdict::Passed => "passed".into(),
        Verdict::WrongReply => "wrong reply".into(),
        Verdict::Refused(code) => format!("refused {code:02X}h"),
    };
    let number = judge.verdict().number();
    format!("{verdict} {number}, took {count}, data {from}..{to}")
}

/// What bytes say to a request.
fn hear(request: Request, bytes: &[u8]) {
    let said = taken_text(&mut Judge::start(request), bytes);
    say!("{} <- {}: {said}", request_text(request), bytes_text(bytes));
}

/// Each reply as it is written in a document.
fn hear_each(table: &[(Request, &str)]) {
    for (request, bytes) in table {
        hear(*request, &hex(bytes));
    }
}

/// The same bytes in two parts.
fn hear_in_two(request: Request, bytes: &[u8], at: usize) {
    let at = at.min(bytes.len());
    let (first, second) = bytes.split_at(at);
    let mut judge = Judge::start(request);
    let between = taken_text(&mut judge, first);
    let behind = taken_text(&mut judge, second);
    say!("cut at {at}: {between}; {behind}");
}

fn lines() {
    title("replies");
    let table = [
        (
            Request::Signature,
            "81 00 0D 3A 03 93 87 00 00 3D 09 00 02 01 01 00 52 03",
        ),
        (Request::Inquiry, "81 00 02 00 00 FE 03"),
        (Request::Inquiry, "81 00 02 80 C3 BB 03"),
        (Request::Inquiry, "81 00 02 80 C2 BC 03"),
        (Request::Inquiry, "81 00 02 80 C1 BD 03"),
        (erase(0x4000, 0x7FFF), "81 00 02 12 00 EC 03"),
        (erase(0x4000, 0x7FFF), "81 00 02 80 C1 BD 03"),
        (Request::Area(2), "81 00 02 BB D0 73 03"),
        (Request::WriteData, "81 00 02 93 E2 89 03"),
        (Request::WriteData, "81 00 02 95 C1 A8 03"),
        (next(1), "81 00 02 93 C1 AA 03"),
        (next(1), "81 00 02 15 00 E9 03"),
        (read(0, 0), "81 00 02 15 D0 19 03"),
        (read(1, 0), "81 00 01 15 EA 03"),
    ];
    hear_each(&table);
}

fn noise_and_lengths() {
    title("noise and lengths");
    let table = [
        (Request::Inquiry, ""),
        (Request::Inquiry, "00 C3 01 00 01 00 FF 03"),
        (Request::Inquiry, "00 C3 81 00 02 00 00 FE 03"),
        (
            Request::Inquiry,
            "81 00 02 00 00 FE 03 81 00 02 00 00 FE 03",
        ),
        (
            Request::Inquiry,
            "81 00 02 12 00 EC 03 81 00 02 00 00 FE 03",
        ),
        (Request::Inquiry, "81 81 00 02 00 00 FE 03"),
        (Request::Inquiry, "81 00 00 03"),
        (Request::Inquiry, "81 04 02 03"),
        (Request::Inquiry, "81 04 01 00 00 FE 03"),
        (Request::Inquiry, "81 FF"),
        (Request::Inquiry, "81 00 01 00 FF 03"),
        (read(0, 1), "81 00 02 15 00 E9 03"),
        (read(0, 1), "81 00 04 15 00 00 00 E7 03"),
    ];
    hear_each(&table);
}

/// At every place, with a byte before the reply and one behind.
fn cuts() {
    title("cuts of a read's reply, 4 bytes");
    let bytes = hex("00 81 00 05 15 11 22 33 44 3C 03 00");
    for at in 0..=bytes.len() {
        hear_in_two(read(0x100, 0x103), &bytes, at);
    }
}

fn longest() {
    title("the longest reply");
    let mut reply = bench::data(0x15, &[0x01; 1024]);
    hear(read(0, 0x3FF), &reply);
    hear(read(0, 0x400), &reply);
    hear(next(1024), &reply);
    hear(next(1023), &reply);
    hear(read(0, u32::MAX), &reply);
    for at in [515, 1028, 1029] {
        hear_in_two(next(u32::MAX), &reply, at);
    }
    // One byte of the data, and SUM as it was.
    reply[600] = 2;
    hear(next(u32::MAX), &reply);
}

fn plan_text(plan: Plan) -> String {
    let mut text = String::new();
    let mut rest = plan;
    for _ in 0..SHOWN {
        match rest.next() {
            Some((request, part)) => {
                let request = request_text(request);
                text += &format!(" {request} {}..{},", part.start, part.end);
            }
            None => return text + " done",
        }
    }
    text + " and so on"
}

fn show_plan(sad: u32, ead: u32, unit: u32, count: usize) {
    let said = match plan(sad, ead, unit, count) {
        Ok(plan) => plan_text(plan),
        Err(Unplanned::Reversed) => " reversed".into(),
        Err(Unplanned::NoUnit) => " no unit".into(),
        Err(Unplanned::LongUnit) => " long unit".into(),
        Err(Unplanned::StartUnaligned) => " start unaligned".into(),
        Err(Unplanned::EndUnaligned) => " end unaligned".into(),
        Err(Unplanned::WrongAmount) => " wrong amount".into(),
    };
    say!("{sad} to {ead} by {unit}, bytes {count}:{said}");
}

fn plans() {
    title("plans");
    show_plan(0, 127, 128, 128);
    show_plan(0, 1023, 128, 1024);
    show_plan(0, 1151, 128, 1152);
    show_plan(0x2000, 0x27FF, 1024, 2048);
    show_plan(0, 1028, 3, 1029);
    show_plan(0, 2051, 513, 2052);
    show_plan(5, 5, 1, 1);
    show_plan(0, u32::MAX, 1024, 1 << 32);
}

fn no_plans() {
    title("no plans");
    show_plan(1, 0, 0, 0);
    show_plan(0, 127, 0, 128);
    show_plan(0, 2047, 2048, 2048);
    show_plan(64, 255, 128, 192);
    show_plan(0, 191, 128, 192);
    show_plan(64, 191, 128, 0);
    show_plan(0, 127, 128, 127);
    show_plan(0, 127, 128, 129);
}

#[test]
fn the_programs_are_compared_with_this() {
    let crates = concat!(env!("CARGO_MANIFEST_DIR"), "/../../crates");
    for (name, text) in [("show_host", requests()), ("show_judge", replies())] {
        let expected = std::fs::read_to_string(format!("{crates}/{name}/stdout")).unwrap();
        assert_eq!(expected, text, "{name}");
    }
}
