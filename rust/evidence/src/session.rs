//! What the benchmarks measure: a device that is woken up, erased, written and read back, and the same bytes moved without one.

use crate::noise::Noise;
use crate::packets::{command, data, range, ERASE, MOST_DATA, NEXT, READ, WAKE_UP, WRITE};
use crate::profiles::{self, CONFIG, USER};
use crate::recordings::{record, DEVICE, END, HEAD as RECORD_HEAD, HOST, WRITTEN};
use crate::subject::{Fed, Model, Subject, BUFFER_BYTES, STATE_BYTES};
use indraveck_model as model;
use std::ops::Range;

const HEAD: usize = 3;
const TAIL: usize = 2;
const STATUS_BYTES: usize = 7;
const EAU: u32 = 0x2000;

/// How the host's bytes reach the device.
#[derive(Clone, Copy, Debug, PartialEq, Eq)]
pub enum Delivery {
    Bytes,
    Packets,
    /// 64 KB at a time; what a reply leaves unread is fed again.
    Blocks,
}

pub const DELIVERIES: [Delivery; 3] = [Delivery::Bytes, Delivery::Packets, Delivery::Blocks];
const BLOCK: usize = 0x1_0000;

impl Delivery {
    pub fn name(self) -> &'static str {
        match self {
            Delivery::Bytes => "byte by byte",
            Delivery::Packets => "by packets",
            Delivery::Blocks => "by 64 KB",
        }
    }
}

/// Requests that belong together, one packet each.
pub struct Script {
    packets: Vec<Vec<u8>>,
    stream: Vec<u8>,
}

impl Script {
    fn new(packets: Vec<Vec<u8>>) -> Script {
        let stream = packets.concat();
        Script { packets, stream }
    }
}

/// A line as a recording, and its records: their directions, and where in it their bytes stand.
struct Tape {
    bytes: Vec<u8>,
    records: Vec<(u8, Range<usize>)>,
}

impl Tape {
    fn new() -> Tape {
        Tape {
            bytes: Vec::new(),
            records: Vec::new(),
        }
    }

    fn put(&mut self, direction: u8, bytes: &[u8]) {
        self.bytes.extend(record(direction, bytes));
        let behind = self.bytes.len();
        self.records.push((direction, behind - bytes.len()..behind));
    }
}

/// One profile with one large area, and the scripts for it.
pub struct Session {
    profile: Vec<u8>,
    size: usize,
    wau: u32,
    content: Vec<u8>,
    pub whole: Script,
    pub erase: Script,
    pub write: Script,
    pub read: Script,
    /// Writes of one packet each, refused at the last byte of their target.
    pub refused: Script,
    /// The whole session, recorded packet by packet.
    tape: Tape,
}

/// What the device is lent, and what the host reads back.
pub struct Memory {
    pub image: Vec<u8>,
    state: Vec<u8>,
    receive: Vec<u8>,
    reply: Vec<u8>,
    pub back: Vec<u8>,
    /// Where the session's recording is written down again.
    tape: Vec<u8>,
}

impl Session {
    /// An area of `size` bytes, a whole number of packets' data and of erase units.
    pub fn new(size: u32, wau: u32) -> Session {
        let profile = profiles::of_areas(&[
            profiles::area(USER, 0, size, EAU, wau),
            profiles::area(CONFIG, 0x4000_0000, 0x100, 0, 0x10),
        ]);
        let content = Noise::new(size).bytes(size as usize);
        let all = range(0, size - 1);
        let erase = vec![command(ERASE, &all)];
        let mut write = vec![command(WRITE, &all)];
        let parts = content.chunks(MOST_DATA);
        write.extend(parts.clone().map(|part| data(WRITE, part)));
        let mut read = vec![command(READ, &all)];
        read.extend((1..parts.len()).map(|_| NEXT.to_vec()));
        let mut refused = Vec::new();
        for (number, part) in parts.enumerate() {
            let first = (number * MOST_DATA) as u32;
            let target = range(first, first + MOST_DATA as u32 - 1);
            refused.push(command(WRITE, &target));
            refused.push(data(WRITE, part));
        }
        // the wake-up is three bytes with two replies
        let mut whole = vec![WAKE_UP.to_vec()];
        for script in [&erase, &write, &read] {
            whole.extend_from_slice(script);
        }
        let mut session = Session {
            profile: model::profile_bytes(&profile).to_vec(),
            size: size as usize,
            wau,
            content,
            whole: Script::new(whole),
            erase: Script::new(erase),
            write: Script::new(write),
            read: Script::new(read),
            refused: Script::new(refused),
            tape: Tape::new(),
        };
        session.tape = session.recorded();
        session
    }

    /// What goes over the line in a whole session, as the model answers.
    fn recorded(&self) -> Tape {
        let mut tape = Tape::new();
        let subject = &Model(None);
        let mut memory = self.memory(subject);
        for packet in &self.whole.packets {
            tape.put(HOST, packet);
            let mut rest = &packet[..];
            while !rest.is_empty() {
                let fed = self.feed(subject, &mut memory, rest);
                if fed.count > 0 {
                    tape.put(DEVICE, &memory.reply[..fed.count]);
                }
                rest = &rest[fed.consumed..];
            }
        }
        tape
    }

    pub fn size(&self) -> usize {
        self.size
    }

    pub fn name(&self) -> String {
        let wau = if self.wau < 1000 {
            self.wau.to_string()
        } else {
            format!("{},{:03}", self.wau / 1000, self.wau % 1000)
        };
        format!("{}, WAU {}", self.size_name(), wau)
    }

    /// Whole KB or MB.
    pub fn size_name(&self) -> String {
        if self.size < 0x10_0000 {
            format!("{} KB", self.size / 0x400)
        } else {
            format!("{} MB", self.size / 0x10_0000)
        }
    }

    /// Memory for a started device whose flash isn't blank.
    pub fn memory(&self, subject: &dyn Subject) -> Memory {
        let mut memory = Memory {
            image: vec![0xFF; self.size + 0x100],
            state: vec![0; STATE_BYTES],
            receive: vec![0; BUFFER_BYTES],
            reply: vec![0; BUFFER_BYTES],
            back: vec![0; self.size],
            tape: vec![0; self.tape.bytes.len()],
        };
        memory.image[..self.size].fill(0x00);
        self.restart(subject, &mut memory);
        memory
    }

    /// A fresh state, whatever was before.
    pub fn restart(&self, subject: &dyn Subject, memory: &mut Memory) {
        let refusal = subject.start(&self.profile, &memory.image, &mut memory.state);
        assert_eq!(refusal, 0, "the session's profile is acceptable");
    }

    /// A device that awaits commands.
    pub fn wake_up(&self, subject: &dyn Subject, memory: &mut Memory) {
        self.restart(subject, memory);
        let mut read = 0;
        self.pour(subject, memory, &WAKE_UP, &mut read);
    }

    /// Feeds a script and takes what is read back. How many reply bytes came.
    pub fn run(
        &self,
        subject: &dyn Subject,
        memory: &mut Memory,
        script: &Script,
        delivery: Delivery,
    ) -> usize {
        let mut read = 0;
        match delivery {
            Delivery::Bytes => {
                let bytes = script.stream.chunks(1);
                bytes
                    .map(|byte| self.pour(subject, memory, byte, &mut read))
                    .sum()
            }
            Delivery::Packets => {
                let packets = script.packets.iter();
                packets
                    .map(|packet| self.pour(subject, memory, packet, &mut read))
                    .sum()
            }
            Delivery::Blocks => {
                let blocks = script.stream.chunks(BLOCK);
                blocks
                    .map(|block| self.pour(subject, memory, block, &mut read))
                    .sum()
            }
        }
    }

    fn pour(
        &self,
        subject: &dyn Subject,
        memory: &mut Memory,
        bytes: &[u8],
        read: &mut usize,
    ) -> usize {
        let mut rest = bytes;
        let mut replied = 0;
        while !rest.is_empty() {
            let fed = self.feed(subject, memory, rest);
            rest = &rest[fed.consumed..];
            replied += fed.count;
            if fed.count > STATUS_BYTES {
                let data = &memory.reply[HEAD + 1..fed.count - TAIL];
                memory.back[*read..*read + data.len()].copy_from_slice(data);
                *read += data.len();
            }
        }
        replied
    }

    fn feed(&self, subject: &dyn Subject, memory: &mut Memory, input: &[u8]) -> Fed {
        let fed = subject.feed(
            &self.profile,
            &mut memory.image,
            &mut memory.state,
            &mut memory.receive,
            &mut memory.reply,
            input,
        );
        assert_eq!(fed.refusal, 0, "a session is not refused");
        fed
    }

    /// Reads the session's recording record by record. How many bytes its records have.
    pub fn read_tape(&self, subject: &dyn Subject) -> usize {
        let recording = &self.tape.bytes;
        let (mut at, mut count) = (0, 0);
        loop {
            let found = subject.read_record(recording, at);
            if found.answer <= END {
                assert_eq!(found.answer, END, "a session's recording is whole");
                return count;
            }
            count += found.to - found.from;
            at = found.to;
        }
    }

    /// Writes the session's recording down again, record by record. How many bytes it has.
    pub fn write_tape(&self, subject: &dyn Subject, memory: &mut Memory) -> usize {
        let mut at = 0;
        for (direction, place) in &self.tape.records {
            let direction = u32::from(*direction);
            let bytes = &self.tape.bytes[place.clone()];
            let (answer, to) = subject.write_record(&mut memory.tape, at, direction, bytes);
            assert_eq!(answer, WRITTEN, "a session's record is written");
            at = to;
        }
        at
    }

    /// What a whole session must have left, so that no subject is fast by doing less.
    pub fn check_whole(&self, memory: &Memory, replied: usize) {
        let packets = self.size / MOST_DATA;
        let statuses = 2 + packets;
        let wanted = 2 + statuses * STATUS_BYTES + packets * BUFFER_BYTES;
        assert_eq!(replied, wanted, "reply bytes of a whole session");
        self.check_written(memory);
        self.check_read(memory);
    }

    pub fn check_erased(&self, memory: &Memory) {
        let blank = self.compare_plainly(memory);
        assert_eq!(blank, self.size / MOST_DATA, "blank flash");
    }

    pub fn check_written(&self, memory: &Memory) {
        assert!(memory.image[..self.size] == self.content[..], "the flash");
    }

    pub fn check_read(&self, memory: &Memory) {
        assert!(memory.back == self.content, "what was read back");
    }

    pub fn check_refused(&self, replied: usize) {
        let wanted = 2 * (self.size / MOST_DATA) * STATUS_BYTES;
        assert_eq!(replied, wanted, "reply bytes of refused writes");
    }

    pub fn check_tape_read(&self, count: usize) {
        let places = self.tape.records.iter();
        let wanted: usize = places.map(|(_, place)| place.len()).sum();
        assert_eq!(count, wanted, "bytes of a session's records");
    }

    pub fn check_tape_written(&self, memory: &Memory) {
        assert!(memory.tape == self.tape.bytes, "the session's recording");
    }

    /// Nothing of a recording is there yet.
    pub fn clear_tape(&self, memory: &mut Memory) {
        memory.tape.fill(0x00);
    }

    /// Blank but for the last byte of each packet's target.
    pub fn spoil(&self, memory: &mut Memory) {
        let flash = &mut memory.image[..self.size];
        flash.fill(0xFF);
        for target in flash.chunks_mut(MOST_DATA) {
            target[MOST_DATA - 1] = 0x00;
        }
    }

    /// The limit of a session: the same bytes filled, copied in and copied out.
    pub fn move_plainly(&self, memory: &mut Memory) {
        self.fill_plainly(memory);
        self.copy_in_plainly(memory);
        self.copy_out_plainly(memory);
    }

    pub fn fill_plainly(&self, memory: &mut Memory) {
        memory.image[..self.size].fill(0xFF);
    }

    pub fn copy_in_plainly(&self, memory: &mut Memory) {
        memory.image[..self.size].copy_from_slice(&self.content);
    }

    pub fn copy_out_plainly(&self, memory: &mut Memory) {
        memory.back.copy_from_slice(&memory.image[..self.size]);
    }

    /// The limit of reading a recording: from length to length, and nothing is judged. How many bytes its records have.
    pub fn walk_plainly(&self) -> usize {
        let recording = &self.tape.bytes;
        let (mut at, mut count) = (0, 0);
        while at < recording.len() {
            let length = u16::from_be_bytes([recording[at + 3], recording[at + 4]]);
            count += usize::from(length);
            at += RECORD_HEAD + usize::from(length);
        }
        count
    }

    /// The limit of writing one.
    pub fn copy_tape_plainly(&self, memory: &mut Memory) {
        memory.tape.copy_from_slice(&self.tape.bytes);
    }

    /// The limit of the blank checks: each target compared with a blank one. How many are equal.
    pub fn compare_plainly(&self, memory: &Memory) -> usize {
        let blank = [0xFF; MOST_DATA];
        let targets = memory.image[..self.size].chunks(MOST_DATA);
        targets.filter(|target| *target == &blank[..]).count()
    }
}

/// In words, where the figures come from: INDRAVECK_HOST is what `uname -m` says.
pub fn machine() -> String {
    let built = std::env::consts::ARCH;
    match std::env::var("INDRAVECK_HOST") {
        Ok(host) if host == built => format!("built for {} and run on it", built),
        Ok(host) => format!(
            "built for {} and emulated on {}: the figures say little about either",
            built, host
        ),
        Err(_) => format!(
            "built for {}; INDRAVECK_HOST does not say where it runs",
            built
        ),
    }
}
