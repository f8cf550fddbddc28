//! What is measured, row by row, for the table of times and for the count of instructions. Benchmarks stand in a crate of their own so
//! that the tests need not build what only these use.

use criterion::black_box;
use indraveck_evidence::errands::Errand;
use indraveck_evidence::session::{Delivery, Memory, Script, Session, DELIVERIES};
use indraveck_evidence::{Model, Subject};

/// The right model. The proved library is its rival.
pub const MODEL: Model = Model(None);

/// What a row's subject does.
enum Work<'a> {
    Feed(&'a Script, Delivery),
    /// Reads the session's recording.
    Read,
    /// Writes it down again.
    Write,
    /// What a host does, without a device.
    Host(&'a Errand),
}

pub struct Row<'a> {
    pub name: String,
    pub session: &'a Session,
    work: Work<'a>,
    /// Before each round, not measured.
    prepare: fn(&Session, &mut Memory),
    /// Before the script, where it doesn't wake up by itself.
    wake_up: bool,
    check: fn(&Session, &Memory, usize),
    /// The same bytes filled, copied or compared without a device.
    limit: fn(&Session, &mut Memory) -> usize,
}

impl Row<'_> {
    pub fn memory(&self) -> Memory {
        self.session.memory(&MODEL)
    }

    /// Only the flash, as the limit needs it.
    pub fn prepare_flash(&self, memory: &mut Memory) {
        (self.prepare)(self.session, memory);
    }

    pub fn prepare(&self, subject: &dyn Subject, memory: &mut Memory) {
        self.prepare_flash(memory);
        if self.wake_up {
            self.session.wake_up(subject, memory);
        } else {
            self.session.restart(subject, memory);
        }
    }

    /// What is measured. How many reply bytes came, how many bytes a recording has, or how many a host built or took.
    pub fn run(&self, subject: &dyn Subject, memory: &mut Memory) -> usize {
        match self.work {
            Work::Feed(script, delivery) => self.session.run(subject, memory, script, delivery),
            Work::Read => self.session.read_tape(subject),
            Work::Write => self.session.write_tape(subject, memory),
            Work::Host(errand) => errand.run(subject),
        }
    }

    pub fn check(&self, memory: &Memory, count: usize) {
        match self.work {
            Work::Host(errand) => errand.check(count),
            _ => (self.check)(self.session, memory, count),
        }
    }

    /// The same without a subject.
    pub fn limit(&self, memory: &mut Memory) -> usize {
        match self.work {
            Work::Host(errand) => plainly(errand, memory),
            _ => (self.limit)(self.session, memory),
        }
    }

    /// Whether a round takes millions of calls.
    pub fn is_long(&self) -> bool {
        matches!(self.work, Work::Feed(_, Delivery::Bytes)) && self.session.size() > 0x1_0000
    }
}

fn nothing(_: &Session, _: &mut Memory) {}

/// The limit of an errand: the packet copied, or the reply's bytes added up.
fn plainly(errand: &Errand, memory: &mut Memory) -> usize {
    let bytes = errand.bytes();
    let mut count = 0;
    for _ in 0..errand.times() {
        let bytes = black_box(bytes);
        if errand.builds() {
            memory.back[..bytes.len()].copy_from_slice(bytes);
            black_box(&mut memory.back);
        } else {
            let sum = bytes.iter().fold(0u8, |sum, byte| sum.wrapping_add(*byte));
            black_box(sum);
        }
        count += bytes.len();
    }
    count
}

fn whole(session: &Session, delivery: Delivery) -> Row {
    Row {
        name: format!("session of {}, {}", session.name(), delivery.name()),
        session,
        work: Work::Feed(&session.whole, delivery),
        prepare: nothing,
        wake_up: false,
        check: Session::check_whole,
        limit: |session, memory| {
            session.move_plainly(memory);
            memory.back.len()
        },
    }
}

/// The parts of a session, by packets.
fn parts(session: &Session) -> Vec<Row> {
    let size = session.size_name();
    let part = |name: String, script| Row {
        name,
        session,
        work: Work::Feed(script, Delivery::Packets),
        prepare: nothing,
        wake_up: true,
        check: |_, _, _| {},
        limit: |_, _| 0,
    };
    vec![
        Row {
            check: |session, memory, _| session.check_erased(memory),
            limit: |session, memory| {
                session.fill_plainly(memory);
                memory.image.len()
            },
            ..part(format!("erase of {} beside fill", size), &session.erase)
        },
        Row {
            prepare: Session::fill_plainly,
            check: |session, memory, _| session.check_written(memory),
            limit: |session, memory| {
                let blank = session.compare_plainly(memory);
                session.copy_in_plainly(memory);
                blank
            },
            ..part(
                format!(
                    "write of {} into blank flash beside comparison and copy",
                    size
                ),
                &session.write,
            )
        },
        Row {
            prepare: Session::spoil,
            check: |session, _, replied| session.check_refused(replied),
            limit: |session, memory| session.compare_plainly(memory),
            ..part(
                format!(
                    "writes refused at the last of 1,024 bytes, {}, beside comparison",
                    size
                ),
                &session.refused,
            )
        },
        Row {
            prepare: Session::copy_in_plainly,
            check: |session, memory, _| session.check_read(memory),
            limit: |session, memory| {
                session.copy_out_plainly(memory);
                memory.back.len()
            },
            ..part(format!("read of {} beside copy", size), &session.read)
        },
    ]
}

/// The recording of a session, read and written.
fn recordings(session: &Session) -> Vec<Row> {
    let size = session.size_name();
    let row = |name: String, work| Row {
        name,
        session,
        work,
        prepare: nothing,
        wake_up: false,
        check: |_, _, _| {},
        limit: |_, _| 0,
    };
    vec![
        Row {
            check: |session, _, count| session.check_tape_read(count),
            limit: |session, _| session.walk_plainly(),
            ..row(
                format!("recording of a session of {} read, beside a walk", size),
                Work::Read,
            )
        },
        Row {
            prepare: Session::clear_tape,
            check: |session, memory, _| session.check_tape_written(memory),
            limit: |session, memory| {
                session.copy_tape_plainly(memory);
                memory.back.len()
            },
            ..row(
                format!("recording of a session of {} written, beside copy", size),
                Work::Write,
            )
        },
    ]
}

/// The host's end, which needs no session: one that is there lends the memory.
fn host<'a>(session: &'a Session, errand: &'a Errand) -> Row<'a> {
    Row {
        name: errand.name.clone(),
        session,
        work: Work::Host(errand),
        prepare: nothing,
        wake_up: false,
        check: |_, _, _| {},
        limit: |_, _| 0,
    }
}

/// The table: whole sessions of both sizes in every delivery, the parts of the large one, and its recording; then the host's end.
pub fn rows<'a>(small: &'a Session, large: &'a Session, errands: &'a [Errand]) -> Vec<Row<'a>> {
    let mut rows = Vec::new();
    for session in [small, large] {
        rows.extend(DELIVERIES.iter().map(|delivery| whole(session, *delivery)));
    }
    rows.extend(parts(large));
    rows.extend(recordings(large));
    rows.extend(errands.iter().map(|errand| host(small, errand)));
    rows
}
