//! Output that can neither hold up nor end a stand-in: lines go out by a thread of their own, and those that could not be written are
//! counted and said as soon as lines can be written again.

use nix::unistd::dup;
use std::collections::VecDeque;
use std::fs::File;
use std::io::{self, Write};
use std::os::unix::io::{FromRawFd, RawFd};
use std::sync::{Arc, Condvar, Mutex, MutexGuard};
use std::thread;
use std::time::{Duration, Instant};

/// What may wait for a reader that is slow.
const MOST_BYTES: usize = 1 << 20;
/// How long the end of the tool waits for a reader.
const PATIENCE: Duration = Duration::from_millis(300);

/// How the lines that could not be written are told.
pub type LostLine = fn(u64) -> String;

/// Lines on their way to a file, a pipe or a terminal.
#[derive(Clone)]
pub struct Output(Arc<Shared>);

struct Shared {
    queue: Mutex<Queue>,
    changed: Condvar,
}

#[derive(Default)]
struct Queue {
    lines: VecDeque<String>,
    bytes: usize,
    writing: bool,
    /// Lines that could not be written since that was last said, and since the start.
    untold: u64,
    lost: u64,
}

impl Queue {
    fn lose(&mut self, lines: u64) {
        self.untold += lines;
        self.lost += lines;
    }
}

impl Output {
    pub fn to(file: File, lost_line: LostLine) -> Output {
        let shared = Arc::new(Shared {
            queue: Mutex::new(Queue::default()),
            changed: Condvar::new(),
        });
        let writers = Arc::clone(&shared);
        let thread = thread::Builder::new().name("output".to_string());
        let started = thread.spawn(move || writers.write(Lines::of(file), lost_line));
        if started.is_err() {
            // nobody will write: all that comes is counted as lost
            shared.lock().bytes = MOST_BYTES;
        }
        Output(shared)
    }

    /// Standard output or standard error.
    pub fn to_standard(fd: RawFd, lost_line: LostLine) -> io::Result<Output> {
        let fd = dup(fd)?;
        Ok(Output::to(unsafe { File::from_raw_fd(fd) }, lost_line))
    }

    /// Hands a line over and returns at once.
    pub fn say(&self, line: &str) {
        let mut queue = self.0.lock();
        if queue.bytes + line.len() > MOST_BYTES {
            queue.lose(1);
            return;
        }
        queue.bytes += line.len();
        queue.lines.push_back(line.to_string());
        self.0.changed.notify_all();
    }

    /// How many lines could not be written.
    pub fn lost(&self) -> u64 {
        self.0.lock().lost
    }

    /// Waits until all is written, but not long: a reader that does not read does not hold up the end.
    pub fn finish(&self) {
        let until = Instant::now() + PATIENCE;
        let mut queue = self.0.lock();
        while !queue.lines.is_empty() || queue.writing {
            let left = until.saturating_duration_since(Instant::now());
            if left.is_zero() {
                return;
            }
            queue = match self.0.changed.wait_timeout(queue, left) {
                Ok((queue, _)) => queue,
                Err(poisoned) => poisoned.into_inner().0,
            };
        }
    }
}

impl Shared {
    fn lock(&self) -> MutexGuard<Queue> {
        self.queue
            .lock()
            .unwrap_or_else(|poisoned| poisoned.into_inner())
    }

    /// The thread's work, for ever.
    fn write(&self, mut out: Lines, lost_line: LostLine) {
        let mut queue = self.lock();
        loop {
            while queue.lines.is_empty() {
                queue = self
                    .changed
                    .wait(queue)
                    .unwrap_or_else(|poisoned| poisoned.into_inner());
            }
            let lines: Vec<String> = queue.lines.drain(..).collect();
            let untold = queue.untold;
            queue.writing = true;
            drop(queue);
            let told = untold == 0 || out.put(&lost_line(untold)).is_ok();
            let lost = lines.iter().filter(|line| out.put(line).is_err()).count();
            queue = self.lock();
            if told {
                queue.untold -= untold;
            }
            queue.lose(lost as u64);
            queue.bytes -= lines.iter().map(String::len).sum::<usize>();
            queue.writing = false;
            self.changed.notify_all();
        }
    }
}

/// Whole lines into a file that may fail in the middle of one.
struct Lines {
    file: File,
    broken: bool,
}

impl Lines {
    fn of(file: File) -> Lines {
        Lines {
            file,
            broken: false,
        }
    }

    fn put(&mut self, line: &str) -> io::Result<()> {
        let start = if self.broken { "\n" } else { "" };
        let text = format!("{}{}\n", start, line);
        let mut written = 0;
        while written < text.len() {
            match self.file.write(&text.as_bytes()[written..]) {
                Ok(0) => return Err(self.take_back(written, io::ErrorKind::WriteZero.into())),
                Ok(count) => written += count,
                Err(error) if error.kind() == io::ErrorKind::Interrupted => {}
                Err(error) => return Err(self.take_back(written, error)),
            }
        }
        self.broken = false;
        Ok(())
    }

    /// A line that did not fit whole is taken back where that can be done; elsewhere the next one starts a line of its own.
    fn take_back(&mut self, written: usize, error: io::Error) -> io::Error {
        if written > 0 {
            let file = self.file.metadata();
            let whole = file.map(|file| (file.is_file(), file.len()));
            let taken_back = match whole {
                Ok((true, length)) if length >= written as u64 => {
                    self.file.set_len(length - written as u64).is_ok()
                }
                _ => false,
            };
            self.broken |= !taken_back;
        }
        error
    }
}

/// A text for standard error, from a tool that may have nothing else to say: waits for a reader, but not long.
pub fn tell_people(text: &str) {
    if let Ok(output) = Output::to_standard(2, |_| String::new()) {
        output.say(text);
        output.finish();
    }
}
