//! Signals: SIGINT, SIGTERM, SIGHUP and SIGQUIT end the tool, SIGUSR1 resets the device.

use crate::failure::{Explain, Outcome};
use nix::libc;
use nix::sys::signal::{sigaction, signal, SaFlags, SigAction, SigHandler, SigSet, Signal};
use nix::sys::signalfd::{SfdFlags, SignalFd};
use std::mem::MaybeUninit;
use std::os::unix::io::{AsRawFd, RawFd};
use std::sync::atomic::{AtomicBool, AtomicI32, Ordering};

pub enum Wish {
    End,
    Reset,
}

pub struct Signals(SignalFd);

impl Signals {
    /// From here on the signals wait to be read.
    pub fn catch() -> Outcome<Signals> {
        let mut set = SigSet::empty();
        for signal in [
            Signal::SIGINT,
            Signal::SIGTERM,
            Signal::SIGQUIT,
            Signal::SIGUSR1,
        ] {
            set.add(signal);
        }
        if !ignored(Signal::SIGHUP) {
            set.add(Signal::SIGHUP);
        }
        let fd = set
            .thread_block()
            .and_then(|()| SignalFd::with_flags(&set, SfdFlags::SFD_NONBLOCK))
            .explain(
                || "signals cannot be caught".to_string(),
                "run it on Linux, where signalfd is",
            )?;
        Ok(Signals(fd))
    }

    pub fn fd(&self) -> RawFd {
        self.0.as_raw_fd()
    }

    pub fn next(&mut self) -> Option<Wish> {
        let caught = self.0.read_signal().ok()??;
        if caught.ssi_signo == Signal::SIGUSR1 as u32 {
            Some(Wish::Reset)
        } else {
            Some(Wish::End)
        }
    }
}

/// Whether the tool was started with a signal ignored, as nohup does.
fn ignored(signal: Signal) -> bool {
    let mut action = MaybeUninit::<libc::sigaction>::uninit();
    let asked =
        unsafe { libc::sigaction(signal as libc::c_int, std::ptr::null(), action.as_mut_ptr()) };
    asked == 0 && unsafe { action.assume_init() }.sa_sigaction == libc::SIG_IGN
}

/// A file that may not grow any more gives an error instead of ending the tool.
pub fn ignore_file_limits() {
    let _ = unsafe { signal(Signal::SIGXFSZ, SigHandler::SigIgn) };
}

const CUT_SHORT: &[u8] = b"indraveck: the image file was cut short by another program while it was in use\n  what to do: give the file its length back, and do not count the last request as done\n";
const CUT_SHORT_JSON: &[u8] = b"{\"time\":null,\"event\":\"failed\",\"text\":\"the image file was cut short by another program while it was in use\"}\n";

/// Where the log is, if it is a file, and whether it is in JSON: all that the handler knows.
static LOG: AtomicI32 = AtomicI32::new(-1);
static JSON: AtomicBool = AtomicBool::new(false);

extern "C" fn cut_short(_: libc::c_int) {
    let file = LOG.load(Ordering::Relaxed);
    let logged = if JSON.load(Ordering::Relaxed) {
        CUT_SHORT_JSON
    } else {
        CUT_SHORT
    };
    if file >= 0 {
        put(file, logged);
        put(2, CUT_SHORT);
    } else {
        put(2, logged);
    }
    unsafe { libc::_exit(1) }
}

/// Only what a signal handler may call; a reader that does not read is not waited for.
fn put(fd: RawFd, text: &[u8]) {
    let mut end = libc::pollfd {
        fd,
        events: libc::POLLOUT,
        revents: 0,
    };
    unsafe {
        if libc::poll(&mut end, 1, 100) == 1 {
            libc::write(fd, text.as_ptr().cast(), text.len());
        }
    }
}

/// A mapped file that another program cuts short answers with SIGBUS: it ends the tool with a word instead of silently.
pub fn watch_the_map(log: Option<RawFd>, json: bool) -> Outcome<()> {
    LOG.store(log.unwrap_or(-1), Ordering::Relaxed);
    JSON.store(json, Ordering::Relaxed);
    let action = SigAction::new(
        SigHandler::Handler(cut_short),
        SaFlags::empty(),
        SigSet::empty(),
    );
    unsafe { sigaction(Signal::SIGBUS, &action) }
        .map(|_| ())
        .explain(|| "signals cannot be caught".to_string(), "run it on Linux")
}
