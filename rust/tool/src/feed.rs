//! `indraveck feed`: bytes on standard input, replies on standard output.

use crate::cli::Feed;
use crate::failure::{Explain, Outcome};
use crate::log::Log;
use crate::signals;
use crate::stand_in::StandIn;
use std::io::{self, Read, Write};

pub fn run(arguments: &Feed) -> Outcome<()> {
    let log = Log::open_apart(
        &arguments.logging,
        &[
            ("profile", Some(&arguments.target.profile)),
            ("image", Some(&arguments.target.image)),
        ],
    )?;
    feed(arguments, &log).map_err(|failure| log.failed(failure))
}

fn feed(arguments: &Feed, log: &Log) -> Outcome<()> {
    signals::watch_the_map(log.fd(), log.is_json())?;
    let mut stand_in = StandIn::start(&arguments.target, log.clone())?;
    let done = answer(&mut stand_in);
    stand_in.tell_silence();
    log.finish();
    done
}

fn answer(stand_in: &mut StandIn) -> Outcome<()> {
    let mut input = [0; 65536];
    let mut replies = Vec::new();
    loop {
        let count = io::stdin().read(&mut input).explain(
            || "standard input cannot be read".to_string(),
            "give the bytes of the line on standard input",
        )?;
        if count == 0 {
            return Ok(());
        }
        stand_in.feed(&input[..count], &mut replies)?;
        let mut out = io::stdout();
        out.write_all(&replies).and_then(|()| out.flush()).explain(
            || "the replies cannot be written".to_string(),
            "keep standard output open until the end; the image holds what was answered so far",
        )?;
        replies.clear();
    }
}
