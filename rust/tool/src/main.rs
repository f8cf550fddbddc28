//! `indraveck`: the stand-in that flashing scripts meet.

mod cli;
mod control;
mod failure;
mod feed;
mod files;
mod image;
mod line;
mod link;
mod log;
mod number;
mod output;
mod port;
mod print;
mod profile_file;
mod registry;
mod serve;
mod show;
mod signals;
mod silence;
mod slot;
mod stand_in;
mod text;
mod words;

use clap::Parser;
use cli::{Cli, Command, Images, New, Profiles};
use control::Ask;
use failure::{Failure, Outcome};
use signals::Signals;
use std::process::exit;

const DONE: i32 = 0;
const NOT_DONE: i32 = 1;
const WRONG_COMMAND_LINE: i32 = 2;

fn main() {
    signals::ignore_file_limits();
    std::panic::set_hook(Box::new(|panic| {
        tell(&Failure::new(
            format!("this should not have happened: {}", panic),
            "report it with what you did; do not count the last request as done",
        ));
        exit(NOT_DONE);
    }));
    // as early as can be: until then a signal ends the tool in the system's way
    let serving = std::env::args_os()
        .nth(1)
        .map_or(false, |word| word == "serve");
    let signals = serving.then(Signals::catch);
    // at once, whatever a thread that writes is waiting for
    exit(match Cli::try_parse() {
        Ok(cli) => status(run(cli.command, signals)),
        Err(wrong) if wrong.use_stderr() => {
            output::tell_people(&command_line_error(wrong));
            WRONG_COMMAND_LINE
        }
        Err(help) => status(print::all(&help.to_string())),
    });
}

/// An error about the command line, with nothing in it that is not shown as itself: it is made again of words that are.
fn command_line_error(wrong: clap::Error) -> String {
    let words = std::env::args_os().map(|word| text::shown(word));
    let again = Cli::try_parse_from(words).err().unwrap_or(wrong);
    text::shown_lines(&again.to_string())
}

fn run(command: Command, signals: Option<Outcome<Signals>>) -> Outcome<()> {
    match command {
        Command::Serve(arguments) => {
            let signals = signals.unwrap_or_else(Signals::catch)?;
            serve::run(&arguments, signals)
        }
        Command::Reset(slot) => slot::run(&slot.slot, Ask::Reset),
        Command::Status(arguments) => slot::status(&arguments),
        Command::Stop(slot) => slot::run(&slot.slot, Ask::Stop),
        Command::Feed(arguments) => feed::run(&arguments),
        Command::Profile(Profiles::Check { file }) => show::check(&file),
        Command::Image(Images::New(arguments)) => new(&arguments),
        Command::Image(Images::Show(arguments)) => show::show(&arguments),
    }
}

fn status(done: Outcome<()>) -> i32 {
    match done {
        Ok(()) => DONE,
        Err(failure) => {
            tell(&failure);
            NOT_DONE
        }
    }
}

fn tell(failure: &Failure) {
    if !failure.is_told() {
        output::tell_people(&failure.to_string());
    }
}

fn new(arguments: &New) -> Outcome<()> {
    let named = profile_file::accepted(&arguments.profile)?;
    image::create(&arguments.image, &named, arguments.id.map(|id| id.0))?;
    print::all(&format!(
        "{}: {}, blank{}\n",
        text::shown(&arguments.image),
        number::bytes(named.profile.total()),
        if arguments.id.is_some() {
            " but for the ID code"
        } else {
            ""
        }
    ))
}
