//! One row of the table, a number of rounds by one subject, for ../count/run to count the instructions of.
//! `count rows` lists the rows' names; `count proved|model ROW ROUNDS` runs one, by its number from 0 on; with `idle` behind it each
//! round is only prepared, so that the difference of both counts is the work itself.

use indraveck_benchmarks::{rows, MODEL};
use indraveck_evidence::errands::errands;
use indraveck_evidence::session::Session;
use indraveck_evidence::{Proved, Subject};
use std::process::exit;

fn usage() -> ! {
    eprintln!("usage: count rows | count proved|model ROW ROUNDS [idle]");
    exit(2)
}

fn number(word: &str) -> usize {
    word.parse().unwrap_or_else(|_| usage())
}

fn main() {
    let words: Vec<String> = std::env::args().skip(1).collect();
    let words: Vec<&str> = words.iter().map(String::as_str).collect();
    let small = Session::new(0x1_0000, 128);
    // instructions do not vary, so that a smaller one than for times will do
    let large = Session::new(0x10_0000, 1024);
    let errands = errands();
    let rows = rows(&small, &large, &errands);
    let (subject, row, rounds, idle) = match words[..] {
        ["rows"] => {
            rows.iter().for_each(|row| println!("{}", row.name));
            return;
        }
        [subject, row, rounds] => (subject, number(row), number(rounds), false),
        [subject, row, rounds, "idle"] => (subject, number(row), number(rounds), true),
        _ => usage(),
    };
    let subject: &dyn Subject = match subject {
        "proved" => &Proved,
        "model" => &MODEL,
        _ => usage(),
    };
    let row = rows.get(row).unwrap_or_else(|| usage());
    let mut memory = row.memory();
    let mut count = 0;
    for _ in 0..rounds {
        row.prepare(subject, &mut memory);
        if !idle {
            count = row.run(subject, &mut memory);
        }
    }
    if !idle && rounds > 0 {
        row.check(&memory, count);
    }
}
