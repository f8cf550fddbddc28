//! One table of ratios from one run: the proved library, the model and the plain limit take turns, so that all meet the same
//! machine, and the best round of each counts. ROUNDS says how many.

use criterion::black_box;
use indraveck_benchmarks::{rows, Row, MODEL};
use indraveck_evidence::errands::errands;
use indraveck_evidence::session::{machine, Memory, Session};
#[cfg(feature = "proved")]
use indraveck_evidence::Proved;
use indraveck_evidence::Subject;
use std::time::{Duration, Instant};

#[cfg(feature = "proved")]
const PROVED: Option<&dyn Subject> = Some(&Proved);
#[cfg(not(feature = "proved"))]
const PROVED: Option<&dyn Subject> = None;

fn timed<T>(work: impl FnOnce() -> T) -> Duration {
    let start = Instant::now();
    black_box(work());
    start.elapsed()
}

fn subject(row: &Row, subject: &dyn Subject, memory: &mut Memory) -> Duration {
    row.prepare(subject, memory);
    let mut count = 0;
    let spent = timed(|| count = row.run(subject, memory));
    row.check(memory, count);
    spent
}

fn limit(row: &Row, memory: &mut Memory) -> Duration {
    row.prepare_flash(memory);
    timed(|| row.limit(memory))
}

fn print(row: &Row) {
    let mut memory = row.memory();
    let mut best = [None, None, None];
    let mut take = |column: usize, spent: Duration| {
        let slot: &mut Option<Duration> = &mut best[column];
        *slot = Some(slot.map_or(spent, |best| best.min(spent)));
    };
    // the large one byte by byte takes long enough to be steady
    let long = row.is_long();
    for _ in 0..if long { rounds().min(2) } else { rounds() } {
        if let Some(proved) = PROVED {
            take(0, subject(row, proved, &mut memory));
        }
        take(1, subject(row, &MODEL, &mut memory));
        take(2, limit(row, &mut memory));
    }
    let [proved, model, limit] = best;
    println!(
        "| {} | {} | {} | {} | {} | {} | {} |",
        row.name,
        milliseconds(proved),
        milliseconds(model),
        milliseconds(limit),
        ratio(proved, model),
        ratio(proved, limit),
        ratio(model, limit)
    );
}

fn milliseconds(spent: Option<Duration>) -> String {
    spent.map_or("-".to_string(), |spent| {
        format!("{:.3}", spent.as_secs_f64() * 1e3)
    })
}

fn ratio(one: Option<Duration>, other: Option<Duration>) -> String {
    match (one, other) {
        (Some(one), Some(other)) if !other.is_zero() => {
            format!("{:.2}", one.as_secs_f64() / other.as_secs_f64())
        }
        _ => "-".to_string(),
    }
}

fn rounds() -> u32 {
    match std::env::var("ROUNDS") {
        Ok(words) => words.parse().expect("a whole number"),
        Err(_) => 5,
    }
}

fn main() {
    println!("{}; milliseconds, best of {} rounds", machine(), rounds());
    println!();
    println!("| work | proved | model | limit | proved / model | proved / limit | model / limit |");
    println!("|---|--:|--:|--:|--:|--:|--:|");
    let small = Session::new(0x1_0000, 128);
    let large = Session::new(0x40_0000, 1024);
    rows(&small, &large, &errands()).iter().for_each(print);
}
