//! The blank check by itself: the proved one, a search in safe Rust and the comparison with as many blank bytes, which is the limit.
//! All take turns, and the best round of each counts. ROUNDS says how many.

use criterion::black_box;
use std::time::{Duration, Instant};

// Not together with the library of the device: both archives hold what they share.
#[link(name = "interface_blank", kind = "static")]
extern "C" {
    fn indraveck_first_dirty(target: *const u8, length: usize, unit: usize) -> usize;
}

/// The number of the first unit that is not blank, or the number of bytes.
fn proved(target: &[u8], unit: usize) -> usize {
    // SAFETY: the pointer and the length are those of one slice, which is only read and not kept.
    unsafe { indraveck_first_dirty(target.as_ptr(), target.len(), unit) }
}

fn searched(target: &[u8], unit: usize) -> usize {
    target
        .chunks(unit)
        .position(|unit| unit.iter().any(|&byte| byte != 0xFF))
        .unwrap_or(target.len())
}

fn timed<T>(work: impl FnOnce() -> T) -> (T, Duration) {
    let start = Instant::now();
    let answer = black_box(work());
    (answer, start.elapsed())
}

/// Targets of `size` bytes, one behind the other, each judged by a call of its own.
struct Row<'a> {
    name: &'a str,
    bytes: &'a [u8],
    blank: &'a [u8],
    size: usize,
    unit: usize,
}

impl Row<'_> {
    /// The answers of all calls, added up.
    fn each(&self, judge: impl Fn(&[u8]) -> usize) -> usize {
        let targets = self.bytes.chunks(self.size);
        targets.map(|target| judge(black_box(target))).sum()
    }

    fn print(&self, rounds: u32) {
        let unit = black_box(self.unit);
        let blank = &self.blank[..self.size];
        let expected = self.each(|target| searched(target, unit));
        let mut best = [Duration::MAX; 3];
        for _ in 0..rounds {
            let (answer, spent) = timed(|| self.each(|target| proved(target, unit)));
            assert_eq!(answer, expected, "{}, unit {}", self.name, unit);
            best[0] = best[0].min(spent);
            let (_, spent) = timed(|| self.each(|target| searched(target, unit)));
            best[1] = best[1].min(spent);
            let (_, spent) = timed(|| self.each(|target| usize::from(target == black_box(blank))));
            best[2] = best[2].min(spent);
        }
        let [proved, searched, compared] = best.map(|spent| spent.as_secs_f64() * 1e3);
        println!(
            "| {}, unit {} | {:.3} | {:.3} | {:.3} | {:.2} | {:.2} |",
            self.name,
            unit,
            proved,
            searched,
            compared,
            proved / searched,
            proved / compared
        );
    }
}

fn main() {
    let rounds = match std::env::var("ROUNDS") {
        Ok(words) => words.parse().expect("a whole number"),
        Err(_) => 20,
    };
    let host = std::env::var("INDRAVECK_HOST").unwrap_or_else(|_| "a machine not named".into());
    println!(
        "built for {}, run on {}; milliseconds, best of {} rounds",
        std::env::consts::ARCH,
        host,
        rounds
    );
    println!();
    println!(
        "| blank check | proved | safe Rust | comparison | proved / Rust | proved / comparison |"
    );
    println!("|---|--:|--:|--:|--:|--:|");
    const ALL: usize = 0x40_0000;
    let blank = vec![0xFF; ALL];
    // a comparison with itself may answer without looking
    let clean = blank.clone();
    let mut last = blank.clone();
    last[ALL - 1] = 0;
    let mut lasts = blank.clone();
    lasts
        .iter_mut()
        .skip(1023)
        .step_by(1024)
        .for_each(|byte| *byte = 0);
    for unit in [4, 128, 1024] {
        for (name, bytes, size) in [
            ("4 MB, all blank", &clean, ALL),
            ("4 MB, last byte not", &last, ALL),
            ("4,096 times 1 KB, last byte not", &lasts, 1024),
        ] {
            Row {
                name,
                bytes,
                blank: &blank,
                size,
                unit,
            }
            .print(rounds);
        }
    }
}
