//! Boundaries one by one, on the library and the model.

use indraveck_evidence::systematic::{self, Case};
use indraveck_evidence::{exchanges, recordings, tested, Model, Pair};
use std::time::Instant;

/// Those of the device, those of recordings, and those of the host's end.
fn cases() -> impl Iterator<Item = &'static Case> {
    let cases = systematic::CASES.iter().chain(recordings::CASES);
    cases.chain(exchanges::CASES)
}

fn check(name: &str) {
    let case = cases().find(|case| case.name == name).expect("a case");
    let tested = tested();
    let pair = Pair::new(&*tested, &Model(None));
    let start = Instant::now();
    if let Err(difference) = (case.run)(&pair) {
        panic!("{}", difference);
    }
    let effects = pair.effects.borrow();
    println!(
        "{} of {} in {:.1} s:\n{}",
        name,
        tested.name(),
        start.elapsed().as_secs_f64(),
        effects
    );
    let expected: Vec<(&str, u64)> = case.shows.iter().map(|effect| (*effect, 1)).collect();
    let missing = effects.missing(&expected);
    assert!(missing.is_empty(), "{}", missing.join("\n"));
}

/// A test for each case, so that they run side by side and fail by name.
macro_rules! cases {
    ($($name:ident,)*) => {
        $(#[test]
        fn $name() {
            check(stringify!($name));
        })*

        #[test]
        fn every_case_is_a_test() {
            let tests = [$(stringify!($name)),*];
            let cases: Vec<&str> = cases().map(|case| case.name).collect();
            assert_eq!(&tests[..], &cases[..]);
        }
    };
}

cases! {
    examples,
    payloads,
    lengths,
    slices,
    resets,
    codes,
    command_faults,
    transfers,
    rates,
    wake_ups,
    data_faults,
    cuts,
    buffers,
    states,
    profiles,
    boundaries,
    record_examples,
    replays,
    places_of_records,
    records_written,
    records_read,
    exchange_examples,
    numbers_of_requests,
    replies_cut,
    lengths_of_reads,
    packets_built,
    lengths_of_replies,
    codes_of_replies,
    replies_changed,
}
