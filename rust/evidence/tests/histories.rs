//! Random histories on the library and the model.

mod random;

use indraveck_evidence::histories;
use random::Cases;

const EXPECTED: &[(&str, u64)] = &[
    ("area sent", 1500),
    ("authenticated", 2000),
    ("bytes left unread", 30_000),
    ("command refused with C0", 200),
    ("command refused with C1", 5000),
    ("command refused with C2", 2000),
    ("command refused with C3", 1000),
    ("command refused with D0", 1000),
    ("command refused with D4", 600),
    ("command refused with DA", 150),
    ("command refused with DB", 400),
    ("command refused with DC", 2000),
    ("early refusal in authentication", 1000),
    ("early refusal in command stage", 5000),
    ("early refusal while reading", 30),
    ("early refusal while writing", 100),
    ("empty input", 1000),
    ("erase changed flash", 2000),
    ("erase left flash", 2000),
    ("fed beside, then in authentication", 30),
    ("fed beside, then in command stage", 800),
    ("fed beside, then in setting", 400),
    ("fed beside, then reading", 150),
    ("fed beside, then writing", 150),
    ("feed refused with 1", 400),
    ("feed refused with 2", 600),
    ("feed refused with 3", 300),
    ("feed refused with 4", 2000),
    ("feed refused with 5", 2000),
    ("inquiry answered", 2000),
    ("low pulses acknowledged", 15_000),
    ("next read packet sent", 1000),
    ("packet begun and not complete", 50_000),
    ("payload empty", 50_000),
    ("payload there", 40_000),
    ("rate changed", 1000),
    ("rate kept", 300),
    ("read ended with C1", 150),
    ("read ended with C2", 40),
    ("read of one packet completed", 5000),
    ("read of several packets begun", 1000),
    ("read of several packets completed", 800),
    ("record replayed", 20_000),
    ("replay changed flash", 4000),
    ("replay ended at the end", 20_000),
    ("reset in authentication", 700),
    ("reset in command stage", 3000),
    ("reset in setting", 1000),
    ("reset of no state", 400),
    ("reset refused with 1", 200),
    ("reset refused with 4", 1000),
    ("reset refused with 5", 100),
    ("reset while reading", 400),
    ("reset while writing", 1000),
    ("reset with bytes held", 1500),
    ("setting without a reply", 10_000),
    ("signature sent", 2500),
    ("start accepted", 20_000),
    ("start refused with 1", 200),
    ("start refused with 4", 1000),
    ("start refused with 5", 100),
    ("total erase changed flash", 400),
    ("total erase left flash", 60),
    ("woken up with an ID", 4000),
    ("woken up without an ID", 5000),
    ("write changed flash", 5000),
    ("write ended with C1", 700),
    ("write ended with C2", 100),
    ("write ended with E2", 600),
    ("write granted", 6000),
    ("write of one packet completed", 3000),
    ("write of several packets completed", 900),
    ("write packet stored", 6000),
];

/// HISTORIES says how many, SEED which ones.
const HISTORIES: Cases = Cases {
    name: "histories",
    count: 20_000,
    expected: EXPECTED,
    seed: 0x5A,
};

/// Two tests, so that they run side by side.
#[test]
fn the_library_answers_as_the_model_does() {
    let count = HISTORIES.asked() / 2;
    HISTORIES.compare(0, count, &histories::histories(), histories::play);
}

#[test]
fn and_so_it_does_on_as_many_others() {
    let count = HISTORIES.asked();
    HISTORIES.compare(
        1,
        count - count / 2,
        &histories::histories(),
        histories::play,
    );
}
