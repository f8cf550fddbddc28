//! Random recordings, read, written and replayed by the library and the model.

mod random;

use indraveck_evidence::recordings;
use random::Cases;

const EXPECTED: &[(&str, u64)] = &[
    ("device record read", 13_000),
    ("device record written", 3500),
    ("host record read", 14_000),
    ("host record written", 4000),
    ("part of a recording written back", 1000),
    ("record refused with 2", 700),
    ("record refused with 3", 1300),
    ("record refused with 5", 450),
    ("record unreadable with 1", 1_400_000),
    ("record unreadable with 2", 600),
    ("record unreadable with 3", 450),
    ("record unreadable with 4", 12_000),
    ("recording's end read", 2800),
    ("replay changed flash", 450),
    ("replay ended at the end", 700),
    ("replay ended with 1", 350),
    ("replay ended with 2", 190),
    ("replay ended with 3", 140),
    ("replay ended with 4", 170),
    ("replay refused", 390),
    ("reset read", 3900),
    ("reset written", 1200),
    ("whole recording written back", 850),
    ("written record read back", 9000),
];

/// RECORDINGS says how many, SEED which ones.
const RECORDINGS: Cases = Cases {
    name: "recordings",
    count: 4_000,
    expected: EXPECTED,
    seed: 0x3C,
};

#[test]
fn the_library_reads_and_writes_as_the_model_does() {
    RECORDINGS.compare(
        0,
        RECORDINGS.asked(),
        &recordings::recordings(),
        recordings::play,
    );
}
