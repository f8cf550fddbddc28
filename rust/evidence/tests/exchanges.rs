//! Random requests and replies, built and judged by the library and the model.

mod random;

use indraveck_evidence::exchanges;
use random::Cases;

const EXPECTED: &[(&str, u64)] = &[
    ("area kept", 1400),
    ("data handed on", 1_000_000),
    ("judge decided on a length", 2000),
    ("judge passed", 9000),
    ("judge refused", 8000),
    ("judge said wrong reply", 11_000),
    ("judge unanswered", 19_000),
    ("no request judged", 1900),
    ("nothing taken behind a verdict", 950_000),
    ("packet built", 21_000),
    ("packet refused with 2", 6500),
    ("packet refused with 3", 20),
    ("packet refused with 4", 4000),
    ("packet refused with 5", 3900),
    ("signature kept", 640),
];

/// EXCHANGES says how many, SEED which ones.
const EXCHANGES: Cases = Cases {
    name: "exchanges",
    count: 20_000,
    expected: EXPECTED,
    seed: 0x2D,
};

#[test]
fn the_library_builds_and_judges_as_the_model_does() {
    EXCHANGES.compare(
        0,
        EXCHANGES.asked(),
        &exchanges::exchanges(),
        exchanges::play,
    );
}
