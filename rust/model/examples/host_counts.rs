//! Prints how often the host's judge gives each verdict when one byte of a
//! reply is changed to every value: request, reply, position of the byte, then
//! how many are unanswered, passed, refused and wrong.
//!
//! `./cargo run --offline -p indraveck-model --example host_counts`

#[allow(dead_code)]
#[path = "../tests/model/bench.rs"]
mod bench;
#[allow(dead_code)]
#[path = "../tests/model/host_counts.rs"]
mod host_counts;

fn main() {
    for line in host_counts::lines() {
        println!("{line}");
    }
}
