//! Prints what `crates/show_host` has to print, worked out by the model; with
//! the word `judge`, what `crates/show_judge` has to.
//!
//! `./cargo run --offline -p indraveck-model --example show_host`

#[allow(dead_code)]
#[path = "../tests/model/bench.rs"]
mod bench;
#[allow(dead_code)]
#[path = "../tests/model/host_counts.rs"]
mod host_counts;
#[path = "../tests/model/show_host.rs"]
mod show_host;

fn main() {
    match std::env::args().nth(1).as_deref() {
        Some("judge") => print!("{}", show_host::replies()),
        _ => print!("{}", show_host::requests()),
    }
}
