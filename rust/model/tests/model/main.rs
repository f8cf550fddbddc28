//! The scope document's examples and the makers' vectors, as tables.

mod bench;
mod calls;
mod examples;
mod faults;
mod host;
mod host_counts;
mod profiles;
mod rates;
mod record;
mod recording;
mod show_host;
mod vectors;
