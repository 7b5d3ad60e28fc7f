//! The job of `dcpctl` in plain Rust, with nothing proved: what `tools/measure` holds the built program beside.
//!
//! It reads the same scenarios and traces, and writes the same bytes, by `run`, `replay`, `reference` and `soak N`; and it
//! has `raw udp N` and `raw tcp N`, so many messages between two sockets of one process and nothing else.

mod cli;
mod conversation;
mod host;
#[cfg_attr(feature = "entries", path = "log_entries.rs")]
mod log;
mod master;
mod models;
mod net;
mod outbox;
mod pdu;
mod peers;
mod plan;
mod raw;
mod rows;
mod scenario;
mod slave;
mod slave_log;
mod soak;
mod trace;
mod types;
mod wiring;
mod words;

use std::process::ExitCode;

fn main() -> ExitCode {
    let words: Vec<_> = std::env::args_os().skip(1).collect();
    // A word that is no text is no command either.
    let words: Vec<&str> = words.iter().map(|w| w.to_str().unwrap_or("-")).collect();
    ExitCode::from(cli::main(&words) as u8)
}
