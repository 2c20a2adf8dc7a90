//! `nvmetcp`: an NVMe/TCP target. Hosts reach the proved subsystem through it, by whatever network there is.
//!
//! It has no rule of its own: every status is that of the subsystem, except those of Fabrics commands. One thread owns
//! the subsystem and serves all connections.
#![deny(unsafe_code)]
#![warn(clippy::pedantic, clippy::as_conversions, clippy::undocumented_unsafe_blocks)]
#![allow(
    // Names of standards are no code.
    clippy::doc_markdown,
    // A call for each is shorter as one line.
    clippy::needless_for_each,
    // Each is a setting, a field of a PDU or a fact of its own.
    clippy::struct_excessive_bools
)]
// Tests make bytes of counters, and have large arrays.
#![cfg_attr(
    test,
    allow(
        clippy::as_conversions,
        clippy::cast_possible_truncation,
        clippy::format_collect,
        clippy::large_stack_arrays,
        clippy::similar_names
    )
)]

// Simulated network, disk, clock and threads, under the names of the standard library.
#[cfg(feature = "simulated")]
#[macro_use]
extern crate simulator as std;

mod admin;
mod authentication;
mod bytes;
mod commands;
mod configuration;
mod control;
mod digest;
mod exit;
mod fabrics;
mod fault;
mod files;
mod hashing;
mod journal;
#[cfg(not(feature = "simulated"))]
#[allow(unsafe_code)]
mod memory;
mod numbers;
mod nvme;
mod options;
mod recording;
mod server;
mod start;
mod storage;
#[cfg(not(feature = "simulated"))]
#[allow(unsafe_code)]
mod system;
mod target;
mod transport;
mod volume;
mod waker;

use control::log;
use exit::Exit;
#[cfg(not(feature = "simulated"))]
use std::env;
use std::ffi::OsString;
use std::process::ExitCode;
#[cfg(feature = "simulated")]
use std::{memory, system};

#[cfg(not(feature = "simulated"))]
fn main() -> ExitCode {
    match act(env::args_os().skip(1).collect()) {
        Ok(()) => ExitCode::SUCCESS,
        Err(exit) => {
            log::fault(&exit.to_string());
            ExitCode::from(exit.status)
        }
    }
}

/// The simulator runs the command lines of targets.
#[cfg(feature = "simulated")]
fn main() -> ExitCode {
    std::simulate(|words| {
        act(words).map_err(|exit| {
            let text = exit.to_string();
            log::fault(&text);
            (exit.status, text)
        })
    })
}

/// Does what a command line asks for.
fn act(words: Vec<OsString>) -> Result<(), Exit> {
    match words.first().and_then(|word| word.to_str()) {
        Some("--help" | "-h") => commands::print(options::HELP),
        Some("--version") => commands::print(&commands::version()),
        Some("--where") => commands::print_where(),
        Some("--check") => commands::check(&words[1..]),
        Some("ctl") => commands::control_line(&words[1..]),
        Some("expand") => recording::expand::expand(&words[1..]),
        Some(command @ ("format" | "check" | "dump" | "copy")) => volume::commands::run(command, &words[1..]),
        _ => start::serve(words),
    }
}
