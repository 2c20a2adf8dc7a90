//! A simulated world for the NVMe/TCP target. With the feature `simulated` the target's crate has this crate under the
//! name `std`, so that its own files, unchanged, run over a simulated network, disk and clock, with fibers for threads.
//! One seed decides everything that happens.
//!
//! What it does not do: name changes of files are durable at once.

#![deny(unsafe_code)]
#![warn(clippy::pedantic)]
#![allow(
    // Functions have the form of the standard library's, whose place they take.
    clippy::missing_errors_doc,
    clippy::must_use_candidate,
    clippy::needless_pass_by_value,
    clippy::return_self_not_must_use,
    clippy::unnecessary_wraps,
    clippy::unused_self,
    // Seeds become counts, places and bytes, and figures of reports are rounded.
    clippy::cast_possible_truncation,
    clippy::cast_possible_wrap,
    clippy::cast_precision_loss,
    clippy::cast_sign_loss,
    // Names of standards are no code; a call for each is shorter as one line; speed matters less than in the target.
    clippy::doc_markdown,
    clippy::format_collect,
    clippy::format_push_string,
    clippy::large_stack_arrays,
    clippy::match_same_arms,
    clippy::naive_bytecount,
    clippy::needless_for_each,
    clippy::struct_excessive_bools,
    clippy::verbose_bit_mask
)]

pub use ::std::*;

mod chance;
mod command;
mod control;
mod crafted;
mod ending;
#[allow(unsafe_code)]
mod fiber;
mod habits;
#[allow(unsafe_code)]
mod heap;
mod hosts;
mod jobs;
mod journals;
mod keyfiles;
#[allow(unsafe_code)]
mod libcrypto;
mod meddling;
mod page;
mod processor;
mod replay;
mod run;
mod scenario;
mod shadow;
mod shrinking;
mod starts;
mod superblock;
mod supervisor;
mod tools;
mod world;

pub use shadow::{collections, fs, io, memory, net, os, process, sync, system, thread, time};

/// Whether a fault is planted in this run: `simulator/plant` writes calls of this into a copy of the target.
pub fn planted(name: &str) -> bool {
    world::is_planted(name)
}

/// Whether the simulated processor has more instructions than the oldest: for `is_x86_feature_detected`.
pub fn has_instructions() -> bool {
    processor::has_all()
}

/// Runs the simulator by the words of its command line. `act` is what the target does with the words of its own.
pub fn simulate(act: supervisor::Act) -> ::std::process::ExitCode {
    heap::begin();
    libcrypto::begin();
    command::main(act)
}
