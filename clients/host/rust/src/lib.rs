//! The proved driver of an NVMe host, for controllers of any maker, from libnvmehost: no answer is delivered twice, and
//! none from before a reset after it.
//!
//! [`Port`] drives a [`Device`]: memory that the controller reaches, and its registers. [`Mapped`] is one whose parts are
//! mapped into this process. [`Driver`] is the driver alone. Blocks have 512 bytes, and requests wait for their answers
//! as long as the program says:
//!
//! ```
//! use nvmehost::{Device, Fault, Port};
//! use std::time::Duration;
//!
//! fn first_block_of(device: impl Device) -> Result<Vec<u8>, Fault> {
//!     let (mut port, second) = (Port::start(device)?, Duration::from_secs(1));
//!     let asked = port.driver().ask(1)?;
//!     port.answer(asked, second)?;
//!     let read = port.driver().read(1, 0, 1)?;
//!     Ok(port.answer(read, second)?.to_vec())
//! }
//! ```
//!
//! Each failure has its name:
//!
//! ```
//! use nvmehost::{Device, Fault, Port};
//!
//! /// A device that was removed: its registers read as ones.
//! struct Removed;
//!
//! impl Device for Removed {
//!     fn store(&mut self, _address: u64, _bytes: &[u8]) {}
//!     fn load(&mut self, _address: u64, bytes: &mut [u8]) {
//!         bytes.fill(0xff);
//!     }
//!     fn write32(&mut self, _offset: u64, _value: u32) {}
//!     fn read32(&mut self, _offset: u64) -> u32 {
//!         u32::MAX
//!     }
//!     fn registers(&self) -> u64 {
//!         0x2000
//!     }
//! }
//!
//! assert_eq!(Port::start(Removed).err(), Some(Fault::Removed));
//! ```

#![deny(unsafe_code)]
#![warn(missing_docs)]
#![warn(clippy::pedantic, clippy::as_conversions, clippy::undocumented_unsafe_blocks)]
// Names of the standard are no code.
#![allow(clippy::doc_markdown)]

mod driver;
mod events;
mod fault;
mod mapped;
mod numbers;
mod port;
#[allow(unsafe_code)]
mod raw;
mod reservations;

pub use driver::{Action, BringUp, Controller, Driver, Limits, NextCompletion, Outcome, Ticket, BUFFER, WINDOW};
pub use events::{Event, EventKind};
pub use fault::{Fault, Status};
pub use mapped::Mapped;
pub use port::{Device, Port};
pub use reservations::{AcquireAction, Persistence, RegisterAction, ReleaseAction, ReservationType};
