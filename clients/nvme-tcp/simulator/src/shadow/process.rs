//! The number of the simulated process.

use crate::world::with;
pub use ::std::process::*;

pub fn id() -> u32 {
    with(|it| it.process() as u32 + 100)
}
