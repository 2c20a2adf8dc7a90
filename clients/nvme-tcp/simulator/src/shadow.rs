//! What the target imports from `std`, over the simulated world. Names, signatures and errors are those of the standard
//! library, as far as the target uses them; everything else is re-exported as it is.

mod calls;
pub mod collections;
pub mod fs;
pub mod io;
pub mod memory;
mod metadata;
pub mod net;
pub mod os;
pub mod proc;
pub mod process;
pub mod sync;
pub mod system;
pub mod thread;
pub mod time;
