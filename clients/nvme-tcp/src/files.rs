//! Files of the target: their locks, what others do to them, and those that it writes.

pub mod locking;
pub mod outputs;
pub mod settled;
pub mod watched;
