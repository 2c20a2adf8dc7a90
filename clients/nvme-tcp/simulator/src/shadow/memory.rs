//! The functions of the target's `memory.rs`.

use ::std::io;

pub fn give_back_zeros() -> io::Result<()> {
    Ok(())
}
