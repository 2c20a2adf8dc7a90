//! Standard error and standard output of a simulated process: the end of its text is kept, and is among the lines of
//! the run's log.

use crate::world::with;
pub use ::std::io::*;

/// The bytes that are kept of a process.
const KEPT: usize = 64 << 10;

pub struct Said {
    is_error: bool,
}

impl Write for Said {
    fn write(&mut self, bytes: &[u8]) -> Result<usize> {
        with(|world| {
            let process = world.process();
            let text = String::from_utf8_lossy(bytes);
            world.log.tell(world.now, process, &text);
            let said = &mut world.processes[process].said;
            said.push_str(&text);
            if said.len() >= 2 * KEPT {
                let cut = (KEPT..said.len()).find(|at| said.is_char_boundary(*at)).unwrap_or(0);
                said.drain(..cut);
            }
            if !self.is_error && world.processes[process].served.is_none() {
                world.processes[process].served = Some(world.disks.blocks().to_vec());
                // It has judged what was there, and what goes wrong from now on is for the next one.
                if world.processes[process].is_target {
                    world.disks.misdirection.misdirected = None;
                }
            }
        });
        Ok(bytes.len())
    }

    fn flush(&mut self) -> Result<()> {
        Ok(())
    }
}

pub fn stderr() -> Said {
    Said { is_error: true }
}

/// A target prints its address there once it serves.
pub fn stdout() -> Said {
    Said { is_error: false }
}
