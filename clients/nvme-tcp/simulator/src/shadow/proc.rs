//! Files of /proc.

use crate::world::World;
use ::std::path::Path;

/// The text of a file of a machine, if it is one of /proc.
pub fn text_of(world: &World, path: &Path, machine: usize) -> Option<Vec<u8>> {
    let boots = world.boots.get(&machine).copied().unwrap_or(1);
    let text = match path.to_str()? {
        "/proc/sys/kernel/random/boot_id" => format!("{:08x}-0000-4000-8000-{:012x}\n", machine + 1, boots),
        "/proc/sys/kernel/hostname" => format!("machine{machine}\n"),
        "/proc/locks" => world.disks.locks(machine),
        it if world.disks.hides_names && it.starts_with("/proc/") => return None,
        it if it.starts_with("/proc/") && it.ends_with("/comm") => "nvmetcp\n".to_owned(),
        _ => return None,
    };
    Some(text.into_bytes())
}
