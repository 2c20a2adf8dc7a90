//! Calls on disks, which take time.

use crate::fiber;
use crate::world::{self, with, MICROSECOND, MILLISECOND};

/// How long a call of a disk takes, in microseconds.
pub struct Time {
    least: u64,
    most: u64,
}

pub const CACHED: Time = Time { least: 1, most: 8 };
pub const MEDIUM: Time = Time { least: 20, most: 200 };
pub const SYNC: Time = Time { least: 50, most: 1_500 };

/// A call on a disk. One that has begun takes effect though its process is stopped; it returns afterwards.
pub struct Call {
    is_inside: bool,
}

impl Call {
    pub fn begin(time: &Time) -> Call {
        let is_inside = fiber::is_inside();
        if is_inside {
            world::call(true);
            spend(time);
        }
        Call { is_inside }
    }
}

impl Drop for Call {
    fn drop(&mut self) {
        if self.is_inside {
            world::call(false);
        }
    }
}

fn spend(time: &Time) {
    let nanoseconds = with(|it| {
        let late = it.chances.late_disk;
        let factor = if it.happens("late disk", late) { it.random.within(20, 2_000) } else { 1 };
        (it.random.within(time.least, time.most) * MICROSECOND * factor).min(600 * MILLISECOND)
    });
    world::pause(nanoseconds);
}
