//! What the simulated processor has.

use std::sync::atomic::{AtomicBool, Ordering};

static HAS_ALL: AtomicBool = AtomicBool::new(true);

/// Whether it has the instructions that the real one has, or none of those that programs ask for.
pub fn begin(has_all: bool) {
    HAS_ALL.store(has_all, Ordering::Relaxed);
}

pub fn has_all() -> bool {
    HAS_ALL.load(Ordering::Relaxed)
}

/// Asks whether the simulated processor has an instruction.
#[macro_export]
macro_rules! is_x86_feature_detected {
    ($feature:tt) => {
        $crate::has_instructions() && $crate::arch::is_x86_feature_detected!($feature)
    };
}
