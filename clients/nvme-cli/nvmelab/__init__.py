"""A lab: NVMe devices that are the proved subsystem, for tools that know only /dev and /sys."""
