"""What the proof of each crate takes from nothing, in seconds of one processor, so that the long chains begin first."""

# Measured on four cores; those of crates that were split since are shares of what was measured. What is not here is
# estimated by its lines.
SECONDS = {
    "nvme_wire": 84, "nvme_spec": 120, "nvme_medium": 115, "nvme_brought": 25, "nvme_lent": 30, "nvme_resv": 57, "nvme_ns": 75,
    "nvme_policy": 28, "nvme_mem": 18, "nvme_prp": 36, "nvme_ring": 21, "nvme_regs": 19, "nvme_machine": 42,
    "nvme_driver": 116, "nvme_exec": 72, "nvme_admin": 91, "nvme_ctrl": 60, "nvme_subsys": 60, "nvme_event": 12,
    "nvme_mailbox": 40, "nvme_refinement": 34, "nvme_fleet": 200, "script_text": 90, "nvme_transcript": 93,
    "nvme_grammar": 330, "nvme_program": 290, "nvme_script": 160, "nvmesim": 120, "live_text": 45, "live_views": 132,
    "nvme_live": 320, "nvmelive": 120, "nvme_lines": 60, "nvme_premises": 15, "library_text": 90,
}
LINES_A_SECOND = 25


def seconds_of(crate):
    """The seconds of a crate, measured or estimated."""
    return SECONDS.get(crate.name) or 1 + crate.count(b"\n") // LINES_A_SECOND
