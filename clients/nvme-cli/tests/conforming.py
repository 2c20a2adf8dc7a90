"""Trials of `python3 -m nvmesim conform`: the lab's devices compared with the model, and wrong devices."""
import sys
from typing import List

from support import HERE, PACKAGE, Bench, Ended, Fault, check_is

BOTH = ["--device", "/dev/nvme0n1", "--second", "/dev/nvme1n1"]
PLAN = """\
/dev/nvme0n1: Multi-Host Subsystem NVMESIM, controller 1, namespace 1 of 2048 blocks
/dev/nvme1n1: Multi-Host Subsystem NVMESIM, controller 2, namespace 1 of 2048 blocks
written: blocks 0 to 15 and 2032 to 2047, with data and with zeros
set and cleared: registrations, reservations and what persists of the namespace
set and ended: write protection of the namespace, but not the one until a power cycle
tried: attachments that are refused; nothing is attached or detached
"""
UNASKED = "nvmesim: nothing was written: give --destroy-data to write, or --dry-run to print the plan\n"


def conform(bench: Bench, words: List[str], options: List[str]) -> Ended:
    return bench.run([sys.executable, "-m", "nvmesim", "conform", *words], options)


def same(bench: Bench) -> None:
    """The lab's own devices answer as the model does."""
    bench.others["PYTHONPATH"] = str(PACKAGE.parent / "python")
    for options in ([], ["--drivers"]):
        for words in (BOTH, BOTH[:2], ["--device", "/dev/nvme1n1", "--second", "/dev/nvme0n1", "--seed", "900"]):
            done = conform(bench, [*words, "--destroy-data", "--scenes", "6"], options)
            check_is(f"{words} with {options}, which prints {done.output!r} and {done.errors!r},", done.status, 0)
            if "no difference in 6 scenes of 40 commands" not in done.output:
                raise Fault(f"{done.output!r} has no end")


def careful(bench: Bench) -> None:
    """Nothing is written without --destroy-data, nor to a namespace with registrants."""
    image = bench.place / "image"
    content = bytes(range(256)) * 2 * (2048 + 64)
    image.write_bytes(content)
    for words, status, said in (
            ([*BOTH, "--dry-run"], 0, ""), ([*BOTH, "--dry-run", "--destroy-data"], 0, ""),
            (BOTH, 2, UNASKED)):
        done = conform(bench, words, ["--image", str(image)])
        check_is(f"{words}", (done.status, done.output, done.errors), (status, PLAN, said))
    done = conform(bench, [*BOTH, "--dry-run", "--without", "reservations", "--without", "compare"], [])
    left_out = "left out, since a device lacks it or --without names it: Compare, reservations\n"
    check_is("what is left out", done.output.endswith(left_out) and "registrations" not in done.output, True)
    register = f"{HERE / 'standin' / 'nvme'} resv-register /dev/nvme0n1 --rrega=0 --nrkey=0xa"
    done = bench.run(["sh", "-c", f"{register} >&2; exec {sys.executable} -m nvmesim conform --device /dev/nvme0n1 "
                      "--destroy-data"], ["--image", str(image)])
    if done.status != 2 or "has registrants, so it is in use; nothing was written" not in done.errors:
        raise Fault(f"a namespace that is used: {done.status}, {done.errors!r}")
    bench.wait_over()
    check_is("whether the image is as it was", image.read_bytes() == content, True)
    for device, said in (("/dev/nvme0", "is no namespace of an NVMe device"), ("/dev/null", "is no namespace"),
                         ("/dev/nvme0n7", "No such file"), ("/dev/nvme0n2", "are not the same namespace")):
        done = conform(bench, ["--device", "/dev/nvme0n1", "--second", device, "--destroy-data"], [])
        if done.status != 2 or said not in done.errors:
            raise Fault(f"{device}: {done.status}, {done.errors!r}")


def wrong(bench: Bench) -> None:
    """Each wrong device is distinguished from the model."""
    done = bench.run([sys.executable, str(HERE / "wrong_devices.py")])
    check_is(f"the end of the wrong devices, with {done.errors!r},", done.status, 0)
    found = [it for it in done.output.splitlines() if it.startswith("# ") and " differs, " in it]
    if len(found) < 20:
        raise Fault(f"{len(found)} wrong devices, and at least 20 are expected")


TRIALS = (same, careful, wrong)
