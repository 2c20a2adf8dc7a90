"""The agent as a program, over the lab's devices: it makes the control calls of Linux."""
from __future__ import annotations

import os
import shutil
import subprocess
import sys
import tempfile
import time
import unittest
from pathlib import Path

from .support import AGENT, CLIENTS, HERE, LIVE

LAB = CLIENTS / "nvme-cli" / "lab"
CONFIG = HERE / "two-disks.nvme"
# Commands in a shell of host a1h, each with its status and output; $b2 runs the rest of the line as host b2h.
FENCING = (
    ("$agent -o monitor $disks", 0, ""),
    ("$agent -o status $disks -k b", 2, "Status: OFF"),
    ("printf 'action=on\\nkey=a\\ndevices=/dev/nvme0n1,/dev/nvme0n2\\n' | $agent", 0, "Success: Powered ON"),
    ("$b2 $agent -o on $disks --key=0xb", 0, "Success: Powered ON"),
    ("$agent -o status $disks -k b", 0, "Status: ON"),
    ("$b2 $write", 0, ""),
    ("$agent -o off $disks -k b -v", 0, "fence_nvme_pr: /dev/nvme0n2: Preempt and Abort"),
    ("$agent -o status $disks -k b", 2, "Status: OFF"),
    ("$b2 $write", 1, "dd: error writing '/dev/nvme0n1': Invalid exchange"),
    ("$write", 0, ""),
    ("$agent -o list $disks", 0, "0xa,/dev/nvme0n1 /dev/nvme0n2"),
    ("$agent -o off $disks -k a", 1, "fence_nvme_pr: /dev/nvme0n1: key 0xa is this host's own, and a node does not "
     "fence itself; nothing was changed"),
    ("$agent -o off -d /dev/nvme0n1,/dev/nvme0n7 -k b", 1,
     "fence_nvme_pr: /dev/nvme0n7 can't be opened: No such file or directory; nothing was changed"),
    ("$agent -o monitor -d /dev/null", 1,
     "fence_nvme_pr: /dev/null is no namespace of an NVMe device, such as /dev/nvme0n1"),
)
# The server of the lab is stopped for a while: nothing answers.
STOPPED = """
server=$('{python}' -c 'import os, pathlib, sys; sys.path.insert(0, "{tests}"); import support
print(support.server_of(pathlib.Path(os.environ["NVME_LAB"])))')
kill -STOP $server
$agent -o off $disks -k b --power-timeout=1; echo "status $?"
kill -CONT $server
$agent -o list $disks
"""


@unittest.skipUnless(LIVE and shutil.which("cc"), "NVMELIVE names no built nvmelive, or there is no C compiler")
class LabTest(unittest.TestCase):
    def run_in_lab(self, text: str) -> str:
        """What a shell of host a1h in a lab prints, on both streams."""
        with tempfile.TemporaryDirectory(prefix="fence-") as place:
            head = (f"agent='{AGENT}' disks='-d /dev/nvme0n2,/dev/nvme0n1' b2='{LAB} --host 0xb2 {CONFIG} --'\n"
                    "write='dd if=/dev/zero of=/dev/nvme0n1 bs=512 count=1 oflag=direct status=none'\n")
            done = subprocess.run([str(LAB), "--host", "0xa1", str(CONFIG), "--", "sh", "-c",
                                   f"exec 2>&1\n{head}{text}"], stdin=subprocess.DEVNULL, stdout=subprocess.PIPE,
                                  stderr=subprocess.STDOUT, text=True, env={**os.environ, "TMPDIR": place}, timeout=300)
            # The server removes the lab's folder a moment after the shell has ended.
            limit = time.monotonic() + 30
            while any(it.is_dir() for it in Path(place).glob("nvme-lab-*/*")) and time.monotonic() < limit:
                time.sleep(0.05)
        return done.stdout

    def test_fencing(self) -> None:
        text = "".join(f"{line}; echo \"status $?\"\n" for line, _, _ in FENCING)
        told = self.run_in_lab(text)
        parts = told.split("status ")
        self.assertEqual(len(parts), len(FENCING) + 1, told)
        for n, (line, status, words) in enumerate(FENCING):
            with self.subTest(line=line):
                found = parts[n].partition("\n")[2] if n else parts[n]
                self.assertEqual(int(parts[n + 1].split("\n")[0]), status, told)
                self.assertIn(words, found.splitlines() if words else [""])

    def test_a_disk_that_does_not_answer_fails(self) -> None:
        told = self.run_in_lab("$agent -o on $disks -k a\n$b2 $agent -o on $disks -k b\n" +
                               STOPPED.format(python=sys.executable, tests=CLIENTS / "nvme-cli" / "tests"))
        self.assertIn("has not answered open; nothing was changed; the time limit is 1 seconds (power_timeout)\n"
                      "status 5\n", told)
        self.assertIn("0xb,/dev/nvme0n1 /dev/nvme0n2", told)


if __name__ == "__main__":
    unittest.main()
