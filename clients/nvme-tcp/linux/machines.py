"""Guests: Debian's kernel in QEMU without KVM, driven over its serial console."""
import os
import re
import select
import socket
import subprocess
import time
from pathlib import Path
from typing import Optional, Sequence

# The address at which a guest reaches the machine that it runs on.
ADDRESS = "10.0.2.2"
# A factor for time limits, on machines that are slow or busy.
SLOWER = float(os.environ.get("SLOWER", "1"))
# Whether the machines of a target that moves are namespaces of this kernel, which need no emulation, or else guests.
NAMESPACES = bool(os.environ.get("NAMESPACES"))
# The factor for times of these machines.
SLOW = SLOWER * (1 if NAMESPACES else 5)
# Time limits for a guest to boot, and for a line.
BOOT, LINE = 180 * SLOWER, 120 * SLOWER


class Guest:
    """One machine of one host, named by the first byte of its HOSTID. `run` types a line and waits for the prompt.

    `more` is for the kernel's command line, `archive` follows the initramfs, and `devices` are further words for QEMU.
    From the state that is `saved` in a file it does not boot: its monitor continues it.
    """

    def __init__(self, built: Path, folder: Path, host: str, cpus: int = 1, more: str = "", archive: str = "",
                 devices: Sequence[str] = (), saved: Optional[Path] = None) -> None:
        self.host = host
        self.console = open(folder / f"console-{host}.txt", "ab")
        initramfs = built / "initramfs.gz"
        if archive:
            initramfs = folder / f"initramfs-{host}.gz"
            initramfs.write_bytes((built / "initramfs.gz").read_bytes() + (built / archive).read_bytes())
        words = ["qemu-system-x86_64", "-accel", "tcg", "-cpu", "max", "-smp", str(cpus), "-m", "768", "-nographic",
                 "-no-reboot", "-nodefaults", "-serial", "stdio", "-nic", "user,model=e1000", "-kernel",
                 str(built / "vmlinuz"), "-initrd", str(initramfs), *devices, "-append",
                 # no_timer_check: on a loaded machine the timer fails that check, and the kernel panics.
                 # norandmaps: QEMU translates a program again for each address that it is mapped at.
                 "console=ttyS0 panic=-1 quiet loglevel=7 mitigations=off random.trust_cpu=on no_timer_check "
                 f"norandmaps suvmileh={host} {more}"]
        words += ["-S", "-incoming", f"exec:cat {saved}"] if saved else []
        begun = time.monotonic()
        self.process = subprocess.Popen(words, stdin=subprocess.PIPE, stdout=subprocess.PIPE, bufsize=0)
        self.come = b""
        if saved:
            return
        booted = self.wait(BOOT)
        kernel = re.search(r"guest \w+ is up, (.*), ", booted)
        say(f"guest {host} is up, {kernel.group(1) if kernel else '?'}, after {time.monotonic() - begun:.0f} s")

    def read(self, seconds: float) -> None:
        """Reads the output that arrives within this time."""
        readable, _, _ = select.select([self.process.stdout], [], [], seconds)
        if readable:
            piece = os.read(self.process.stdout.fileno(), 65536)
            if not piece:
                raise EOFError(f"guest {self.host} has ended: {self.come[-2000:].decode(errors='replace')}")
            self.console.write(piece)
            self.console.flush()
            self.come += piece

    def wait(self, seconds: float) -> str:
        """The output up to the next prompt."""
        last = time.monotonic() + seconds
        prompt = re.compile(rb"(?:^|\n)" + self.host.encode() + rb"\$ ")
        while True:
            found = prompt.search(self.come)
            if found:
                text, self.come = self.come[:found.start()], self.come[found.end():]
                return text.decode(errors="replace").replace("\r", "")
            if time.monotonic() > last:
                raise TimeoutError(f"guest {self.host}: {self.come.decode(errors='replace')}")
            self.read(1.0)

    def type(self, line: str) -> None:
        self.process.stdin.write(line.encode() + b"\n")

    def run(self, line: str, seconds: float = LINE) -> str:
        """Executes a line. Returns its output, and prints it after the prompt."""
        self.type(line)
        return self.ended(seconds)

    def ended(self, seconds: float = LINE) -> str:
        """The echo and the output of the last typed line."""
        text = self.wait(seconds)
        print(f"{self.host}$ {text}", flush=True)
        return text

    def rest(self, seconds: float) -> None:
        """Waits, and shows the console's output meanwhile."""
        last = time.monotonic() + seconds
        while time.monotonic() < last:
            self.read(max(0.0, last - time.monotonic()))
        if self.come.strip():
            print(self.come.decode(errors="replace").replace("\r", ""), flush=True)
            self.come = b""

    def close(self) -> None:
        self.process.kill()
        self.process.wait()
        self.console.close()


def ask_monitor(path: Path, lines: str, answer: bytes) -> bytes:
    """Sends lines to a QEMU monitor, and waits for an answer to the last one. Returns all that it has said."""
    with socket.socket(socket.AF_UNIX) as monitor:
        monitor.settimeout(LINE)
        monitor.connect(str(path))
        monitor.sendall(f"{lines}\n".encode())
        come = b""
        # QEMU drops the commands of a connection that is closed before they are executed.
        while answer not in come:
            come += monitor.recv(4096)
        return come


def say(text: str) -> None:
    """Prints a line of the scene itself."""
    print(f"# {text}", flush=True)
