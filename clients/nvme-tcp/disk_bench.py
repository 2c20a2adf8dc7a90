"""Rows of `bench` about a large image: cold reads and those of fio, latency during a Flush, memory, start time."""
import json
import os
import shutil
import statistics
import subprocess
import sys
import tempfile
import threading
import time
from pathlib import Path

HERE = Path(__file__).resolve().parent
LARGE, LARGEST = 64 << 30, 1 << 40
CACHE = 256 << 20
# Connections, depth of each, bytes.
COLD = ((1, 1, 4096), (4, 16, 4096), (4, 4, 131072))
HOSTS = 16


def config(blocks, hosts=1):
    """A namespace that hosts share."""
    controllers = "".join(f"controller {it} host {0xa0 + it:#x}\n" for it in range(1, hosts + 1))
    attached = "".join(f"attached {it} 1\n" for it in range(1, hosts + 1))
    return f"{controllers}namespace 1 blocks {blocks} shared\n{attached}"


class Target:
    """A target over a sparse image in a folder; `seconds` is how long it took to start."""

    def __init__(self, programs, folder, size, *options, hosts=1, environment=None):
        self.image, configuration = folder / "large.img", folder / "large.nvme"
        with open(self.image, "ab") as file:
            file.truncate(size)
        configuration.write_text(config(size // 512, hosts), encoding="ascii")
        words = [programs / "nvmetcp", "--listen", "127.0.0.1:0", "--log", "none", "--image", self.image, *options,
                 configuration]
        begun = time.monotonic()
        self.process = subprocess.Popen([str(it) for it in words], stdout=subprocess.PIPE, text=True,
                                        env={**os.environ, **(environment or {})})
        self.address = self.process.stdout.readline().rsplit(" ", 1)[1].strip()
        self.seconds = time.monotonic() - begun
        self.programs, self.blocks = programs, size // 512

    def load(self, connections, depth, length, what, seconds, blocks=None, host=0xa1):
        """What the load has measured, in words."""
        words = [self.programs / "examples/load", self.address, connections, depth, length, what, seconds,
                 blocks or self.blocks, host]
        return subprocess.run([str(it) for it in words], stdout=subprocess.PIPE, text=True, check=True).stdout.strip()

    def memory(self):
        """The most bytes of memory it has had."""
        lines = Path(f"/proc/{self.process.pid}/status").read_text(encoding="ascii").splitlines()
        return next(1024 * int(line.split()[1]) for line in lines if line.startswith("VmHWM:"))

    def close(self):
        self.process.terminate()
        self.process.wait()
        self.process.stdout.close()


def cool(image):
    """Drops the system's cache of a file."""
    with open(image, "rb") as file:
        os.posix_fadvise(file.fileno(), 0, 0, os.POSIX_FADV_DONTNEED)


def fio(image, depth, length, seconds, is_direct):
    """How many random reads a second fio gets from a file, and by which engine."""
    for engine in ("io_uring", "libaio"):
        words = ["fio", "--name=cold", f"--filename={image}", "--readonly", "--rw=randread", f"--bs={length}",
                 f"--ioengine={engine}", f"--iodepth={depth}", f"--direct={is_direct:d}", f"--runtime={seconds}",
                 "--time_based", "--norandommap", "--randrepeat=0", "--output-format=json"]
        ran = subprocess.run(words, stdout=subprocess.PIPE, stderr=subprocess.PIPE, text=True)
        if ran.returncode == 0:
            return json.loads(ran.stdout[ran.stdout.index("{"):])["jobs"][0]["read"]["iops"], engine
    return None, ran.stderr.strip()


def cold(programs, folder, seconds):
    """Random reads of a sparse file that no cache has, and fio's of the same file, in turn."""
    if not shutil.which("fio"):
        print("cold reads: fio is missing, so there is no comparison")
    for options in ((), ("--direct",)):
        for connections, depth, length in COLD:
            name = f"cold reads of {length} bytes, depth {depth} over {connections}{' with --direct' * bool(options)}"
            ratios = []
            for _ in range(3):
                target = Target(programs, folder, LARGE, *options)
                cool(target.image)
                told = target.load(connections, depth, length, "read", seconds)
                target.close()
                cool(target.image)
                if shutil.which("fio"):
                    rate, engine = fio(target.image, connections * depth, length, seconds, bool(options))
                    ratios.append(float(told.split()[0]) / rate if rate else 0)
                    told += f"; fio by {engine}: {rate:.0f} a second" if rate else f"; fio failed: {engine}"
                print(f"{name}: {told}", flush=True)
            if ratios:
                print(f"{name}: {statistics.median(ratios):.2f} of fio's", flush=True)


def flushes(programs, folder, seconds):
    """The latency of a host's cached reads while another host flushes a disk that takes a second for a sync."""
    sys.path.insert(0, str(HERE))
    from tests.faulty_disk import SYNC, Faults
    from tests.host import Host
    faults = Faults(folder, folder / "large.img")
    target = Target(programs, folder, LARGE, hosts=2, environment=faults.environment)
    host = Host(int(target.address.rsplit(":", 1)[1]), 0xa2)
    flushes_now, is_over = threading.Event(), threading.Event()

    def flush():
        while not is_over.is_set():
            if flushes_now.wait(0.05):
                assert [host.write(0, bytes(4096)), host.flush()] == [0, 0]

    thread = threading.Thread(target=flush)
    thread.start()
    faults.delay(SYNC, 1)
    target.load(1, 1, 131072, "read", "1", 2048)
    for _ in range(3):
        for name, change in (("no flushes", flushes_now.clear), ("another host's take a second", flushes_now.set)):
            change()
            time.sleep(1.1)
            print(f"cached reads of 4096 bytes, {name}: {target.load(1, 1, 4096, 'read', seconds, 2048)}", flush=True)
    is_over.set()
    thread.join()
    host.close()
    target.close()


def memory(programs, folder, seconds):
    """The memory of a target with 16 hosts that read and write, besides its cache."""
    target = Target(programs, folder, LARGE, "--cache", CACHE, hosts=HOSTS)
    for length in (131072, 4096):
        for what in ("read", "write"):
            hosts = [threading.Thread(target=target.load, args=(1, 16, length, what, seconds, None, 0xa1 + it))
                     for it in range(HOSTS)]
            for host in hosts:
                host.start()
            for host in hosts:
                host.join()
    print(f"memory with {HOSTS} hosts: {(target.memory() - CACHE) / (1 << 20):.0f} MiB besides a cache of "
          f"{CACHE >> 20} MiB", flush=True)
    target.close()


def start(programs, folder):
    target = Target(programs, folder, LARGEST)
    print(f"start over {LARGEST >> 40} TiB: {1000 * target.seconds:.0f} ms", flush=True)
    target.close()


def rows(programs, seconds):
    """Prints all rows."""
    for measure in (lambda *words: start(*words[:2]), cold, flushes, memory):
        with tempfile.TemporaryDirectory() as room:
            measure(programs, Path(room), seconds)
