"""Trials of the devices: all commands by the client, several processes at once, and kills."""
import os
import random
import signal
import sys
import time
from typing import List

from support import CONFIG, LONGEST_SECONDS, Bench, Fault, check_is, children_of, server_of, view_of, wait_until

CLIENT_TRIALS = ("files", "admin", "queues", "unread", "attachment", "blocks", "pointers", "reservations", "disk",
                 "others")
# No request of a driver says queues; what else none says is tried in their place.
DRIVER_TRIALS = ("files", "admin", "unsaid", "unread", "attachment", "blocks", "pointers", "reservations", "disk")
DRIVERS = ["--drivers"]

# Sends the server wrong messages, in the lab: none, a part of one, too much, nonsense; and reads no answer.
ROUGH = r"""
import os, socket, struct, sys
def connect():
    stream = socket.socket(socket.AF_UNIX, socket.SOCK_STREAM)
    stream.connect(os.environ["NVME_LAB"] + "/socket")
    return stream
def request(asked=1, queue=1, controller=0, nsid=1, offset=0, length=0, entry=bytes(64), data=b""):
    body = struct.pack("<BBHIII", asked, queue, controller, nsid, offset, length) + entry + data
    return struct.pack("<I", len(body)) + body
flush = struct.pack("<B3xI", 0, 1) + bytes(56)
write = struct.pack("<B3xI32xII16x", 1, 1, 9, 0)
read = struct.pack("<B3xI32xIII12x", 2, 1, 0, 0, 255)
big = request(length=131072, entry=read, data=bytes(131072))
whole = request(length=512, entry=write, data=b"x" * 512)
for text in (b"", b"\1", b"\x50\0\0\0", whole[:-1], struct.pack("<I", 1 << 31) + b"x" * 100,
             struct.pack("<I", 3) + b"abc", request(asked=9), request(queue=7), request(offset=2),
             request(length=1 << 20), request(length=512), big, request(asked=2)):
    stream = connect()
    stream.sendall(text)
    stream.close()
def answer(text):
    stream = connect()
    stream.sendall(text)
    head = stream.makefile("rb").read(24)
    return struct.unpack_from("<I", head, 4)[0]
assert answer(request(controller=9, entry=flush)) == 19
assert answer(request(nsid=7, entry=flush)) == 19
# One client stops in the middle and one never reads its answer, while a third continues.
slow, deaf = connect(), connect()
slow.sendall(whole[:300])
deaf.sendall(big)
assert answer(request(entry=flush)) == 0
slow.sendall(whole[300:])
assert struct.unpack_from("<I", slow.makefile("rb").read(24), 4)[0] == 0
"""


def commands(bench: Bench) -> None:
    """Each command, in all lengths and places of a buffer, by a program that knows only devices."""
    with bench.held():
        for name in CLIENT_TRIALS:
            bench.try_client(name)


def requests(bench: Bench) -> None:
    """Checks requests of drivers: of both hosts, and of one next to a raw host. Those who join need not ask for
    them."""
    mixed = bench.place / "mixed.nvme"
    mixed.write_text(CONFIG.read_text().replace("host 0xb2", "host 0xb2 raw"))
    for config in (CONFIG, mixed):
        with bench.held(DRIVERS, config):
            for name in DRIVER_TRIALS:
                bench.try_client(name, "driver", config=config)


def several(bench: Bench) -> None:
    """Processes of two hosts and a third, each in a shell of its own, on one namespace at once."""
    for drivers in ([], DRIVERS):
        hammered_at_once(bench, drivers)


def hammered_at_once(bench: Bench, drivers: List[str]) -> None:
    running = [bench.begin([bench.client, "hammer", device, first, "25"], [*drivers, *options])
               for device, first, options in (
        ("/dev/nvme0n1", "0", ["--host", "0xa1"]), ("/dev/nvme0n1", "300", ["--host", "0xb2"]),
        ("/dev/nvme1n1", "600", []))]
    for process in running:
        _, errors = process.communicate(timeout=LONGEST_SECONDS)
        check_is(f"the end of one of three at once, which prints {errors!r},", process.returncode, 0)
    bench.wait_over()


def killed_clients(bench: Bench) -> None:
    """Clients that are killed at any moment, and clients that send half a message."""
    chosen = random.Random(41)
    with bench.held():
        for _ in range(15):
            process = bench.begin([bench.client, "hammer", "/dev/nvme0n1", "0", "1000000"])
            time.sleep(0.1 + chosen.random() * 0.3)
            process.kill()
            process.communicate()
        done = bench.run([sys.executable, "-c", ROUGH])
        check_is(f"the end of rough words, with {done.errors!r},", done.status, 0)
        bench.try_client("admin")
        bench.try_client("hammer", "/dev/nvme0n1", "300", "5", options=["--host", "0xb2"])


def pulled(bench: Bench, kill) -> None:
    """Kills the server of an open device, and checks what the device then does."""
    process = bench.begin(["sh", "-c", f"{bench.client} gone /dev/nvme0n1; echo $?; {bench.client} gone /dev/nvme0n1"])
    check_is("the client's word", process.stdout.readline(), "open\n")
    server = server_of(view_of(process.pid))
    kill(server)
    wait_until("the server to end", lambda: not os.path.exists(f"/proc/{server}"))
    output, errors = process.communicate("\n", timeout=30)
    check_is("the status of a command", output, "3\n")
    # The node of a device goes with the lab's folder, which a killed server leaves.
    is_refused = "No such device or address" in errors or "No such file or directory" in errors
    if "flush: No such device\n" not in errors or not is_refused:
        raise Fault(f"a device without its server reports {errors!r}")
    bench.try_client("files")
    bench.wait_over()


def killed_server(bench: Bench) -> None:
    """A server, and a program, that are killed are a disk that was pulled; the next lab begins anew."""
    pulled(bench, lambda server: os.kill(server, signal.SIGKILL))
    pulled(bench, lambda server: os.kill(children_of(server)[0], signal.SIGKILL))
    pulled(bench, lambda server: os.kill(server, signal.SIGTERM))


TRIALS = (commands, requests, several, killed_clients, killed_server)
