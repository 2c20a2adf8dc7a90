"""A failing medium, command by command, with the answers spelled out."""
from typing import List, Tuple

from tests.faults.bench import Plan, must_be, run
from tests.faults.model import pattern
from tests.runs import Wrong

SETUP = "controller 1 host 0xa1{}\nnamespace 1 blocks 16 shared\nattached 1 1\nstart\n"
NEW = "ab" * 1536
# A command on three blocks, the calls that fail in turn, and its answer if the first, the second .. of them does;
# the last is that without a failure. Of a Compare whose first block differs the others are not read.
ON_BLOCKS: Tuple[Tuple[str, str, Tuple[str, ...]], ...] = (
    ("read 1 1 0 3", "pread", ("2:81 0", "2:81 0", "2:81 0", "0:00 0")),
    ("compare 1 1 0 3 hex:{}", "pread", ("2:81 0", "2:81 0", "2:81 0", "0:00 0")),
    ("compare 1 1 0 3 fill:00", "pread", ("2:81 0", "2:85 0", "2:85 0", "2:85 0")),
    ("write 1 1 0 3 hex:" + NEW, "pwrite", ("2:80 0", "2:80 0", "2:80 0", "0:00 0")),
    ("zeroes 1 1 0 3", "pwrite", ("2:80 0", "2:80 0", "2:80 0", "0:00 0")),
    ("flush 1 1", "sync", ("2:80 0", "0:00 0")),
)
# A raw host makes an I/O queue, fills 1,536 bytes at 5000h, has three blocks from block 0 on read there, and then has
# these bytes written to blocks 8 to 10: so the image reports what was in its memory.
RAW = """write32 1 0x24 0x1f0007
write32 1 0x30 0x1000
write32 1 0x14 0x460001
store 1 0 hex:05000100
store 1 24 hex:0030
store 1 40 hex:01001f0001
store 1 64 hex:01000200
store 1 88 hex:0020
store 1 104 hex:0100070001000100
write32 1 0x1000 2
fetch 1 0
fetch 1 0
execute 1 0
execute 1 0
store 1 0x5000 hex:{}
store 1 0x2000 hex:0200070001
store 1 0x2018 hex:0050
store 1 0x2030 hex:02
store 1 0x2040 hex:0100080001
store 1 0x2058 hex:0050
store 1 0x2068 hex:08
store 1 0x2070 hex:02
write32 1 0x1008 2
fetch 1 1
fetch 1 1
execute 1 0
execute 1 0
"""


def executed(output: bytes) -> List[str]:
    """What each execution posted."""
    return [line.split(" posted ")[1] for line in output.decode().splitlines() if " posted " in line]


def left_by(request: str, before: bytes, failing: int) -> bytes:
    """The image after a command: the blocks before the one whose write fails are written, and no others."""
    if not request.startswith(("write", "zeroes")):
        return before
    new = bytes.fromhex(NEW) if request.startswith("write") else bytes(1536)
    return new[:512 * (failing - 1)] + before[512 * (failing - 1):]


def try_command(before: bytes, request: str, kind: str, answers: Tuple[str, ...]) -> None:
    """A command with each of its calls failing."""
    request = request.format(before[:1536].hex())
    script = f"{SETUP.format('')}up 1\n{request}\nring 1\nfetch 1 1\nexecute 1 0\npoll 1\n".encode()
    for failing, answer in enumerate(answers, 1):
        what = f"{request[:24]}, {kind} {failing} failing"
        shown = run(script, before, Plan(kind, failing, "EIO"))
        data = f" 1536 {before[:1536].hex()}" if request.startswith("read") and answer == "0:00 0" else ""
        wanted = f"up 1 ok\nplaced 1 1\nrung 1\nfetch 1 1 took\nexecute 1 0 posted {answer}\n" \
                 f"poll 1 1 {answer[:4]} 00000000{data}\n"
        must_be(what, shown, 0, wanted.encode(), b"", left_by(request, before, min(failing, 4)))


def test_raw() -> None:
    """What a Read that fails leaves in the memory of its host: the blocks before the one that failed."""
    before = pattern(5, 16, 100)
    script = (SETUP.format(" raw") + RAW.format("ee" * 1536)).encode()
    for failing in range(1, 5):
        read = "2:81 0" if failing < 4 else "0:00 0"
        shown = run(script, before, Plan("pread", failing, "EIO"))
        front = before[:512 * (failing - 1)]
        memory = front + b"\xee" * (1536 - len(front))
        what = f"a raw host's Read, pread {failing} failing"
        must_be(what, shown, 0, None, b"", before[:4096] + memory + before[5632:])
        if executed(shown.output) != ["0:00 0", "0:00 0", read, "0:00 0"]:
            raise Wrong(f"{what}: the executions posted {executed(shown.output)}")


def test_blocks() -> None:
    """Each command with each of its calls failing."""
    before = pattern(5, 16, 100)
    for case in ON_BLOCKS:
        try_command(before, *case)
