"""Images: their content after a run, and images that another process truncates."""
import os
from pathlib import Path
from typing import Callable

from tests.program.case import HELLO, HELLO_SHOWN, SETUP, Case, answered, carried, sparse

# A Write is executed, and the last line lacks a word.
CUT_SHORT = SETUP + "up 1\nwrite 1 1 0 1 hex:01\nring 1\nfetch 1 1\nexecute 1 0\nread 1 1 0"
KEPT = b"\7" * 40000


def last_block(blocks: int) -> str:
    """A block is written at 8 in a namespace of `blocks` blocks."""
    return (f"controller 1 host 1\nnamespace 1 blocks {blocks} shared\nattached 1 1\nstart\nup 1\n"
            "write 1 1 8 1 fill:5a\nring 1\nfetch 1 1\nexecute 1 0\n")


def two_namespaces(private_blocks: int) -> str:
    """Four controllers, a namespace of 64 blocks, and one of `private_blocks` after it."""
    return ("controller 1 host 0xa1\ncontroller 2 host 0xb2\ncontroller 3 host 0xa1\ncontroller 4 host 0xc3\n"
            f"namespace 1 blocks 64 shared\nnamespace 2 blocks {private_blocks} private\n"
            "attached 1 1\nattached 2 1\nattached 3 1\nattached 4 1\nattached 1 2\nstart\n")


TAIL = b"\7" * 5000


def hello_over(blocks: int) -> str:
    """The program's first script, whose namespace has `blocks` blocks."""
    return HELLO.replace("blocks 64", f"blocks {blocks}")


# An image of 72 blocks that differ.
MARKED = b"\1" + b"\7" * 36862 + b"\x09"
DOES_NOT_FIT = ("DoesNotFit", "namespace 2 ends after the 72 blocks of the medium, on which namespaces follow "
                "one another")


def refused(blocks: int, fault: str, reason: str) -> Case:
    """A configuration that is refused over an image."""
    return Case(f"an image after a refused namespace of {blocks} blocks", ("image",), two_namespaces(blocks),
                {"image": MARKED}, 1, errors=f"nvmesim: line 12: {fault}\nstandard input:6:1: {reason}\n")


def make_old(room: Path) -> None:
    """An image of 64 blocks that holds nothing and was changed long ago."""
    with open(room / "image", "wb") as image:
        image.truncate(32768)
    os.utime(room / "image", (0, 0))


def alone(what: str, requests: tuple, answers: tuple, left: bytes = bytes(32768), is_left_alone: bool = True) -> Case:
    """Requests over such an image."""
    output = answered(*answers)
    for status, rule in (("0:80", 9), ("0:02", 5)):
        output = output.replace(f"posted {status} 0", f"posted {status} {rule}")
    return Case(f"an old image after {what}", ("image",), carried(*requests), output=output, left={"image": left},
                before=make_old, is_left_alone=is_left_alone)


def make_pipe(room: Path) -> None:
    """An image of 64 blocks, and a pipe for the script."""
    (room / "image").write_bytes(bytes(32768))
    os.mkfifo(room / "script")


def cut_and_tell(room: Path) -> None:
    """Cuts the image to nothing after its opening and before the script is read: the pipe is opened after it."""
    with open(room / "script", "w", encoding="ascii") as pipe:
        os.truncate(room / "image", 0)
        pipe.write(carried("read 1 1 0 1", "read 1 1 64 1"))


def make_large(blocks: int) -> Callable[[Path], None]:
    """An image of this many blocks, which takes no space."""
    def make(room: Path) -> None:
        with open(room / "image", "wb") as image:
            image.truncate(512 * blocks)
    return make


def large(blocks: int) -> Case:
    """A namespace of any size: its last block is written and read, the block after it is out of range."""
    requests = (f"write 1 1 {blocks - 1} 1 hex:48", f"read 1 1 {blocks - 1} 1", f"read 1 1 {blocks - 1} 2",
                f"read 1 1 {blocks} 1")
    outside = "0:80 00000000"
    output = answered(DONE, f"{DONE} 512 48", outside, outside).replace("posted 0:80 0", "posted 0:80 9")
    return Case(f"a namespace of {blocks} blocks", ("--any-size", "image"),
                carried(*requests).replace("blocks 64", f"blocks {blocks}"), before=make_large(blocks), output=output,
                left={"image": sparse(blocks, {blocks - 1: b"H" + bytes(511)})})


DONE = "0:00 00000000"
CASES = (
    large(65537),
    large(1 << 31),
    large((1 << 32) + 1),
    Case("a large namespace without an option", ("image",), hello_over(65537), before=make_large(65537), status=1,
         left={"image": sparse(65537, {})},
         errors="nvmesim: line 4: BadSize\nstandard input:2:1: namespace 1 has 65537 blocks; at most 65536 are "
                "allowed\n"),
    Case("a namespace that is larger than its image", ("--any-size", "image"), hello_over(65537),
         before=make_large(65536), status=1, left={"image": sparse(65536, {})},
         errors="nvmesim: line 4: DoesNotFit\nstandard input:2:1: namespace 1 ends after the 65536 blocks of the "
                "medium, on which namespaces follow one another\n"),
    Case("an image after an empty script", ("image",), files={"image": KEPT}),
    Case("an image after a script without events", ("image",), SETUP, {"image": KEPT}),
    Case("an image after a script whose last line lacks a word", ("image",), CUT_SHORT, {"image": KEPT}, 1,
         errors="nvmesim: line 10: not understood\nstandard input:10:1: read takes 5 words: read C N SLBA BLOCKS\n"),
    Case("an image after a subsystem without controllers", ("image",), "start\nup 1\n", {"image": MARKED},
         output="nocontroller 1\n"),
    refused(0, "BadSize", "namespace 2 has no blocks"),
    refused(65537, "BadSize", "namespace 2 has 65537 blocks; at most 65536 are allowed"),
    refused(9, *DOES_NOT_FIT),
    Case("ten blocks on 5,000 bytes", ("image",), last_block(10), {"image": TAIL}, 1,
         errors="nvmesim: line 4: DoesNotFit\nstandard input:2:1: namespace 1 ends after the 9 blocks of the medium, "
                "on which namespaces follow one another\n"),
    Case("nine blocks on 5,000 bytes", ("image",), last_block(9), {"image": TAIL},
         output="up 1 ok\nplaced 1 1\nrung 1\nfetch 1 1 took\nexecute 1 0 posted 0:00 0\n",
         left={"image": TAIL[:4096] + b"\x5a" * 512 + TAIL[4608:]}),
    Case("the first script with ten blocks on 5,000 bytes", ("image",), hello_over(10), {"image": TAIL}, 1,
         errors="nvmesim: line 4: DoesNotFit\nstandard input:2:1: namespace 1 ends after the 9 blocks of the medium, "
                "on which namespaces follow one another\n"),
    Case("the first script with nine blocks on 5,000 bytes", ("image",), hello_over(9), {"image": TAIL},
         output=HELLO_SHOWN, left={"image": b"Hello" + bytes(507) + TAIL[512:]}),
    Case("a block that is written in place", ("image",), HELLO, {"image": bytes(32768)}, output=HELLO_SHOWN,
         left={"image": b"Hello" + bytes(32763)}),
    alone("no command", (), ()),
    alone("commands that read", ("read 1 1 0 64", "compare 1 1 0 1 fill:00"), (f"{DONE} 32768 -", DONE)),
    alone("writes that are denied", ("write 1 1 64 1 hex:01", "write 1 2 0 1 hex:01"),
          ("0:80 00000000", "0:02 00000000")),
    alone("a Write of zeros", ("write 1 1 63 1 fill:00",), (DONE,), is_left_alone=False),
    Case("an image that is cut to nothing: Unrecovered Read Error, and ranges are checked against its first length",
         ("image", "script"), before=make_pipe, beside=cut_and_tell, left={"image": b""},
         output=answered("2:81 00000000", "0:80 00000000").replace("posted 0:80 0", "posted 0:80 9")),
)
