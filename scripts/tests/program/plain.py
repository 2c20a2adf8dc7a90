"""Scripts that are executed, on standard input and over zeros in memory."""
from tests.program.case import HELLO, HELLO_SHOWN, SETUP, Case

CASES = (
    Case("a Write of a block, and a Read of it", given=HELLO, output=HELLO_SHOWN),
    Case("a script without events", given=SETUP),
    Case("an empty script"),
    Case("a subsystem without controllers, and a last line without a line feed",
         given="start\npoll 9\nstore 1 0 hex:00", output="nocontroller 9\nnocontroller 1\n"),
    Case("a script of the greatest length", given="#" * 4194304),
    Case("a script of a byte more", given="#" * 4194305, status=1,
         errors="nvmesim: script too long\nnvmesim: standard input has more than 4194304 bytes; an image is the first "
                "word: nvmesim [--any-size] [IMAGE [SCRIPT]]\n"),
)
