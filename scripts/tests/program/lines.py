"""Scripts with a line outside the grammar: the number of the first, and why it is outside."""
from tests.program.case import Case

# A script whose last line lacks a word.
CUT_SHORT = """controller 1 host 0xa1
namespace 1 blocks 64 shared
attached 1 1
start
up 1
write 1 1 0 1 hex:48656c6c6f
ring 1
fetch 1 1
execute 1 0
poll 1
read 1 1 0"""

# Scripts, the number of the first line outside, and its column with the reason.
SCRIPTS = (
    (CUT_SHORT, 11, "1: read takes 5 words: read C N SLBA BLOCKS"),
    ("start\ndo 1 read 1 0 1\n", 2, "1: there is no line 'do'"),
    ("read 1 1 0 1\nstart\n", 1, "1: read needs a 'start' before it"),
    ("# \xff\0\x0b is a comment\n\xff\0\x0b is not\n", 2,
     "1: the byte \\xff is neither a visible character nor a space, a tab or a carriage return"),
    ("start\n#\nstart\n", 3, "1: a script has only one start"),
    ("controller 1 host 1\nstart\nread 1 1 0\n???", 3, "1: read takes 5 words: read C N SLBA BLOCKS"),
    ("controller 1 host 1\ncontroller +2 host 1\nstart", 2,
     "12: word 2: C, a number below 2^16, not '+2'"),
    ("start\nstart", 2, "1: a script has only one start"),
    ("read 1 1 0 1", 1, "1: read needs a 'start' before it"),
    ("start\nattach 1 1 1 2 3 4 5 6 7 65536", 2, "26: word 11: C, a number below 2^16, not '65536'"),
    ("start\n\nflush 1 1 1 1 1 1 1 1 1", 3, "1: flush takes 3 words: flush C N"),
    ("start\npowercycle\npowercycle 1", 3, "1: powercycle takes 1 word: powercycle"),
    ("powercycle\nstart", 1, "1: powercycle needs a 'start' before it"),
)

# Lines after `start`, and their columns with the reasons.
BEHIND_START = (
    ("wirte 1 1 0 1 fill:00", "1: there is no line 'wirte'; did you mean 'write'?"),
    ("  do 1", "3: there is no line 'do'"),
    ("write 1 1 0 1", "1: write takes 6 words: write C N SLBA BLOCKS DATA"),
    ("attach 1", "1: attach takes 3 words or more: attach C N C1 C2 .."),
    ("read 1 0xg 0 1", "8: word 3: N, a number below 2^32, not '0xg'"),
    ("read 1 4294967296 0 1", "8: word 3: N, a number below 2^32, not '4294967296'"),
    ("register 1 1 0 2 0 0 1", "16: word 5: IEKEY, 0 or 1, not '2'"),
    ("write 1 1 0 1 hex:0", "15: word 6: DATA, fill: and two hexadecimal digits, or hex: and pairs of them that "
     "BLOCKS have room for, not 'hex:0'"),
    ("store 1 0 00", "11: word 4: hex: and pairs of hexadecimal digits, not '00'"),
    ("store 1 0 hex:0aF", "11: word 4: hex: and pairs of hexadecimal digits, not 'hex:0aF'"),
    ("store 1 0 fill:0a", "11: word 4: hex: and pairs of hexadecimal digits, not 'fill:0a'"),
    ("up 1234567890123456789012345678901234567890",
     "4: word 2: C, a number below 2^16, not '12345678901234567890123456789012..'"),
    ("up\x0b1",
     "3: the byte \\x0b is neither a visible character nor a space, a tab or a carriage return"),
    ("attach 1 1 1 2 3 4 5\x01",
     "21: the byte \\x01 is neither a visible character nor a space, a tab or a carriage return"),
    ("attached 1 1", "1: attached must come before 'start'"),
    ("\tstart", "2: a script has only one start"),
    ("READ 1 1 0 1", "1: there is no line 'READ'; did you mean 'read'?"),
    ("read 1 1 ff 1", "10: word 4: SLBA, a number below 2^64, not 'ff'; did you mean '0xff'?"),
    ("read 1 1 0 ffffffff0",
     "12: word 5: BLOCKS, a number below 2^32, not 'ffffffff0'"),
    ("write32 1 20 460001h", "14: word 4: V, a number below 2^32, not '460001h'"),
    ("read 1 1 0 1 # the first block", "1: read takes 5 words: read C N SLBA BLOCKS"),
    ("powercycle 1", "1: powercycle takes 1 word: powercycle"),
    ("powrecycle", "1: there is no line 'powrecycle'; did you mean 'powercycle'?"),
)

# Lines that a script begins with, and their columns with the reasons.
BEFORE_START = (
    ("controller 1 host", "1: controller takes 4 words, or one more: controller C host H [raw]"),
    ("start now", "1: start takes 1 word: start"),
    ("controller 1 hots 1", "14: word 3: the word 'host', not 'hots'"),
    ("namespace 1 block 1 shared", "13: word 3: the word 'blocks', not 'block'"),
    ("namespace 1 blocks 1 mine", "22: word 5: 'shared' or 'private', not 'mine'"),
    ("controller 1 host 1 rare", "21: word 5: 'raw' or nothing, not 'rare'"),
    ("up 1", "1: up needs a 'start' before it"),
    ("controller 1 host a1", "19: word 4: H, a number below 2^128, not 'a1'; did you mean '0xa1'?"),
    ("attach 1 1", "1: attach needs a 'start' before it; did you mean 'attached'?"),
    ("Attached 1 1", "1: there is no line 'Attached'; did you mean 'attached'?"),
    ("powercycle", "1: powercycle needs a 'start' before it"),
)


def outside(script: str, number: int, reason: str) -> Case:
    """A script whose line of this number is the first outside the grammar: nothing is printed."""
    return Case(f"{script.splitlines()[number - 1]!r} in line {number}", given=script, status=1,
                errors=f"nvmesim: line {number}: not understood\nstandard input:{number}:{reason}\n")


CASES = (
    *(outside(*it) for it in SCRIPTS),
    *(outside(f"start\n{line}\n", 2, reason) for line, reason in BEHIND_START),
    *(outside(f"{line}\n", 1, reason) for line, reason in BEFORE_START),
)
