"""Scripts whose configuration is refused: the line of `start` with the fault, and the line that is at fault."""
from tests.program.case import Case

NINE_NAMESPACES = "".join(f"namespace {n} blocks 1 shared\n" for n in range(1, 10))
# The lines of a script's beginning, with a comment and an empty line among them.
SEVENTH = "# setup\ncontroller 1 host 0xa1\ncontroller 2 host 0xb2 raw\nnamespace 1 blocks 0 shared\nattached 1 1\n\n"

# Lines before `start`, the number of `start`, its fault, and the place of the line at fault with the reason.
REFUSED = (
    ("controller 2 host 0xa1\n", 2, "BadId",
     "1:1: this must be controller 1, not 2: controllers are numbered from 1"),
    ("controller 1 host 0xa1\n\nnamespace 1 blocks 0 shared\n", 4, "BadSize", "3:1: namespace 1 has no blocks"),
    (SEVENTH, 7, "BadSize", "4:1: namespace 1 has no blocks"),
    ("#\nnamespace 3 blocks 70000 shared\n", 3, "BadSize",
     "2:1: namespace 3 has 70000 blocks; at most 65536 are allowed"),
    (NINE_NAMESPACES, 10, "TooMany", "9:1: this is the ninth namespace; at most 8 are allowed"),
    ("namespace 1 blocks 1025 shared\n#\n", 3, "DoesNotFit", "1:1: namespace 1 ends after the 1024 blocks of the "
     "medium, on which namespaces follow one another; for an image of 65536 blocks: truncate -s 32M disk.img, "
     "then nvmesim disk.img SCRIPT"),
    ("controller 1 host 1\n" * 17, 18, "TooMany", "17:1: this is controller 17; at most 16 are allowed"),
    ("attached 1 1\n" * 129, 130, "TooMany", "129:1: this is attachment 129; at most 128 are allowed"),
    ("controller 1 host 1\n" * 16, 17, "BadId",
     "2:1: this must be controller 2, not 1: controllers are numbered from 1"),
    ("attached 1 1\n" * 128, 129, "BadId", "1:1: controller 1 is not configured"),
)

# Two controllers and two namespaces, and after them lines that break a rule on identifiers.
FOUR_LINES = ("controller 1 host 1\ncontroller 2 host 2\nnamespace 1 blocks 1 shared\n"
              "namespace 2 blocks 1 private\n")
BAD_IDENTIFIERS = (
    ("controller 3 host 0", "5:1: controller 3 has host 0, which is no host identifier"),
    ("namespace 9 blocks 1 shared", "5:1: namespace 9 is out of range: identifiers are 1 to 8"),
    ("namespace 1 blocks 1 shared", "5:1: namespace 1 is defined twice"),
    ("attached 3 1", "5:1: controller 3 is not configured"),
    ("attached 1 3", "5:1: namespace 3 is not configured"),
    ("attached 1 1\nattached 1 1", "6:1: controller 1 is attached to namespace 1 twice"),
    ("attached 1 2\n#\nattached 2 2",
     "7:1: namespace 2 is private, but controller 2 is the second that is attached to it"),
    ("controller 4 host 1", "5:1: this must be controller 3, not 4: controllers are numbered from 1"),
    ("namespace 0 blocks 1 shared", "5:1: namespace 0 is out of range: identifiers are 1 to 8"),
)


def refused(text: str, number: int, fault: str, reason: str) -> Case:
    """A configuration that is refused at its `start`: nothing is printed."""
    return Case(f"{reason}, told at {number}", given=f"{text}start\n", status=1,
                errors=f"nvmesim: line {number}: {fault}\nstandard input:{reason}\n")


def misnamed(text: str, reason: str) -> Case:
    """Lines after those four that are refused for an identifier."""
    return refused(f"{FOUR_LINES}{text}\n", 6 + text.count("\n"), "BadId", reason)


CASES = (*(refused(*it) for it in REFUSED), *(misnamed(*it) for it in BAD_IDENTIFIERS))
