"""Makes random configurations: valid ones, most of which are then changed in some places."""
from random import Random
from typing import Callable, List

# Numbers at the limits of their places, and what is no number.
NUMBERS = (b"0", b"1", b"2", b"3", b"8", b"9", b"16", b"17", b"128", b"255", b"256", b"1024", b"1025", b"65535", b"65536",
           b"65537", b"70000", b"0x10000", b"0x10001", b"4294967295", b"4294967296", b"18446744073709551615",
           b"18446744073709551616", b"0xffffffffffffffff", b"0x10000000000000000",
           b"340282366920938463463374607431768211455", b"340282366920938463463374607431768211456",
           b"0xffffffffffffffffffffffffffffffff", b"0x100000000000000000000000000000000", b"0x", b"0X1", b"0xg", b"+1",
           b"-1", b"1_0", b"1.", b"a1", b"ff", b"0b1", b"1e3", b"\xef\xbc\x91", b"00000000000000000000000000000000001",
           b"0x0000000000000000000000000000000000000001", b"9" * 60, b"0" * 300,
           b"00000000-0000-0000-0000-0000000000a1")
# Bytes that separate words somewhere, and nowhere in a script except for the first three.
BLANKS = (b" ", b"\t", b"\r", b"\x0b", b"\x0c", b"\xa0", b"\xc2\xa0", b"\xe2\x80\x83", b"\x00", b"\x1c", b"\x85", b"\x7f",
          b"\xe3\x80\x80", b"  \t ")
COMMENTS = (b"#", b"# words", b"#\xff\xfe\x80 no UTF-8", b"# \xc3", b"#start", b"#\x00\x0b", b" # late", b"\t#")
EVENTS = (b"up 1", b"ring 1", b"poll 1", b"fetch 1 1", b"write 1 1 0 1 hex:00", b"powercycle", b"attach 1 1", b"\tup 2",
          b"store 1 0 hex:0a", b"read 1 1 0 1", b"write32 1 0x14 0")
OTHERS = (b"start", b"start now", b"Start", b"starts", b" start\t", b"namespace", b"controller 1", b"?help", b"?attached",
          b"wirte 1", b"exit", b"raw", b"shared 1", b"\xef\xbb\xbf", b"=", b"controller 1 host 1 raw raw", b"up", b"up x")
KEYWORDS = (b"controller", b"namespace", b"attached", b"host", b"blocks", b"shared", b"private", b"raw")


def number(random: Random, value: int) -> bytes:
    """A number in one of its forms."""
    form = random.choice(("{}", "{}", "{}", "{:#x}", "0x{:X}", "0{}", "000{}", "0x00{:x}"))
    return form.format(value).encode()


def valid(random: Random) -> List[bytes]:
    """The lines of a valid configuration, without `start`."""
    # Few, since each has a window of 4 MiB, which takes most of the time of a program.
    controllers = random.choices((1, 2, 3, 4, 16), (45, 40, 9, 5, 1))[0]
    nsids = random.sample(range(1, 9), random.choice((0, 1, 1, 2, 2, 3, 8)))
    lines = [b"controller %s host %s%s" % (number(random, k), number(random, random.choice((0xa1, 0xb2, 7, 2**127))),
                                          random.choice((b"", b"", b" raw"))) for k in range(1, controllers + 1)]
    attached = []
    for nsid in nsids:
        kind = random.choice((b"shared", b"shared", b"private"))
        blocks = random.choice((1, 8, 64, 1024, 65_536))
        lines.append(b"namespace %s blocks %s %s" % (number(random, nsid), number(random, blocks), kind))
        most = 1 if kind == b"private" else controllers
        hosts = random.sample(range(1, controllers + 1), min(most, random.randint(0, 3)))
        attached += [b"attached %s %s" % (number(random, it), number(random, nsid)) for it in hosts]
    random.shuffle(attached)
    return lines + attached


def word_changed(random: Random, line: bytes, change: Callable[[List[bytes], int], None]) -> bytes:
    """A line one of whose words is changed."""
    words = line.split(b" ")
    change(words, random.randrange(len(words)))
    return b" ".join(words)


def changed_line(random: Random, line: bytes) -> bytes:
    """A line with one change."""
    def put(word: bytes) -> Callable[[List[bytes], int], None]:
        return lambda words, at: words.__setitem__(at, word)

    how = random.randrange(12)
    if how < 4:
        return word_changed(random, line, put(random.choice(NUMBERS)))
    if how == 4:
        return word_changed(random, line, put(random.choice(KEYWORDS)))
    if how == 5:
        return word_changed(random, line, lambda words, at: words.insert(at, words[at]))
    if how == 6:
        return word_changed(random, line, lambda words, at: words.__delitem__(at))
    if how == 7:
        return line.replace(b" ", random.choice(BLANKS), random.randint(1, 4))
    if how == 8:
        return random.choice(BLANKS) + line if random.random() < 0.5 else line + random.choice(BLANKS)
    if how == 9:
        return line + random.choice(COMMENTS)
    if how == 10:
        return word_changed(random, line, lambda words, at: words.__setitem__(at, words[at].swapcase()))
    at = random.randrange(len(line) + 1)
    return line[:at] + bytes([random.randrange(256)]) * random.randint(0, 1) + line[at + random.randint(0, 1):]


def changed(random: Random, lines: List[bytes]) -> List[bytes]:
    """Lines with one change."""
    how = random.randrange(16)
    at = random.randrange(len(lines))
    if how < 8:
        return [*lines[:at], changed_line(random, lines[at]), *lines[at + 1:]]
    if how == 8:
        return [*lines[:at], *lines[at + 1:]] or [b""]
    if how == 9:
        return [*lines, lines[at]]
    if how == 10:
        other = random.randrange(len(lines))
        return [lines[other] if k == at else lines[at] if k == other else it for k, it in enumerate(lines)]
    if how == 11:
        more = random.choice((b"attached 1 1", b"attached 1 2", b"attached 2 1", b"controller 1 host 1",
                              b"namespace 1 blocks 8 private", b"controller 2 host 0", b"namespace 9 blocks 1 shared"))
        return [*lines, more]
    if how == 12:
        many = random.choice((b"controller %d host 5", b"namespace %d blocks 1 shared", b"attached 1 %d"))
        return [*lines, *(many % it for it in range(1, random.choice((9, 17, 18, 130))))]
    return [*lines[:at], random.choice((*COMMENTS, *OTHERS, *EVENTS)), *lines[at:]]


def text_of(random: Random, lines: List[bytes]) -> bytes:
    """The text of lines."""
    end = random.choice((b"\n", b"\n", b"\n", b"\r\n", b" \n", b"\n\n"))
    return end.join(lines) + random.choice((end, b""))


def configuration(seed: int, number_of_case: int) -> bytes:
    """The configuration with this number. It does not begin with a byte 00h, as images do."""
    random = Random(f"{seed}:{number_of_case}")
    lines = valid(random)
    if random.random() < 0.6:
        lines += [b"start"]
        lines += random.choices((*COMMENTS[:6], b"", b"\t", *EVENTS, *OTHERS), k=random.choice((0, 0, 0, 0, 1, 2)))
    for _ in range(random.choice((0, 1, 1, 1, 1, 1, 2, 2, 3))):
        lines = changed(random, lines)
    return text_of(random, lines).lstrip(b"\0")
