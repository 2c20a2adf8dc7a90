"""Which lines of the target the simulator's seeds have reached: of a build with `-C instrument-coverage`.

It reads what rustc (with LLVM 19 to 22) puts into the program, a map from counters to places in the sources, and the
file of counters that runs leave. So it needs no tools of LLVM, which have to be of the compiler's version.
"""
import hashlib
import re
import struct
import zlib
from collections import defaultdict
from itertools import zip_longest
from pathlib import Path
from typing import NamedTuple

HERE = Path(__file__).resolve().parent
SOURCES = HERE.parent / "src"
# The versions that are known: of the map, as they are stored, one less than their names; and of the counters.
MAPS, COUNTERS = (5, 6), (10,)
# The sizes of the header of the counters' file, and of a function's record there.
HEADER, RECORD = 128, 64
CODE, SKIPPED, BRANCH = 0, 2, 4


class NotRead(Exception):
    """A form that is not known."""


class Reader:
    """Numbers of seven bits a byte, one after the other."""

    def __init__(self, data):
        self.data, self.at = data, 0

    def number(self):
        value = shift = 0
        while True:
            byte = self.data[self.at]
            self.at += 1
            value |= (byte & 0x7F) << shift
            shift += 7
            if byte < 0x80:
                return value

    def bytes(self, count):
        self.at += count
        return self.data[self.at - count:self.at]


def sections(program):
    """The sections of an ELF file by their names."""
    start, = struct.unpack_from("<Q", program, 0x28)
    size, count, names = struct.unpack_from("<HHH", program, 0x3A)
    heads = [struct.unpack_from("<IIQQQQ", program, start + at * size) for at in range(count)]
    text = program[heads[names][4]:heads[names][4] + heads[names][5]]
    return {text[it[0]:text.index(b"\0", it[0])].decode(): program[it[4]:it[4] + it[5]] for it in heads}


def file_lists(section):
    """Lists of files by the digests that functions name them by."""
    lists, at = {}, 0
    while at + 16 <= len(section):
        _, size, _, version = struct.unpack_from("<IIII", section, at)
        if version not in MAPS:
            raise NotRead(f"coverage: the map has version {version + 1}; known are {[it + 1 for it in MAPS]}")
        blob = section[at + 16:at + 16 + size]
        reader = Reader(blob)
        count, length, packed = reader.number(), reader.number(), reader.number()
        inner = Reader(zlib.decompress(reader.bytes(packed)) if packed else reader.bytes(length))
        names = [inner.bytes(inner.number()).decode() for _ in range(count)]
        lists[hashlib.md5(blob).digest()[:8]] = [names[0], *(str(Path(names[0], it)) for it in names[1:])]
        at += 16 + size
        at += -at % 8
    return lists


def region_of(reader, line):
    """A region: its counter, whether it is code, and its place."""
    counter, is_code = reader.number(), True
    if counter & 3 == 0 and counter != 0:
        kind, is_code = counter >> 3, False
        if counter & 4 == 0 and kind == BRANCH:
            reader.number()
            reader.number()
        elif counter & 4 == 0 and kind != SKIPPED:
            raise NotRead(f"coverage: a region of kind {kind}")
    begin = line + reader.number()
    column, lines, end = reader.number(), reader.number(), reader.number()
    is_code = is_code and end < 1 << 31
    return counter, is_code, (begin, column, begin + lines, end & ~(1 << 31))


def functions(section, lists):
    """For each function: its name's digest, and per file its regions, and how to compute their counts."""
    at = 0
    while at + 28 <= len(section):
        name, size, digest, files = struct.unpack_from("<QIQ8s", section, at)
        reader = Reader(section[at + 28:at + 28 + size])
        at += 28 + size
        at += -at % 8
        if not size:
            continue
        places = [lists[files][reader.number()] for _ in range(reader.number())]
        expressions = [(reader.number(), reader.number()) for _ in range(reader.number())]
        found = []
        for place in places:
            line = 0
            for _ in range(reader.number()):
                counter, is_code, where = region_of(reader, line)
                line = where[0]
                if is_code:
                    found.append((place, counter, where))
        yield (name, digest), expressions, found


def counters(path):
    """The counters of each function."""
    data = path.read_bytes()
    head = struct.unpack_from("<16Q", data)
    if head[0] != 0xFF6C70726F667281 or head[1] & 0xFFFFFFFF not in COUNTERS:
        raise NotRead(f"coverage: the counters have version {head[1] & 0xFFFFFFFF}; known are {COUNTERS}")
    binary, count, before, numbers, delta = head[2], head[3], head[4], head[5], head[10]
    first = HEADER + binary
    base = first + count * RECORD + before
    found = {}
    for at in range(count):
        name, digest, place = struct.unpack_from("<QQQ", data, first + at * RECORD)
        length, = struct.unpack_from("<I", data, first + at * RECORD + 48)
        offset = (place - (delta - at * RECORD)) % (1 << 64)
        if offset + 8 * length > 8 * numbers:
            raise NotRead("coverage: a function's counters are outside the file")
        values = struct.unpack_from(f"<{length}Q", data, base + offset)
        # A function that is inlined has a record in each unit that the compiler has made of the sources.
        found[name, digest] = [sum(it) for it in zip_longest(found.get((name, digest), ()), values, fillvalue=0)]
    return found


def count_of(counter, expressions, values):
    """The value of a counter, which may be a sum or difference of others."""
    kind, at = counter & 3, counter >> 2
    if kind == 0:
        return 0
    if kind == 1:
        return values[at] if at < len(values) else 0
    left, right = (count_of(it, expressions, values) for it in expressions[at])
    return left - right if kind == 2 else left + right


def regions(program, profile):
    """Per file of the target the counts of its regions, and of its functions by their first line."""
    parts = sections(program.read_bytes())
    lists, known = file_lists(parts["__llvm_covmap"]), counters(profile)
    found, begun = defaultdict(lambda: defaultdict(int)), defaultdict(lambda: defaultdict(int))
    for key, expressions, places in functions(parts["__llvm_covfun"], lists):
        values = known.get(key, ())
        for at, (place, counter, where) in enumerate(places):
            count = count_of(counter, expressions, values)
            found[place][where] = max(found[place][where], count)
            if at == 0:
                begun[place][where[0]] = max(begun[place][where[0]], count)
    return found, begun


def line_counts(places, text):
    """For each line with code how often it was reached, as LLVM counts: the most of the regions that begin there, and
    of the innermost one in which it begins."""
    around, begin = {}, {}
    for (first, _, last, _), count in sorted(places.items(), key=lambda it: (it[0][:2], -it[0][2], -it[0][3])):
        begin[first] = max(begin.get(first, 0), count)
        around.update((line, count) for line in range(first + 1, last + 1))
    lines = {number for number, line in enumerate(text, 1) if re.search(r"\w", line.split("//")[0])}
    return {line: max(around.get(line, 0), begin.get(line, 0)) for line in lines & (around.keys() | begin.keys())}


def name_at(text, line):
    """The function that a line is of, closures included."""
    heads = (re.search(r"\bfn (\w+)", it) for it in reversed(text[:line]))
    return next((it[1] for it in heads if it), "")


class Entry(NamedTuple):
    """A line of unreached.txt. Of a file or a function, what is not reached is left out; and the lines with a text."""
    file: str
    function: str
    text: str

    def __str__(self):
        return " ".join(it for it in (self.file, self.function, self.text and f"`{self.text}`") if it)

    def lines(self, text):
        """Which of the lines of its file it is about."""
        return {line for line, it in enumerate(text, 1) if (not self.function or name_at(text, line) == self.function)
                and (not self.text or it.strip() == self.text)}


def excluded():
    """What a simulation does not reach: the lines of unreached.txt."""
    form = re.compile(r"(\S+?)(?: (\w+))?(?: `(.+)`)?: \S.*")
    found = [form.fullmatch(it) or it for it in (HERE / "unreached.txt").read_text(encoding="utf-8").splitlines()
             if it[:1] != "#"]
    for it in found:
        if isinstance(it, str):
            raise NotRead(f"unreached.txt: not understood: {it}")
    return [Entry(it[1], it[2] or "", it[3] or "") for it in found]


def faults(entries, path, counts):
    """What is wrong with entries of a file, of whose lines these counts are known."""
    text = path.read_text(encoding="utf-8").splitlines()
    for entry in entries:
        lines = entry.lines(text) & counts.keys()
        reached = {line for line in lines if counts[line]}
        if not lines:
            yield f"unreached.txt: {entry}: there is no such line of code"
        elif reached == lines or entry.text and reached:
            yield f"unreached.txt: {entry}: it was reached, in lines {ranges(reached)}"


def ranges(lines):
    """Numbers in words, neighbours together."""
    found = []
    for it in sorted(lines):
        if found and it == found[-1][1] + 1:
            found[-1][1] = it
        else:
            found.append([it, it])
    return ", ".join(str(first) if first == last else f"{first}-{last}" for first, last in found)


def of_file(path, counts, begun, entries):
    """Lines reached, all lines that count, lines left out, and what to print of a file."""
    text = path.read_text(encoding="utf-8").splitlines()
    names = {line: name_at(text, line) for line in counts}
    left_out = set().union(*(it.lines(text) for it in entries))
    left_out = {it for it, count in counts.items() if it in left_out and not count}
    counted = {it: count for it, count in counts.items() if it not in left_out}
    missing = [it for it, count in counted.items() if count == 0]
    whole = {names.get(line) or name_at(text, line) for line, count in begun.items() if count == 0 and line in missing}
    whole -= {names[line] for line, count in counted.items() if count}
    told = [f"  function {it}" for it in sorted(whole)]
    rest = [it for it in missing if names[it] not in whole]
    if rest:
        told.append(f"  lines {ranges(rest)}")
    return len(counted) - len(missing), len(counted), len(left_out), told


def report(program, profile):
    """The text of the report, and what is wrong with unreached.txt."""
    found, begun = regions(program, profile)
    entries, rows, sums, wrong = excluded(), [], [0, 0, 0], []
    for path in sorted(Path(it) for it in found if Path(it).is_relative_to(SOURCES)):
        name = str(path.relative_to(SOURCES))
        own = [it for it in entries if it.file == name]
        counts = line_counts(found[str(path)], path.read_text(encoding="utf-8").splitlines())
        reached, count, left_out, told = of_file(path, counts, begun[str(path)], own)
        wrong += faults(own, path, counts)
        sums = [one + other for one, other in zip(sums, (reached, count, left_out))]
        rows += [f"{name}: {reached} of {count}" + (f", {left_out} left out" if left_out else ""), *told]
    reached, count, left_out = sums
    percent, of_all = (100 * reached / max(1, it) for it in (count, count + left_out))
    head = (f"{reached} of {count} lines, {percent:.1f} percent; with {left_out} that unreached.txt leaves out "
            f"{of_all:.1f} percent of all")
    return "\n".join([head, *rows]) + "\n", wrong
