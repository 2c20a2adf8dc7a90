"""Compares the headers for C with their crates: exports, their parameters, structs and numbers."""
import re
from dataclasses import dataclass
from typing import Sequence

from support.library.building import CRATES, HEADERS

EXPORT = re.compile(r'#\[unsafe\(no_mangle\)\]\s*pub extern "C" fn (\w+)\(([^)]*)\)(?: -> (\w+))?')
NUMBER = r"^pub const (\w+): u(?:32|8) = (\d+);"
# A reference: whether it may be written to, the type of the items of a slice or array, the array's size, another type.
STRUCT = re.compile(r"pub struct (\w+) \{(.*?)\n\}", re.S)
REFERENCE = re.compile(r"&(mut )?(?:\[(\w+)(; \d+)?\]|(\w+))")
ARRAY = re.compile(r"\[(\w+); (\d+)\]")
PLAIN = {"u8": "uint8_t", "u16": "uint16_t", "u32": "uint32_t", "u64": "uint64_t", "usize": "size_t", "bool": "bool",
         "()": "void"}
# Structs whose name in C does not follow from their own: what is after the prefix.
NAMED = {"Handle": "", "FabricsHandle": "_fabrics", "TransfersHandle": "_transfers", "LentBytes": "_bytes",
         "Registrant": "_registered", "Agreed": "_pdu_agreed", "LayoutSeen": "_pdu_layout",
         "DestinationSeen": "_destination"}
# Those that C only passes on, so that their fields are not compared.
PASSED_ON = ("Handle", "FabricsHandle", "TransfersHandle", "LentBytes")
# Fields whose names in C are keywords of Rattle.
FIELDS = {"event_type": "type"}


def without_comments(text):
    return re.sub(r"/\*.*?\*/", " ", text, flags=re.S)


@dataclass(frozen=True)
class Interface:
    """What C sees of some crates: the beginning of its names, the crates, their headers, sources of other crates with
    structs that C holds, the word before the name of a struct, and the numbers that are not compared."""
    prefix: str
    crates: Sequence[str]
    headers: Sequence[str]
    others: Sequence[str] = ()
    word: str = ""
    unchecked: str = ""

    def files(self, top):
        """The sources of the crates, and those of others with the structs."""
        found = [it for name in self.crates for it in sorted((top / "crates" / name / "src").glob("*.rt"))]
        return [*found, *(top / "crates" / it for it in self.others)]

    def text_of(self, folder):
        """The text of the headers in a folder."""
        return "\n".join((folder / it).read_text(encoding="utf-8") for it in self.headers)

    def struct(self, name):
        """The name that a struct of the crates has in C: without `Raw`, in small letters."""
        plain = re.sub(r"(?<=.)([A-Z])", r"_\1", name.removeprefix("Raw")).lower()
        return self.prefix + NAMED.get(name, f"_{plain}")

    def value(self, kind):
        """What C declares for a type that is passed by value, or is that of a field."""
        array = ARRAY.fullmatch(kind)
        if array:
            return f"{self.value(array[1])}[{array[2]}]"
        return PLAIN.get(kind) or self.word + self.struct(kind)

    def parameter(self, kind):
        """What C declares for a parameter: a slice is a pointer and a length, and an allocator is nothing."""
        found = REFERENCE.fullmatch(kind)
        if not found:
            return [] if kind == "Global" else [self.value(kind)]
        pointer = f"{'' if found[1] else 'const '}{self.value(found[2] or found[4])} *"
        return [pointer, "size_t"] if found[2] and not found[3] else [pointer]

    def exports(self, text):
        """The exports of the crates by their names, as C declares them: the types of the result and the parameters."""
        found = {}
        for name, parameters, result in EXPORT.findall(text):
            kinds = [it.split(":", 1)[1].strip() for it in parameters.split(",") if it.strip()]
            given = [it for kind in kinds for it in self.parameter(kind)]
            found[name] = (self.value(result or "()"), given or ["void"])
        return found

    def declarations(self, header):
        """The functions that the headers declare, in the same form."""
        declared = re.compile(rf"^((?:struct )?\w+) ({self.prefix}_\w+)\(([^)]*)\);", re.M)
        found = {}
        for result, name, parameters in declared.findall(re.sub(r" (\w+)\[\d+\]", r" *\1", without_comments(header))):
            kinds = [re.sub(r"\s*\w+$", "", " ".join(it.split())) or it.strip() for it in parameters.split(",")]
            found[name] = (result, [re.sub(r"\s*\*$", " *", it) for it in kinds])
        return found

    def fields(self, text):
        """The fields of each struct of the crates, in order, and their types in C, by the struct's name there."""
        found = {}
        for name, body in STRUCT.findall(text):
            # C has no field for what only proofs read.
            fields = [(FIELDS.get(it, it), self.value(kind)) for it, kind in
                      re.findall(r"^\s*pub (\w+): (.+),$", body, re.M) if kind != "DiskContent"]
            found.setdefault(self.struct(name), fields)
        return found

    def header_fields(self, header):
        """The fields of each struct of the headers, in the same form."""
        end = "" if self.word else r" \1"
        form = rf"^{'' if self.word else 'typedef '}struct ({self.prefix}\w*) \{{(.*?)\}}{end};"
        return {name: [(field.strip(), kind + size)
                       for kind, fields, size in re.findall(r"(\w+) ([\w, ]+)((?:\[\d+\])?);", body)
                       for field in fields.split(",")]
                for name, body in re.findall(form, without_comments(header), re.S | re.M)}

    def numbers(self, pattern, text):
        """The numbers of the crates or the headers that are compared."""
        return {name: int(number) for name, number in re.findall(pattern, text, re.M)
                if not re.fullmatch(self.unchecked, name)}

    def differences(self, top, header):
        """The differences between the headers and the crates, line by line."""
        text = "\n".join(it.read_text(encoding="utf-8") for it in self.files(top))
        own = rf"^(?:\s*|#define ){self.prefix.upper()}_(\w+)(?: =)? (\d+)"
        exports, fields, c = self.exports(text), self.fields(text), self.header_fields(header)
        seen = {it: fields.get(it) for it in c if it not in map(self.struct, PASSED_ON)}
        named = set(re.findall(rf"{self.prefix}\w*", str([*exports.values(), *seen.values()])))
        pairs = [("exports", exports, self.declarations(header)), ("structs", named, set(c)),
                 ("numbers", self.numbers(NUMBER, text), self.numbers(own, without_comments(header)))]
        for what, of_crates, of_c in [*pairs, *((it, seen[it], c[it]) for it in seen)]:
            if not of_crates:
                yield f"{what}: the crates have none"
            elif of_crates != of_c:
                yield f"{what}: the crates have {of_crates}, the headers {of_c}"


LIBRARY = Interface("nvmesim", CRATES, HEADERS, (
    "nvme_brought/src/disk.rt", "nvme_notices/src/notice.rt", "nvme_notices/src/raw.rt", "nvme_pdu/src/agreed.rt",
    "nvme_connection/src/raw.rt", "nvme_responses/src/responses.rt", "nvme_transfers/src/part.rt",
    "nvme_capsules/src/capsule.rt"))
# The kinds of events tests/reservations.c compares; lengths are in C alone.
HOST = Interface("nvmehost", ("nvme_host",), ("nvmehost.h",), word="struct ",
                 unchecked=r"EVENT_\w+|ACTIONS|WINDOW|BUFFER")
