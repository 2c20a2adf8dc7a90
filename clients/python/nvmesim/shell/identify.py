"""The fields of Identify, by the names of the NVM Express specifications: those that are not 0."""
from __future__ import annotations

from typing import Callable, Iterator, List, NamedTuple

SIZE = 4096
"""The bytes of an Identify data structure."""


class _Field(NamedTuple):
    offset: int
    size: int
    name: str
    words: Callable[[bytes], str]


def _number(data: bytes) -> str:
    value = int.from_bytes(data, "little")
    return f"{value:x}h" if value > 9 else str(value)


def _count(data: bytes) -> str:
    return f"{int.from_bytes(data, 'little'):,}"


def _text(data: bytes) -> str:
    return repr(data.rstrip(b" \0").decode("ascii", "replace"))


def _bits(*names: str) -> Callable[[bytes], str]:
    """Decodes which bits are set. `names` has a name for each bit from 0 on, empty for a bit without a name."""
    def words(data: bytes) -> str:
        value = int.from_bytes(data, "little")
        told = [names[n] if n < len(names) and names[n] else f"bit {n}"
                for n in range(8 * len(data)) if value >> n & 1]
        return f"{value:x}h: {'; '.join(told)}"
    return words


def _version(data: bytes) -> str:
    return f"{data[2] + 256 * data[3]}.{data[1]}"


def _data_size(data: bytes) -> str:
    return f"{data[0]}: at most {4096 << data[0]:,} bytes a command"


def _entries(data: bytes) -> str:
    return f"at least {1 << (data[0] & 15)} bytes, at most {1 << (data[0] >> 4)}"


def _format(data: bytes) -> str:
    return f"blocks of {1 << data[2]} bytes, {int.from_bytes(data[:2], 'little')} bytes of metadata"


CONTROLLER: List[_Field] = [
    _Field(0, 2, "VID", _number), _Field(2, 2, "SSVID", _number),
    _Field(4, 20, "SN", _text), _Field(24, 40, "MN", _text), _Field(64, 8, "FR", _text),
    _Field(72, 1, "RAB", _number), _Field(73, 3, "IEEE", _number),
    _Field(76, 1, "CMIC", _bits("several ports", "several controllers", "SR-IOV", "asymmetric access")),
    _Field(77, 1, "MDTS", _data_size), _Field(78, 2, "CNTLID", _count), _Field(80, 4, "VER", _version),
    _Field(84, 4, "RTD3R", _number), _Field(88, 4, "RTD3E", _number), _Field(92, 4, "OAES", _number),
    _Field(96, 4, "CTRATT", _bits("host identifiers of 128 bits")), _Field(100, 2, "RRLS", _number),
    _Field(111, 1, "CNTRLTYPE", lambda it: {1: "1: I/O controller"}.get(it[0], _number(it))),
    _Field(112, 16, "FGUID", _number), _Field(256, 2, "OACS", _bits(
        "Security", "Format", "firmware", "Namespace Management and Attachment", "self-test", "directives")),
    _Field(258, 1, "ACL", _number), _Field(259, 1, "AERL", _number), _Field(260, 1, "FRMW", _number),
    _Field(261, 1, "LPA", _number), _Field(262, 1, "ELPE", _number), _Field(263, 1, "NPSS", _number),
    _Field(264, 1, "AVSCC", _number), _Field(266, 2, "WCTEMP", _number), _Field(268, 2, "CCTEMP", _number),
    _Field(280, 16, "TNVMCAP", _count), _Field(320, 2, "KAS", _number), _Field(344, 4, "ANAGRPMAX", _number),
    _Field(512, 1, "SQES", _entries), _Field(513, 1, "CQES", _entries), _Field(514, 2, "MAXCMD", _count),
    _Field(516, 4, "NN", _count), _Field(520, 2, "ONCS", _bits(
        "Compare", "Write Uncorrectable", "Dataset Management", "Write Zeroes", "save and select of features",
        "reservations", "Timestamp", "Verify", "Copy")),
    _Field(522, 2, "FUSES", _number), _Field(524, 1, "FNA", _number),
    _Field(525, 1, "VWC", lambda it: f"{it[0]:x}h: {'a' if it[0] & 1 else 'no'} volatile write cache"),
    _Field(526, 2, "AWUN", _count), _Field(528, 2, "AWUPF", _count),
    _Field(531, 1, "NWPC", _bits("write protection", "until a power cycle", "permanent")),
    _Field(536, 4, "SGLS", _number), _Field(768, 256, "SUBNQN", _text),
]
NAMESPACE: List[_Field] = [
    _Field(0, 8, "NSZE", _count), _Field(8, 8, "NCAP", _count), _Field(16, 8, "NUSE", _count),
    _Field(24, 1, "NSFEAT", _number), _Field(25, 1, "NLBAF", _number), _Field(26, 1, "FLBAS", _number),
    _Field(27, 1, "MC", _number), _Field(28, 1, "DPC", _number), _Field(29, 1, "DPS", _number),
    _Field(30, 1, "NMIC", _bits("shared")), _Field(31, 1, "RESCAP", _bits(
        "persist through power loss", "Write Exclusive", "Exclusive Access", "Write Exclusive, Registrants Only",
        "Exclusive Access, Registrants Only", "Write Exclusive, All Registrants", "Exclusive Access, All Registrants",
        "IEKEY of revision 1.3")),
    _Field(32, 1, "FPI", _number), _Field(33, 1, "DLFEAT", _number), _Field(99, 1, "NSATTR", _bits("write protected")),
    _Field(104, 16, "NGUID", _number), _Field(120, 8, "EUI64", _number), _Field(128, 4, "LBAF0", _format),
]


def identify_lines(cns: int, data: bytes) -> Iterator[str]:
    """What an Identify of CNS 0, 1 or 2 reports: a line for each field that is not 0."""
    if cns == 2:
        listed = [int.from_bytes(data[n:n + 4], "little") for n in range(0, len(data), 4)]
        numbers = [str(it) for it in listed if it]
        yield f"namespaces {', '.join(numbers)}" if numbers else "no namespaces"
        return
    if not any(data):
        yield "all bytes are 0: the namespace is not attached to the controller"
        return
    rest, zeros = bytearray(data), []
    for field in NAMESPACE if cns == 0 else CONTROLLER:
        piece = data[field.offset:field.offset + field.size]
        rest[field.offset:field.offset + field.size] = bytes(field.size)
        if any(piece):
            yield f"{field.name:<10}{field.words(piece)}"
        else:
            zeros.append(field.name)
    for at in (n for n, it in enumerate(rest) if it):
        yield f"byte {at:<5}{rest[at]:x}h"
    if zeros:
        yield f"0:        {', '.join(zeros)}"
