"""The queries of nvmelive, and how to parse their answers and other data."""
from nvmelab.faults import Ended


def refused(answer: str) -> Ended:
    return Ended(f"the program's answer is not understood: {answer[:100]}")


def window_line(cntlid: int, address: int, length: int) -> str:
    return f"?window {cntlid} {address} {length}"


def data_bytes(word: str, length: int) -> bytes:
    """Parses bytes of an answer: hexadecimal without trailing zeros, or `-` for none."""
    try:
        found = bytes.fromhex("" if word == "-" else word)
    except ValueError as fault:
        raise refused(word) from fault
    if len(found) > length:
        raise refused(word)
    return found + bytes(length - len(found))


def window_bytes(answer: str, length: int) -> bytes:
    """The bytes of a window, the last word of the answer."""
    words = answer.split()
    if not words or answer.startswith("!"):
        raise refused(answer)
    return data_bytes(words[-1], length)


def register_line(cntlid: int, offset: int) -> str:
    return f"?register {cntlid} {offset}"


def register_value(answer: str) -> int:
    """The value of a register, the last word of the answer."""
    words = answer.split()
    if not words or answer.startswith("!"):
        raise refused(answer)
    try:
        return int(words[-1], 0)
    except ValueError as fault:
        raise refused(answer) from fault
