"""Makes the lines of scripts: one function a line, with the words of docs/USING.md in their order.

All numbers are whole and not negative. Blocks have 512 bytes. What a line can't express is an `ArgumentError`: a number
of too many bits, data of no bytes, a text for a number. Nothing else is checked here: the driver refuses a request that
no command can express, and the controller a wrong one.
"""
from __future__ import annotations

from typing import Iterable, Union

from .answers import BLOCK_BYTES
from .arguments import flag, some_bytes, whole
from .enums import AcquireAction, Persistence, Protection, RegisterAction, ReleaseAction, ReservationType

Bytes = Union[bytes, bytearray, memoryview]


def _line(verb: str, controller: int, *words: str) -> str:
    return " ".join((verb, _decimal("controller", controller, 16), *words))


def _decimal(name: str, value: int, bits: int) -> str:
    return str(whole(name, value, bits))


def _hexadecimal(name: str, value: int, bits: int) -> str:
    return f"{whole(name, value, bits):#x}"


def _nsid(value: int) -> str:
    return _decimal("namespace", value, 32)


def _blocks(slba: int, blocks: int) -> str:
    return f"{_decimal('slba', slba, 64)} {_decimal('blocks', blocks, 32)}"


def controller(number: int, host: int, raw: bool = False) -> str:
    """Controller `number`, counted from 1, belongs to the host with this identifier, 1 to 2^128 - 1."""
    words = (_decimal("number", number, 16), "host", _hexadecimal("host", host, 128))
    return " ".join(("controller", *words, *(["raw"] if flag("raw", raw) else [])))


def namespace(number: int, blocks: int, shared: bool = True) -> str:
    """Namespace `number`, 1 to 8, has `blocks` blocks."""
    kind = "shared" if flag("shared", shared) else "private"
    return f"namespace {_decimal('number', number, 32)} blocks {_decimal('blocks', blocks, 64)} {kind}"


def attached(controller: int, nsid: int) -> str:
    """The controller is attached to the namespace from the start."""
    return _line("attached", controller, _nsid(nsid))


def up(controller: int) -> str:
    """The driver brings itself and its controller up."""
    return _line("up", controller)


def ring(controller: int) -> str:
    """The driver writes the doorbells for everything that was placed."""
    return _line("ring", controller)


def fetch(controller: int, queue: int) -> str:
    """The controller takes the oldest command of a queue: 0 is the admin queue, 1 a driver's I/O queue."""
    return _line("fetch", controller, _decimal("queue", queue, 16))


def execute(controller: int, place: int = 0) -> str:
    """The controller executes the command at this place, from 0, of those that it has fetched."""
    return _line("execute", controller, _decimal("place", place, 16))


def poll(controller: int) -> str:
    """The driver delivers one answer."""
    return _line("poll", controller)


def reset(controller: int) -> str:
    """The driver resets itself and its controller."""
    return _line("reset", controller)


def power_cycle() -> str:
    """Power is lost in the whole subsystem, and comes back."""
    return "powercycle"


def read(controller: int, nsid: int, slba: int, blocks: int = 1) -> str:
    """Read of 1 to 256 blocks from block `slba` on."""
    return _line("read", controller, _nsid(nsid), _blocks(slba, blocks))


def write(controller: int, nsid: int, slba: int, blocks: int, data: Bytes) -> str:
    """Write of 1 to 256 blocks; zeros fill up what the data leave of them."""
    return _line("write", controller, _nsid(nsid), _blocks(slba, blocks), spelled(data))


def compare(controller: int, nsid: int, slba: int, blocks: int, data: Bytes) -> str:
    """Compare of 1 to 256 blocks with the data, which zeros fill up."""
    return _line("compare", controller, _nsid(nsid), _blocks(slba, blocks), spelled(data))


def zeroes(controller: int, nsid: int, slba: int, blocks: int) -> str:
    """Write Zeroes on 1 to 65,536 blocks."""
    return _line("zeroes", controller, _nsid(nsid), _blocks(slba, blocks))


def flush(controller: int, nsid: int) -> str:
    """Flush."""
    return _line("flush", controller, _nsid(nsid))


def register(controller: int, nsid: int, action: RegisterAction, new_key: int = 0, current_key: int = 0,
             ignore_existing_key: bool = False, persist: Union[Persistence, int] = Persistence.KEEP) -> str:
    """Reservation Register; keys have 64 bits. `persist` is CPTPL, 0 to 3."""
    ignore = str(int(flag("ignore_existing_key", ignore_existing_key)))
    return _line("register", controller, _nsid(nsid), _decimal("action", action, 8), ignore,
                 _decimal("persist", persist, 8), _hexadecimal("current_key", current_key, 64),
                 _hexadecimal("new_key", new_key, 64))


def acquire(controller: int, nsid: int, action: AcquireAction, rtype: ReservationType, current_key: int,
            preempted_key: int = 0) -> str:
    """Reservation Acquire; keys have 64 bits."""
    return _line("acquire", controller, _nsid(nsid), _decimal("action", action, 8), _decimal("rtype", rtype, 8),
                 _hexadecimal("key", current_key, 64), _hexadecimal("preempted_key", preempted_key, 64))


def release(controller: int, nsid: int, action: ReleaseAction, rtype: ReservationType, current_key: int) -> str:
    """Reservation Release; the key has 64 bits."""
    return _line("release", controller, _nsid(nsid), _decimal("action", action, 8), _decimal("rtype", rtype, 8),
                 _hexadecimal("key", current_key, 64))


def report(controller: int, nsid: int, dwords: int) -> str:
    """Reservation Report of 1 to 32,768 double words of 4 bytes, with the extended data structure."""
    return _line("report", controller, _nsid(nsid), _decimal("dwords", dwords, 32))


def identify(controller: int, cns: int, nsid: int = 0) -> str:
    """Identify: CNS 0 the namespace, 1 the controller, 2 the namespaces above `nsid`."""
    return _line("identify", controller, _decimal("cns", cns, 8), _nsid(nsid))


def protect(controller: int, nsid: int, state: Union[Protection, int]) -> str:
    """Set Features: state 1 protects the namespace from being written, 2 until a power cycle, 0 ends state 1."""
    number = int(state) if isinstance(state, bool) else state
    return _line("protect", controller, _nsid(nsid), _decimal("state", number, 8))


def protection(controller: int, nsid: int) -> str:
    """Get Features: the state of the namespace's write protection."""
    return _line("protection", controller, _nsid(nsid))


def attach(controller: int, nsid: int, controllers: Iterable[int]) -> str:
    """Namespace Attachment: these controllers, which rise, are attached to the namespace."""
    return _line("attach", controller, _nsid(nsid), *(_decimal("controllers", it, 16) for it in controllers))


def detach(controller: int, nsid: int, controllers: Iterable[int]) -> str:
    """Namespace Attachment: these controllers, which rise, are detached from the namespace."""
    return _line("detach", controller, _nsid(nsid), *(_decimal("controllers", it, 16) for it in controllers))


def store(controller: int, address: int, data: Bytes) -> str:
    """A raw host stores bytes from this address of its window on."""
    return _line("store", controller, _hexadecimal("address", address, 64), f"hex:{some_bytes('data', data).hex()}")


def write32(controller: int, offset: int, value: int) -> str:
    """A raw host writes 32 bits to the register at this offset."""
    return _line("write32", controller, _hexadecimal("offset", offset, 64), _hexadecimal("value", value, 32))


def spelled(data: Bytes) -> str:
    """DATA as a line has them, in the shorter form."""
    raw = some_bytes("data", data)
    kept = raw.rstrip(b"\0")
    if len(kept) > 1 and len(raw) % BLOCK_BYTES == 0 and raw == raw[:1] * len(raw):
        return f"fill:{raw[:1].hex()}"
    return f"hex:{kept.hex() or '00'}"


def blocks_of(data: Bytes) -> int:
    """How many blocks these data need."""
    return -(-len(some_bytes("data", data)) // BLOCK_BYTES)
