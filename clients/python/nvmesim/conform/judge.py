"""Plays a scene on the devices and on the model, compares the answers, and shortens a scene whose answers differ."""
from __future__ import annotations

import struct
from dataclasses import dataclass
from typing import Dict, Iterator, List, Optional, Sequence, Tuple

from ..process import PathLike
from ..reports import parse_report
from ..session import SECONDS
from .device import Abilities, Answer, Commands, DeviceFault
from .model import Model, host_identifiers, setup_lines, step_lines
from .scenes import KEYS
from .steps import REGION, Step

Told = Tuple[str, str]
"""The result of a step: its status, and in words the rest that is compared."""


@dataclass(frozen=True)
class Difference:
    """A scene whose last step is answered differently.

    Attributes:
        steps: the steps of the scene, without those that prepare it and those that query the end.
        step: the step that is answered differently.
        device, model: the two answers.
    """

    steps: Tuple[Step, ...]
    step: Step
    device: Told
    model: Told


class Judge:
    """Devices, each of a host, compared with the model.

    Attributes:
        hosts: the devices' properties.
        runs: how many scenes were played so far.
    """

    def __init__(self, devices: Sequence[Commands], hosts: Sequence[Abilities], program: Optional[PathLike] = None,
                 seconds: float = SECONDS) -> None:
        self._devices = list(devices)
        self.hosts = list(hosts)
        self._cntlids = [it.cntlid for it in hosts]
        # What reports call the host of each controller: as the device says, or as the first report has it.
        self._identifiers: Dict[int, int] = {n: it.host for n, it in enumerate(hosts, 1) if it.host}
        self._program, self._seconds = program, seconds
        self.runs = 0

    def preparation(self) -> List[Step]:
        """The steps before each scene. They remove registrants and write protection, and zero the blocks."""
        found: List[Step] = []
        if all(it.has_protection for it in self.hosts):
            found.append(Step(0, "protect", (0,)))
        if all(it.rtypes for it in self.hosts):
            cptpl = 2 if all(it.has_persistence for it in self.hosts) else 0
            found += [Step(0, "register", (2, 1, cptpl, 0, KEYS[0])), Step(0, "release", (1, 0, KEYS[0])),
                      Step(0, "report")]
        blocks = self.hosts[0].blocks
        return [*found, Step(0, "write", (0, REGION, 0)), Step(0, "write", (blocks - REGION, REGION, 0))]

    def ending(self) -> List[Step]:
        """The steps after each scene, which read the state to compare: the reservation and, once it is cleared, all
        blocks."""
        found: List[Step] = []
        if all(it.rtypes for it in self.hosts):
            found = [Step(0, "report"), Step(0, "register", (2, 1, 0, 0, KEYS[0])), Step(0, "release", (1, 0, KEYS[0])),
                     Step(0, "report")]
        if all(it.has_protection for it in self.hosts):
            found += [Step(0, "protection"), Step(0, "protect", (0,))]
        blocks = self.hosts[0].blocks
        return [*found, Step(0, "read", (0, REGION)), Step(0, "read", (blocks - REGION, REGION))]

    def play(self, steps: Sequence[Step]) -> Optional[Difference]:
        """Plays a scene. Returns the first step whose answers differ, if any."""
        self.runs += 1
        bases = [0, 0]
        with Model(self.hosts, self._program, self._seconds) as model:
            for part, several in enumerate((self.preparation(), steps, self.ending())):
                for place, step in enumerate(several):
                    answers = (self._submit(step, several[:place]), model.submit(step))
                    if part == 0 and step.verb == "report":
                        bases = [_generation(it, base) for it, base in zip(answers, bases)]
                    told = [self._compared_part(step, it, base, side == 1)
                            for side, (it, base) in enumerate(zip(answers, bases))]
                    if told[0] != told[1]:
                        done = steps[:place + 1] if part == 1 else steps if part == 2 else ()
                        return Difference(tuple(done), step, told[0], told[1])
        return None

    def _submit(self, step: Step, before: Sequence[Step]) -> Answer:
        """Runs a step on its device. An error of the kernel names the step and the one before it, which may be the
        cause."""
        try:
            return self._devices[step.host].submit(step.command(self._cntlids))
        except DeviceFault as fault:
            cause = f", after {before[-1].words}" if before else ""
            raise DeviceFault(f"{fault}; it was {step.words}{cause}") from None

    def shortened(self, found: Difference) -> Difference:
        """The difference with the fewest steps: without any one of them it disappears."""
        shortest, size = found, max(1, len(found.steps) // 2)
        while True:
            shorter = self._without_pieces(shortest, size)
            if size == 1 and len(shorter.steps) == len(shortest.steps):
                return shorter
            shortest, size = shorter, max(1, size // 2)

    def _without_pieces(self, found: Difference, size: int) -> Difference:
        """The difference without the runs of `size` steps that it does not need."""
        begin = 0
        while begin < len(found.steps):
            again = self.play(found.steps[:begin] + found.steps[begin + size:])
            if again is None:
                begin += size
            else:
                found = again
        return found

    def _compared_part(self, step: Step, answer: Answer, base: int, is_model: bool) -> Told:
        """The part of an answer that is compared."""
        if answer.status != "0:00":
            return answer.status, ""
        if step.verb == "read":
            return answer.status, _blocks_words(answer.data)
        if step.verb == "protection":
            return answer.status, f"state {answer.value & 7}"
        if step.verb == "identify":
            return answer.status, f"NSATTR {'write protected' if answer.data[99] & 1 else 'not write protected'}"
        return answer.status, self._report_words(answer.data, base, is_model) if step.verb == "report" else ""

    def _report_words(self, data: bytes, base: int, is_model: bool) -> str:
        """A report, with the generation since the preparation, and hosts and controllers by their numbers here."""
        told = parse_report(data)
        models = host_identifiers(self.hosts)
        rows = []
        for it in told.controllers:
            number, host = it.number, it.host
            if not is_model:
                number = _number_of(it.number, self._cntlids)
                is_known = number and self._identifiers.setdefault(number, it.host) == it.host
                host = models[number - 1] if is_known else it.host
            holds = ", a holder" if it.is_holder else ""
            rows.append(f"controller {number} of host {host} with key {it.key:x}h{holds}")
        persists = ", persists" if told.persists else ""
        since = (told.generation - base) & 0xFFFFFFFF
        head = f"generation +{since}, RTYPE {int(told.rtype)}{persists}, {told.count} registered"
        return "; ".join([head, *sorted(rows)])

    def script(self, found: Difference) -> Iterator[str]:
        """A difference as a script for the model, with the expected answer and the device's answer."""
        with Model(self.hosts, self._program, self._seconds) as model:
            places = model.places
        yield f"# The device answers {_said(found.device)}, and the model {_said(found.model)}."
        yield from setup_lines(self.hosts, places)
        yield "start"
        yield from (f"up {number + 1}" for number in range(len(self.hosts)))
        yield "# What prepares each scene."
        for step in self.preparation():
            yield from step_lines(step, places)
        yield "# The scene."
        last = not found.steps or found.steps[-1] != found.step
        for step in (*found.steps, *([found.step] if last else [])):
            yield from step_lines(step, places)
        yield f"# expect * {found.model[0]}"


def _said(told: Told) -> str:
    return f"{told[0]} with {told[1]}" if told[1] else told[0]


def _number_of(cntlid: int, cntlids: Sequence[int]) -> int:
    """The number of a device's controller in scripts, from 1; 0 for one that is not compared."""
    return cntlids.index(cntlid) + 1 if cntlid in cntlids else 0


def _generation(answer: Answer, before: int) -> int:
    return struct.unpack_from("<I", answer.data)[0] if answer.status == "0:00" else before


def _blocks_words(data: bytes) -> str:
    """The blocks that are not zeros, each by its first bytes."""
    blocks = [data[n:n + 512] for n in range(0, len(data), 512)]
    words = [f"block +{n} {it.rstrip(bytes(1)).hex()[:40]}" for n, it in enumerate(blocks) if any(it)]
    return ", ".join(words) or "zeros"
