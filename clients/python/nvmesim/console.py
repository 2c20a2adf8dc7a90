"""The commands that an installation puts on the path: `nvmesim-explain`, `-explore`, `-scene`, `-test` and
`-timeline`.

There is no command `nvmesim`, since it would hide the program of that name.
"""
from __future__ import annotations

import sys

from .__main__ import main


def explain() -> int:
    """`nvmesim-explain`: `python3 -m nvmesim explain`."""
    return main(["explain", *sys.argv[1:]])


def explore() -> int:
    """`nvmesim-explore`: `python3 -m nvmesim explore`."""
    return main(["explore", *sys.argv[1:]])


def scene() -> int:
    """`nvmesim-scene`: `python3 -m nvmesim scene`."""
    return main(["scene", *sys.argv[1:]])


def test() -> int:
    """`nvmesim-test`: `python3 -m nvmesim test`."""
    return main(["test", *sys.argv[1:]])


def timeline() -> int:
    """`nvmesim-timeline`: `python3 -m nvmesim timeline`."""
    return main(["timeline", *sys.argv[1:]])
