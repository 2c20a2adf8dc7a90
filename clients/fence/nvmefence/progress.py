"""The progress of an action."""
from __future__ import annotations

import os
import sys
from typing import Optional

from .options import NAME


class Progress:
    """The progress, for the process that waits for it, and on standard error with --verbose.

    Attributes:
        state: what has been changed so far, in words that follow a failure.
    """

    def __init__(self, pipe: Optional[int] = None, is_verbose: bool = False) -> None:
        self.pipe, self.is_verbose, self.state = pipe, is_verbose, ""

    def asks(self, path: str, command: str) -> None:
        if self.pipe is not None:
            os.write(self.pipe, f"{path} has not answered {command}{self.state}\n".encode())
        if self.is_verbose:
            print(f"{NAME}: {path}: {command}", file=sys.stderr)
