"""Why an action fails, and the exit statuses of fence agents."""
from __future__ import annotations

SUCCEEDED, FAILED, IS_OFF, TIMED_OUT = 0, 1, 2, 5


class Failure(Exception):
    """Why an action failed or was refused, in one sentence, and the agent's exit status for it."""

    def __init__(self, why: str, status: int = FAILED) -> None:
        super().__init__(why)
        self.status = status
