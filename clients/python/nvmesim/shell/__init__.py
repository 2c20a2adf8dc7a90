"""A session at a terminal: a prompt before `nvmelive`, with queries that decode their answers."""
from __future__ import annotations

from .prompt import Shell
from .talk import Talk

__all__ = ["Shell", "Talk"]
