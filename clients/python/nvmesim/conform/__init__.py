"""Compares a device with the model: sends the same commands to both, and reports the first answer that differs."""
from __future__ import annotations

from .device import Abilities, Answer, Commands, Device, DeviceFault
from .judge import Difference, Judge
from .nvmehost import Nvmehost
from .scenes import scene
from .steps import Step

__all__ = ["Abilities", "Answer", "Commands", "Device", "DeviceFault", "Difference", "Judge", "Nvmehost",
           "Step", "scene"]
