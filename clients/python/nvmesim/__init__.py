"""Sessions with the proved NVMe storage subsystem, every order of a script's events, and pictures of them.

    from nvmesim import Subsystem

    with Subsystem() as subsystem:
        host = subsystem.controller(host=0xa1)
        disk = subsystem.namespace(blocks=64)
        subsystem.attach(host, disk)
        subsystem.start()
        host.up()
        host.write(disk, 3, b"Hello")
        print(host.read(disk, 3)[:5])
"""
from __future__ import annotations

from .answers import Answer, parse_answer
from .backends import LibraryHost, LibrarySubsystem
from .controllers import Controller, RawHost
from .enums import (AcquireAction, AdminOpcode, ExecuteOutcome, IoOpcode, Persistence, PollOutcome, Protection, Refusal,
                    RegisterAction, ReleaseAction, ReservationType, Rule, Status, UpOutcome)
from .errors import (ArgumentError, ConfigurationRefused, ExpressionError, ImageInUse, LineError, NotDone, NvmeError,
                     NvmesimError, ProgramDied, ProgramHangs, ProgramNotFound, ProtocolError, RequestAborted, RequestRefused,
                     ScriptError, SessionClosed, SessionError)
from .history import Command, Event
from .hosts import Host, Namespace
from .reports import ReportedController, ReservationReport, parse_report
from .session import Session
from .subsystem import Subsystem

__all__ = [
    "AcquireAction", "AdminOpcode", "Answer", "ArgumentError", "Command", "ConfigurationRefused", "Controller", "Event",
    "ExecuteOutcome", "ExpressionError", "Host", "ImageInUse", "IoOpcode", "LibraryHost", "LibrarySubsystem",
    "LineError", "Namespace", "NotDone", "NvmeError", "NvmesimError", "Persistence", "PollOutcome", "ProgramDied",
    "ProgramHangs", "ProgramNotFound", "Protection", "ProtocolError", "RawHost", "Refusal", "RegisterAction",
    "ReleaseAction", "ReportedController", "RequestAborted", "RequestRefused", "ReservationReport", "ReservationType",
    "Rule", "ScriptError", "Session", "SessionClosed", "SessionError", "Status", "Subsystem", "UpOutcome",
    "parse_answer", "parse_report",
]
__version__ = "0.1.0"
