"""Errors of the lab itself."""


class LabFault(Exception):
    """The lab failed. The text is the reason, one sentence without its full stop."""


class Ended(LabFault):
    """The program of the subsystem has ended, or answers wrongly: the lab ends."""
