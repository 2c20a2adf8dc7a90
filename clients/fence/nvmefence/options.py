"""The agent's options, from the command line or from standard input, with all values checked."""
from __future__ import annotations

import argparse
import re
from typing import Any, Dict, NamedTuple, NoReturn, Optional, Sequence, TextIO, Tuple

from .failures import Failure
from .keys import COROSYNC, cluster_name, key_of_name
from .reports import RESERVATIONS

NAME, VERSION = "fence_nvme_pr", "0.1.0"
ABOUT = """Fences a cluster's nodes off NVMe disks that they share, by the disks' reservations: each node registers a
key of its own, and one whose key another node takes away can't write any more."""


class Option:
    """A parameter: its name on standard input, its letter and long forms on the command line, and its metadata."""

    def __init__(self, name: str, letter: str, kind: str, words: str, default: str = "",
                 required: bool = False) -> None:
        self.name, self.letter, self.kind, self.words = name, letter, kind, words
        self.default, self.required = default, required

    @property
    def long(self) -> str:
        return "--" + self.name.replace("_", "-")


ACTIONS = ("on", "off", "status", "monitor", "list", "metadata", "validate-all")
OPTIONS = (
    Option("action", "-o", "string", f"Fencing action: {', '.join(ACTIONS)}", "off", True),
    Option("devices", "-d", "string", "The shared namespaces, separated by commas or blanks, such as /dev/nvme0n1: "
           "the same disks on each node, in any order", required=True),
    Option("key", "-k", "string", "Reservation key in hexadecimal, of at most 16 digits: the one that 'on' registers "
           "for this node, and that 'off' removes from the node to be fenced. Each node needs its own"),
    Option("plug", "-n", "string", "Name of the node, from which the key is made if no key is given: the first 8 "
           "digits of the MD5 of the cluster's name and then of the node's name"),
    Option("nodename", "-N", "string", "The same, as Pacemaker gives it; plug has precedence"),
    Option("cluster_name", "-c", "string", "Name of the cluster, for keys made of names. "
           f"By default it is read from {COROSYNC}"),
    Option("reservation_type", "-t", "integer", "Type of the reservation: " +
           ", ".join(f"{it} {RESERVATIONS[it]}" for it in (3, 4, 5, 6)), "5"),
    Option("delay", "-D", "second", "Seconds to wait before 'off' begins: a different delay on each node, or on one "
           "node only, keeps two nodes from fencing each other at once", "0"),
    Option("power_timeout", "-T", "second", "Seconds within which all devices have to answer", "20"),
    Option("verbose", "-v", "boolean", "Log each command on standard error"),
    Option("version", "-V", "boolean", "Show the version, and do nothing"),
    Option("help", "-h", "boolean", "Show the options, and do nothing"),
)
NAMES = {it.name: it for it in OPTIONS}
# Pacemaker gives these on standard input, for agents that know nodes by them.
UNUSED = ("nodeid",)
YES, NO = ("1", "yes", "on", "true"), ("", "0", "no", "off", "false")


class Parser(argparse.ArgumentParser):
    """A bad command line is a failure: argparse's own exit status 2 would mean that the node is off."""

    def error(self, message: str) -> NoReturn:
        raise Failure(message)


def parser_of() -> Parser:
    """The command line's parser."""
    parser = Parser(prog=NAME, description=ABOUT, allow_abbrev=False, add_help=False,
                    epilog="Without an option the agent reads lines NAME=VALUE from standard input.")
    for it in OPTIONS:
        shape: Dict[str, Any] = ({"action": "store_const", "const": "1"} if it.kind == "boolean"
                                 else {"metavar": it.name.upper()})
        default = f" (default: {it.default})" if it.default else ""
        parser.add_argument(it.letter, it.long, dest=it.name, help=it.words + default, **shape)
    return parser


def given_words(words: Sequence[str], stream: TextIO) -> Dict[str, str]:
    """The options by their names: from the command line, or if that is empty from standard input."""
    if words:
        return {name: value for name, value in vars(parser_of().parse_args(words)).items() if value is not None}
    found: Dict[str, str] = {}
    for line in (it.strip() for it in stream):
        if not line or line.startswith("#"):
            continue
        name, equals, value = line.partition("=")
        if not equals:
            raise Failure(f"standard input has {line!r}, which is no NAME=VALUE")
        if name not in (*NAMES, *UNUSED):
            raise Failure(f"there is no option {name!r}; there are {', '.join(NAMES)}")
        if name not in UNUSED:
            found[name] = value
    return found


class Asked(NamedTuple):
    """The requested action, with all values checked."""

    action: str
    devices: Tuple[str, ...]
    key: Optional[int]
    rtype: int
    delay: float
    seconds: float
    is_verbose: bool

    @classmethod
    def of(cls, given: Dict[str, str]) -> Asked:
        """Checks what was given. Raises `Failure` with the option's name."""
        action = given.get("action", NAMES["action"].default)
        if action not in ACTIONS:
            hint = "; pcmk_reboot_action=off has Pacemaker ask for off" if action == "reboot" else ""
            raise Failure(f"there is no action {action!r}; there are {', '.join(ACTIONS)}{hint}")
        devices = tuple(dict.fromkeys(re.split(r"[,\s]+", given.get("devices", "").strip(", \t"))))
        if not any(devices) and action != "metadata":
            raise Failure("no devices are given: --devices=/dev/nvme0n1,..")
        needs_key = action in ("on", "off", "status") or any(given.get(it) for it in ("key", "plug", "nodename"))
        key = key_of(given) if needs_key and action != "metadata" else None
        rtype = given.get("reservation_type", NAMES["reservation_type"].default)
        if rtype not in ("3", "4", "5", "6"):
            raise Failure(f"reservation_type is 3, 4, 5 or 6, so that all registrants may write, not {rtype!r}")
        return cls(action, devices, key, int(rtype), seconds_of(given, "delay"),
                   seconds_of(given, "power_timeout", 1), truth_of(given, "verbose"))


def seconds_of(given: Dict[str, str], name: str, least: int = 0) -> float:
    text = given.get(name, NAMES[name].default)
    if not re.fullmatch(r"\d{1,6}(\.\d{1,3})?s?", text) or float(text.rstrip("s")) < least:
        raise Failure(f"{name} is a number of seconds, at least {least}, not {text!r}")
    return float(text.rstrip("s"))


def truth_of(given: Dict[str, str], name: str) -> bool:
    text = given.get(name, "").lower()
    if text not in YES + NO:
        raise Failure(f"{name} is 1 or 0, not {text!r}")
    return text in YES


def key_of(given: Dict[str, str]) -> int:
    """The given key, or else the key of the node's name."""
    text = given.get("key", "")
    node = given.get("plug") or given.get("nodename")
    if not text and not node:
        raise Failure("no node is given: --plug=NAME, or --key=KEY")
    if text and not re.fullmatch(r"(0[xX])?[0-9a-fA-F]{1,16}", text):
        raise Failure(f"key is a number of at most 16 hexadecimal digits, not {text!r}")
    key = int(text or key_of_name(node or "", given.get("cluster_name") or cluster_name()), 16)
    if key == 0:
        raise Failure("key 0 is no key: to preempt it would take away the registrations of all nodes")
    return key
