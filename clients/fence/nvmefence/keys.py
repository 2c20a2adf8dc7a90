"""Keys of nodes, made from names."""
from __future__ import annotations

import re

from .failures import Failure

COROSYNC = "/etc/corosync/corosync.conf"


def key_of_name(node: str, cluster: str) -> str:
    """The key of a node, made like fence_scsi's with key_value=hash, from 8 instead of 4 digits of each MD5."""
    import hashlib
    return "".join(hashlib.md5(it.encode(), usedforsecurity=False).hexdigest()[:8] for it in (cluster, node))


def cluster_name() -> str:
    """The name of the cluster, from the configuration of Corosync."""
    try:
        with open(COROSYNC, encoding="utf-8") as file:
            found = re.search(r"^\s*cluster_name:\s*(\S+)", file.read(), re.M)
    except OSError as fault:
        raise Failure(f"{COROSYNC} can't be read: {fault.strerror}; cluster_name or key is needed") from None
    if not found:
        raise Failure(f"{COROSYNC} has no cluster_name; the option cluster_name or key is needed")
    return found[1]
