"""Hands whole explorations to a Dask cluster. Debian's `python3-distributed`, or the package's extra `dask`, has what
this needs."""
from __future__ import annotations

import time
from dataclasses import replace
from typing import Any, Callable, Iterator, Optional, Sequence, Tuple, Union

from ..errors import NvmesimError
from . import Explored, Limits
from .tasks import Task


class DaskMissing(NvmesimError):
    """Dask is not installed."""


class WorkerLacks(NvmesimError):
    """A worker of the cluster does not find this package."""


class WorkersDied(NvmesimError):
    """Each worker that ran a task died."""


class ClusterFault(NvmesimError):
    """The cluster can't be reached, or does not do what it should."""


def _connect(address: str) -> Any:
    try:
        from distributed import Client
    except ImportError:
        raise DaskMissing("--dask needs Dask: apt install python3-distributed, or pip install "
                          "'./clients/python[dask]'") from None
    connect: Callable[[str], Any] = Client
    try:
        return connect(address)
    except (OSError, ValueError) as fault:
        raise ClusterFault(f"no Dask scheduler answers at {address}: {fault}") from None


def explore_on_dask(tasks: Sequence[Task], address: str, program: Optional[str], limits: Limits,
                    client: Any = None, within: Optional[float] = None) -> Iterator[Union[Explored, NvmesimError]]:
    """Explores tasks on the cluster whose scheduler has this address: what each found, or its fault, in their order.

    The scheduler runs a task again whose worker dies, up to three times by default.

    Args:
        tasks: the explorations.
        address: the scheduler, such as `tcp://host:8786`.
        program: the program `nvmelive` as the workers find it, or None for what they find themselves.
        limits: what each may take; its events run one after the other.
        client: a client of the cluster, which is closed at the end; None for a new one.
        within: the seconds after which each is stopped, from its beginning on a worker; None for no such time.

    Raises:
        DaskMissing, ClusterFault: Dask is not installed here, or there is no cluster.
        WorkerLacks: this package is not where a worker runs.
    """
    whole = client if client is not None else _connect(address)
    try:
        for it in whole.map(_run, [(it, program, limits, within) for it in tasks], pure=False):
            yield _result_of(it)
    finally:
        whole.close()


def _result_of(future: Any) -> Union[Explored, NvmesimError]:
    """What a task found, or its fault."""
    try:
        found: Explored = future.result()
        return found
    except NvmesimError as fault:
        return fault
    except ImportError as fault:
        raise WorkerLacks(f"a worker of the cluster does not have this package: {fault}") from None
    except Exception as fault:
        if type(fault).__name__ == "KilledWorker":
            return WorkersDied("each worker that ran it died")
        return ClusterFault(f"the cluster reports {type(fault).__name__}: {fault}")


def _run(given: Tuple[Task, Optional[str], Limits, Optional[float]]) -> Explored:
    """One task, on a worker, whose clock is not that of the one that asked."""
    task, program, limits, within = given
    until = None if within is None else time.monotonic() + within
    return task.explored(program, replace(limits, until=until))
