"""What the exporter knows: the last look at the daemon, the ten minutes before it, and the daemon's counters."""
from __future__ import annotations

import math
import os
import re
import threading
import time
from array import array
from dataclasses import dataclass, field, replace
from typing import Callable, Dict, List, Optional, Sequence, Tuple

from ..connection import Connection
from ..messages import BadReply, ClusterInfo, ClusterReport, QueueInfo, QueueReport, Refusal, Refused
from ..watch import Amount, amounts

RESOURCES = ("memory", "vcores", "gpus")
WINDOW = 600.0  # how long back the history goes, in seconds
SPACING = 4.0  # between two moments of the history, at least
PATIENCE = 5.0  # a daemon that takes longer to answer counts as gone, until it answers
CHUNK = 1 << 20
STATS = re.compile(rb"stats((?: [a-z]+=\d{1,20})+)")


@dataclass(frozen=True)
class Look:
    """The cluster and its queues at a moment. `at` is in seconds since 1970, `seconds` is how long the daemon took to
    answer, and `unknown` has the queues of the settings file that it does not have."""

    at: float
    seconds: float
    cluster: ClusterReport
    queues: Dict[str, QueueReport]
    unknown: Tuple[str, ...] = ()

    def amounts(self, path: str) -> List[Amount]:
        """Memory, vcores and GPUs of a queue."""
        return amounts(RESOURCES, path, self.queues[path], self.cluster)

    def share(self, path: str) -> float:
        """How much of its maximum, or of the nodes where it has none, a queue uses, of the resource of which most is
        used."""
        return max(it.used / it.most if it.most else float(it.used > 0) for it in self.amounts(path))


@dataclass(frozen=True)
class State:
    """What is known now. `last` is the last look, None where there was none; `fault` says why the daemon does not
    answer, None where it does."""

    daemon: str
    last: Optional[Look] = None
    fault: Optional[str] = "it was not asked yet"
    looks: int = 0
    failures: int = 0
    counters: Dict[str, int] = field(default_factory=dict)

    @property
    def is_up(self) -> bool:
        return self.fault is None


class History:
    """The share in use of each queue over the last ten minutes: a moment every four seconds, eight bytes a queue."""

    def __init__(self, paths: Sequence[str]) -> None:
        self._indexes = {path: index for index, path in enumerate(paths)}
        self._moments: Tuple[Tuple[float, array[float]], ...] = ()

    def add(self, at: float, look: Optional[Look]) -> None:
        """Keeps a look, None where the daemon did not answer, if the moment before is long enough ago."""
        if self._moments and 0 <= at - self._moments[-1][0] < SPACING:
            return
        shares = (look.share(path) if look and path in look.queues else math.nan for path in self._indexes)
        kept = (it for it in self._moments if at - WINDOW <= it[0] < at)  # the clock may have been set back
        self._moments = (*kept, (at, array("d", shares)))

    def shares(self, path: str, now: float) -> List[Tuple[float, float]]:
        """The moments of a queue in the last ten minutes: how many seconds ago, and the share in use, or NaN where the
        daemon did not answer."""
        index = self._indexes[path]
        return [(now - at, shares[index]) for at, shares in self._moments if now - at <= WINDOW]


class StatsFile:
    """The daemon's counters in the file of its standard error: the last whole line `stats NAME=NUMBER ..`."""

    def __init__(self, path: str) -> None:
        self._path, self._at, self._cut = path, 0, b""
        self._file = (0, 0)
        self._counters: Dict[str, int] = {}

    def exists(self) -> bool:
        return os.path.exists(self._path)

    def read(self) -> Dict[str, int]:
        """Reads what was added: the counters by name, none where no such line has come. OSError where it can't be
        read."""
        with open(self._path, "rb") as file:
            status = os.fstat(file.fileno())
            if self._file != (status.st_dev, status.st_ino) or status.st_size < self._at:
                self._file, self._at, self._cut, self._counters = (status.st_dev, status.st_ino), 0, b"", {}
            file.seek(self._at)
            while True:
                data = file.read(CHUNK)
                if not data:
                    return self._counters
                self._at += len(data)
                *lines, rest = (self._cut + data).split(b"\n")
                self._cut = rest[:CHUNK]
                self._take(lines)

    def _take(self, lines: Sequence[bytes]) -> None:
        for line in reversed(lines):
            found = STATS.fullmatch(line.rstrip(b"\r"))
            if found:
                pairs = (pair.split("=") for pair in found[1].decode("ascii").split())
                self._counters = {name: int(number) for name, number in pairs}
                return


def look_at(connection: Connection, paths: Sequence[str]) -> Look:
    """Asks for the cluster and its queues. OSError where the connection broke, BadReply where something else
    answered."""
    began = time.monotonic()
    pending = [connection.send(QueueInfo(path)) for path in paths]
    cluster = connection.send(ClusterInfo())
    queues, unknown = {}, []
    for path, reply in zip(paths, pending):
        try:
            queues[path] = reply.result()
        except Refused as refused:
            if refused.refusal is not Refusal.UNKNOWN_QUEUE:
                raise
            unknown.append(path)
    report = cluster.result()
    return Look(time.time(), time.monotonic() - began, report, queues, tuple(unknown))


class Looker:
    """Looks at the daemon over one connection, every so many seconds, and opens a new one where that has broken."""

    def __init__(
        self, daemon: str, connect: Callable[[], Connection], paths: Sequence[str], stats: Optional[StatsFile] = None
    ) -> None:
        self._connect, self._paths, self._stats = connect, list(paths), stats
        self._connection: Optional[Connection] = None
        self._asked: Optional[float] = None  # when the look that goes on began
        self._state = State(daemon)
        self._over = threading.Event()
        self.history = History(paths)

    def state(self) -> State:
        """What is known now. A daemon that has not answered for long does not answer."""
        state, asked = self._state, self._asked
        waited = time.monotonic() - asked if asked is not None else 0.0
        return replace(state, fault=f"no answer for {waited:.0f} s") if waited > PATIENCE else state

    def look(self) -> None:
        """Looks once. Where the daemon does not answer, the state says why."""
        self._asked = time.monotonic()
        state = replace(self._state, looks=self._state.looks + 1)
        try:
            if self._connection is None:
                self._connection = self._connect()
            state = replace(state, last=look_at(self._connection, self._paths), fault=None)
        except (OSError, BadReply, Refused) as fault:
            self._disconnect()
            state = replace(state, fault=str(fault), failures=state.failures + 1)
        self._state = replace(state, counters=self._counters())
        self._asked = None
        self.history.add(time.time(), state.last if state.is_up else None)

    def run(self, every: float) -> None:
        """Looks until `stop`, each time so many seconds after it began the time before."""
        while not self._over.is_set():
            began = time.monotonic()
            self.look()
            self._over.wait(max(0.0, every - (time.monotonic() - began)))
        self._disconnect()

    def stop(self) -> None:
        self._over.set()

    def _disconnect(self) -> None:
        if self._connection is not None:
            self._connection.close()
            self._connection = None

    def _counters(self) -> Dict[str, int]:
        try:
            return self._stats.read() if self._stats else {}
        except OSError:
            return {}
