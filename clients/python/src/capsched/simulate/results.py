"""What was seen while jobs were played: of each job, of each queue, and of the cluster."""
from __future__ import annotations

from array import array
from dataclasses import dataclass, field
from typing import Callable, Dict, List, NamedTuple, Optional, Sequence, Tuple

from ..connection import Connection
from ..messages import QueueInfo, QueueReport, Refusal, Resource
from .applications import Application
from .jobs import Amounts, Job

SAMPLES_MAX = 1000  # of a queue over time
ROWS_MAX = 100_000  # of all queues together


@dataclass
class Tally:
    """What came of the jobs of a leaf queue, or of all. `first_waits` and `last_waits` have, for each job that ended,
    how many milliseconds its first and its last container waited. `ran` has what its containers took times how many
    milliseconds they ran, `held` what was reserved times how many milliseconds it was; `reserved` and `wanted` are what
    is reserved and how many containers are asked for at this time."""

    jobs: int = 0
    refused: int = 0
    waiting: int = 0
    containers: int = 0
    first_waits: array[int] = field(default_factory=lambda: array("q"))
    last_waits: array[int] = field(default_factory=lambda: array("q"))
    ran: Amounts = field(default_factory=Amounts)
    held: Amounts = field(default_factory=Amounts)
    reserved: Amounts = field(default_factory=Amounts)
    wanted: int = 0

    def add(self, other: Tally) -> None:
        """Adds what came of other jobs."""
        self.jobs, self.refused, self.waiting = (
            self.jobs + other.jobs, self.refused + other.refused, self.waiting + other.waiting)
        self.containers, self.wanted = self.containers + other.containers, self.wanted + other.wanted
        self.first_waits.extend(other.first_waits)
        self.last_waits.extend(other.last_waits)
        for mine, its in ((self.ran, other.ran), (self.held, other.held), (self.reserved, other.reserved)):
            mine.add(its, 1)


class QueueSample(NamedTuple):
    """A queue at a time: its use, with what is reserved, as the scheduler reports it; what of that is reserved; its
    active applications; and how many containers they ask for that are not granted."""

    used: Resource
    reserved: Amounts
    applications: int
    wanted: int


class Sample(NamedTuple):
    """All queues at a time, in milliseconds."""

    at: int
    queues: List[QueueSample]


class JobRow(NamedTuple):
    """What came of a job: `state` is `ended`, `waiting` or why it was refused; `first` and `last` are when its first
    and its last container began, `end` is when all have ended."""

    job: Job
    queue: str
    state: str
    granted: int = 0
    first: Optional[int] = None
    last: Optional[int] = None
    end: Optional[int] = None


class Results:
    """What is seen of one cluster under one of the settings, while jobs are played."""

    def __init__(self, connection: Connection, paths: Sequence[str], begin: int, every: int,
                 write: Callable[[JobRow], None]) -> None:
        """`paths` are all queues, each before those below it. `begin` is when the first job comes, and a sample is
        taken each `every` milliseconds from then on, of which every second one is dropped whenever there are too many.
        `write` is called for each job."""
        self._connection, self.paths, self.begin, self.end = connection, list(paths), begin, begin
        self.reports = dict(zip(paths, self._report()))
        self.nowhere = Tally()  # jobs of queues that are no leaf queues
        self.queues = {path: Tally() for path in paths if self.reports[path].leaf}
        self._under = [[tally for leaf, tally in self.queues.items() if f"{leaf}.".startswith(f"{path}.")]
                       for path in paths]  # of each queue the leaf queues
        self.samples: List[Sample] = []
        self.failed: Dict[str, Tuple[int, Job]] = {}  # why jobs were refused: how many, and the first
        self.left: List[Application] = []
        self._every, self._next, self._write = every, begin, write
        self._samples_max = max(50, min(SAMPLES_MAX, ROWS_MAX // len(paths)))

    @property
    def containers(self) -> int:
        """How many containers have been granted."""
        return sum(it.containers for it in self.queues.values())

    def total(self) -> Tally:
        """What came of all jobs."""
        total = Tally()
        for it in [*self.queues.values(), self.nowhere]:
            total.add(it)
        return total

    def submitted(self, app: Application) -> None:
        """An application asks for all of its containers."""
        tally = self.queues[app.path]
        tally.jobs += 1
        tally.wanted += app.wanted

    def refused(self, job: Job, queue: str, refusal: Refusal) -> None:
        """A job was refused. Its queue may be none."""
        tally = self.queues.get(queue, self.nowhere)
        tally.jobs += 1
        tally.refused += 1
        why = f"refused: {refusal.word} ({refusal.value}), {queue}"
        count, first = self.failed.get(why, (0, job))
        self.failed[why] = (count + 1, first)
        self._write(JobRow(job, queue, refusal.word))

    def reserve(self, app: Application, resource: Resource) -> None:
        """Room is reserved for an application."""
        self.queues[app.path].reserved.add(resource, 1)

    def unreserve(self, app: Application, resource: Resource, duration: int) -> None:
        """Room that was reserved so many milliseconds is a container's now."""
        tally = self.queues[app.path]
        tally.reserved.add(resource, -1)
        tally.held.add(resource, duration)

    def granted(self, app: Application, resource: Resource, duration: int) -> None:
        """A container begins, and runs so many milliseconds."""
        tally = self.queues[app.path]
        tally.containers += 1
        tally.wanted -= 1
        tally.ran.add(resource, duration)
        if app.end > self.end:
            self.end = app.end

    def ended(self, app: Application) -> None:
        """All containers of an application have ended."""
        submit, tally = app.job.submit, self.queues[app.path]
        assert app.first is not None
        tally.first_waits.append(app.first - submit)
        tally.last_waits.append(app.last - submit)
        self._write(JobRow(app.job, app.path, "ended", app.granted, app.first, app.last, app.end))

    def finish(self, left: Sequence[Application]) -> None:
        """Nothing happens any more; these applications wait for what they are never granted."""
        self.left = list(left)
        for app in left:
            self.queues[app.path].waiting += 1
            last = app.last if app.granted else None
            self._write(JobRow(app.job, app.path, "waiting", app.granted, app.first, last))

    def sample_before(self, now: int) -> None:
        """Takes the samples that are due before this time. Nothing has happened since the last moment."""
        if self._next >= now:
            return
        queues = self._sample()
        while self._next < now:
            self.samples.append(Sample(self._next, queues))
            if len(self.samples) >= self._samples_max:
                del self.samples[1::2]
                self._every *= 2
            self._next = self.samples[-1].at + self._every

    def sample_last(self, now: int) -> None:
        """Takes the samples up to the last moment, and one there."""
        self.sample_before(now)
        self.samples.append(Sample(now, self._sample()))

    def _report(self) -> List[QueueReport]:
        asked = [self._connection.send(QueueInfo(path)) for path in self.paths]
        return [it.result() for it in asked]

    def _sample(self) -> List[QueueSample]:
        result = []
        for tallies, report in zip(self._under, self._report()):
            reserved = Amounts()
            for tally in tallies:
                reserved.add(tally.reserved, 1)
            wanted = sum(it.wanted for it in tallies)
            result.append(QueueSample(report.used, reserved, report.applications, wanted))
        return result
