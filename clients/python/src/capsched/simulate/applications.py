"""A job while it is in the cluster: its asks, and what was granted."""
from __future__ import annotations

from collections import deque
from dataclasses import dataclass, field
from typing import Deque, Dict, List, Optional, Tuple

from ..messages import ASKS_MAX, Ask, Resource
from .jobs import Job

Run = Tuple[int, int]  # how many containers, and how many milliseconds each runs


@dataclass
class Group:
    """The containers of a job that one ask is for. They begin in the order of the trace."""

    request_id: int
    priority: int
    resource: Resource
    place: str
    wanted: int = 0
    runs: Deque[Run] = field(default_factory=deque)

    def add(self, count: int, duration: int) -> None:
        """More containers that run so long, in milliseconds."""
        self.wanted += count
        self.runs.append((count, duration))

    def take(self) -> int:
        """One container begins: how long it runs, in milliseconds."""
        count, duration = self.runs.popleft()
        if count > 1:
            self.runs.appendleft((count - 1, duration))
        self.wanted -= 1
        return duration

    def ask(self) -> Ask:
        return Ask(self.priority, self.request_id, self.wanted, self.resource, self.place)


@dataclass
class Application:
    """A submitted job. Times are in milliseconds; `first` and `last` are of its first and its last grant so far, `end`
    is when the container ends that ends last. `news` counts the grants and ends that its master has not heard of."""

    number: int
    job: Job
    path: str
    groups: Dict[int, Group]
    later: Deque[Group]
    wanted: int
    live: int = 0
    granted: int = 0
    first: Optional[int] = None
    last: int = 0
    end: int = 0
    response: int = 0
    news: int = 0

    @classmethod
    def of(cls, number: int, job: Job, path: str) -> Application:
        """The application of a job. Tasks for the same resource, priority and place are one ask; of more than 256 asks
        the rest come once others are granted whole, those with smaller priority numbers first."""
        groups: Dict[Tuple[int, Resource, str], Group] = {}
        for task in job.tasks:
            key = (task.priority, task.resource, task.place)
            group = groups.setdefault(key, Group(len(groups), *key))
            group.add(task.count, task.duration)
        in_order = sorted(groups.values(), key=lambda group: (group.priority, group.request_id))
        later = deque(in_order[ASKS_MAX:])
        return cls(number, job, path, {it.request_id: it for it in in_order[:ASKS_MAX]}, later, job.containers)

    @property
    def is_over(self) -> bool:
        """Whether all of its containers were granted, and have ended."""
        return self.wanted == 0 and self.live == 0

    def begin(self, request_id: int, at: int) -> int:
        """A container for an ask begins: how long it runs, in milliseconds."""
        group = self.groups[request_id]
        duration = group.take()
        if group.wanted == 0:
            del self.groups[request_id]
        if self.first is None:
            self.first = at
        self.last, self.end = at, max(self.end, at + duration)
        self.wanted -= 1
        self.live += 1
        self.granted += 1
        return duration

    def next_asks(self) -> List[Ask]:
        """The asks for which there is room now, and was none before."""
        asks = []
        while self.later and len(self.groups) < ASKS_MAX:
            group = self.later.popleft()
            self.groups[group.request_id] = group
            asks.append(group.ask())
        return asks
