"""The nodes while jobs are played: what runs on them, what they have left, and when they beat."""
from __future__ import annotations

from heapq import heappop, heappush
from typing import Dict, Iterator, List, NamedTuple, Optional, Sequence, Set, Tuple

from ..messages import Resource
from .jobs import Amounts, NodeSpec, fits


class Running(NamedTuple):
    """A container that its node has not reported as ended."""

    container: int
    app: int
    resource: Resource


class Reservation(NamedTuple):
    """Room that a node keeps for an application, since when, in milliseconds."""

    app: int
    resource: Resource
    since: int


class Nodes:
    """All nodes, by their numbers from 1. Each beats every `period` milliseconds, out of step by number. A beat that
    has nothing to report changes nothing, and is passed over."""

    def __init__(self, specs: Sequence[NodeSpec], period: int) -> None:
        self.specs, self._period = specs, period
        self._free = [Amounts(it.total.memory, it.total.vcores, it.total.gpus) for it in specs]
        self._reservations: Dict[int, Reservation] = {}
        self._blocked: Set[int] = set()  # those that keep room for what does not fit there yet
        self._beats: List[Tuple[int, int]] = []  # a heap of those that report something, each with its node
        self._due: Dict[Tuple[int, int], List[Running]] = {}  # what each of them reports

    def next_beat(self) -> Optional[int]:
        """The time of the next beat that reports something."""
        return self._beats[0][0] if self._beats else None

    @property
    def are_blocked(self) -> bool:
        """Whether each node keeps room for what does not fit there yet: then there is nothing to propose. A grant needs
        a node that keeps no room, or room for what fits, and a reservation a node that keeps none."""
        return self.unblocked == 0

    def launch(self, node: int, running: Running, end: int) -> None:
        """A container begins on a node, and ends at this time: it is reported at the first beat then or later."""
        beat = (end + ((node - 1) * self._period // len(self.specs) - end) % self._period, node)
        due = self._due.setdefault(beat, [])
        if not due:
            heappush(self._beats, beat)
        due.append(running)
        self._free[node - 1].add(running.resource, -1)
        self._look(node)

    def take_due(self, now: int) -> Iterator[Tuple[int, List[Running]]]:
        """What the nodes report that beat now, in order of node, and of container."""
        while self._beats and self._beats[0][0] == now:
            beat = heappop(self._beats)
            due = sorted(self._due.pop(beat))
            for it in due:
                self._free[beat[1] - 1].add(it.resource, 1)
            self._look(beat[1])
            yield beat[1], due

    def reserve(self, node: int, reservation: Reservation) -> None:
        """A node keeps room."""
        self._reservations[node] = reservation
        self._look(node)

    def unreserve(self, node: int) -> Optional[Reservation]:
        """The room that a node kept, which is a container's now. None where it kept none."""
        self._blocked.discard(node)
        return self._reservations.pop(node, None)

    def likely_proposals(self, node: int) -> int:
        """How many proposals are likely where containers have ended on a node: grants of what it keeps room for, as
        often as it fits there, and a reservation again."""
        if node in self._blocked:
            return 0
        reservation = self._reservations.get(node)
        return 1 + self._free[node - 1].count(reservation.resource) if reservation else 1

    @property
    def unblocked(self) -> int:
        """How many nodes may have something to propose."""
        return len(self.specs) - len(self._blocked)

    def _look(self, node: int) -> None:
        reservation = self._reservations.get(node)
        if reservation and not fits(reservation.resource, self._free[node - 1]):
            self._blocked.add(node)
        else:
            self._blocked.discard(node)
