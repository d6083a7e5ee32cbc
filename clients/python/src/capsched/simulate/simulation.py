"""Plays jobs through the scheduler in simulated time.

At each moment in which something happens, first the nodes that beat then report the containers that have ended, in
order of node; then the jobs that come then are submitted, in the order of the trace; then the worker takes turns until
it proposes nothing. A container begins when it is granted, and its room is free once its node has reported its end."""
from __future__ import annotations

from typing import Callable, Dict, Iterable, Iterator, List, Optional, Sequence

from ..connection import Pending
from ..messages import (
    AMOUNT_MAX, CONTAINERS_MAX, Allocate, AllocateReply, Allocations, Ask, FinishMaster, Heartbeat, HeartbeatReply,
    Refusal, Refused, RegisterMaster, RegisterNode, Resource, Submit,
)
from .applications import Application
from .jobs import Job, fits
from .nodes import Nodes, Reservation, Running
from .results import Results
from .scheduler import Inform, Proposal, Scheduler, Unexpected
from .settings import Limits

TURNS_FIRST, TURNS_MAX = 8, 64  # how many turns are sent at once, at first and later
NEWS_MAX = 64  # grants, or ends, in one reply to an Allocate
REPLIES_MAX = 1000  # to heartbeats, of which so many are not read before others
RESPONSES = 1 << 31
UNBOUNDED = Allocations(Resource(0, 0), Resource(AMOUNT_MAX, AMOUNT_MAX, AMOUNT_MAX))


class Simulation:
    """One cluster under one of the settings."""

    def __init__(
        self, scheduler: Scheduler, nodes: Nodes, resolve: Callable[[str], str], results: Results,
        show: Callable[[int], None],
    ) -> None:
        """Registers the nodes. `resolve` gives the path of a queue that a trace names; `show` is called with the time
        of each moment. `Refused` where a node is refused."""
        self._scheduler, self._connection, self._nodes = scheduler, scheduler.connection, nodes
        self._resolve, self._results, self._show = resolve, results, show
        registered = [self._connection.send(RegisterNode(it.host, it.rack, it.total)) for it in nodes.specs]
        if [it.result() for it in registered] != list(range(1, len(registered) + 1)):
            raise Unexpected("nodes are not numbered in order")
        self._responses = [0] * (len(registered) + 1)  # of each node
        self._apps: Dict[int, Application] = {}
        self._uninformed: Dict[int, Application] = {}  # with more news than one reply has
        self._unasked: Dict[int, Application] = {}  # with asks that come later
        self._reporting: List[Pending[HeartbeatReply]] = []
        self._finishing: List[Pending[int]] = []
        self._hearing: List[Pending[AllocateReply]] = []
        self._coming: Iterator[Job] = iter(())
        self._job: Optional[Job] = None  # the next one
        self._allocations = UNBOUNDED
        self._wanted = 0

    def limits(self) -> Limits:
        """What a container must fit here."""
        return Limits(self._nodes.specs, self._results.reports, self._allocations)

    def play(self, jobs: Iterable[Job]) -> None:
        """Plays jobs, which come in order of time, until nothing is left to happen. Applications that are left then
        wait for what they are never granted. Unexpected where the scheduler has another cluster than is counted
        here."""
        self._coming, now = iter(jobs), 0
        self._job = next(self._coming, None)
        while True:
            times = [self._nodes.next_beat(), self._job.submit if self._job else None]
            if times == [None, None]:
                break
            now = min(time for time in times if time is not None)
            if len(self._reporting) > REPLIES_MAX:
                self._read_replies()
            self._show(now)
            self._results.sample_before(now)
            self._inform()
            likely = self._report_ends(now) + self._submit_all(now)
            self._schedule(now, likely)
        self._read_replies()
        self._results.sample_last(now)
        self._results.finish(list(self._apps.values()))

    def _schedule(self, now: int, likely: int) -> None:
        """The worker takes turns until there is nothing to propose. So many proposals are likely; that the worker
        proposes nothing is asked for only where that is not known otherwise."""
        taken, count = 0, min(likely, TURNS_FIRST)
        while self._wanted and not self._nodes.are_blocked:
            self._scheduler.send_turns(min(max(count, 1), TURNS_MAX, self._wanted))
            self._read_replies()
            made, is_done = self._scheduler.read_turns()
            for proposal in made:
                self._carry_out(proposal, now)
            taken += len(made)
            if is_done and not self._ask_more():
                return
            count = max(taken, 2)
        self._ask_more()

    def _report_ends(self, now: int) -> int:
        """The nodes that beat now report what has ended; applications whose containers have all ended finish. How many
        turns are likely to be needed then."""
        likely = nodes = 0
        for node, due in self._nodes.take_due(now):
            for first in range(0, len(due), CONTAINERS_MAX):
                ended = [it.container for it in due[first:first + CONTAINERS_MAX]]
                self._reporting.append(self._connection.send(Heartbeat(node, self._responses[node], ended)))
                self._responses[node] = (self._responses[node] + 1) % RESPONSES
            for it in due:
                self._count_end(self._apps[it.app])
            likely += self._nodes.likely_proposals(node)
            nodes += 1
        return likely + (self._nodes.unblocked > nodes)

    def _count_end(self, app: Application) -> None:
        app.live -= 1
        self._count_news(app)
        if app.is_over:
            self._finishing.append(self._connection.send(FinishMaster(app.number)))
            del self._apps[app.number]
            self._uninformed.pop(app.number, None)
            self._results.ended(app)

    def _submit_all(self, now: int) -> int:
        """Submits the jobs that come now, and asks for their containers. How many proposals are likely then."""
        jobs: List[Job] = []
        while self._job and self._job.submit == now:
            jobs.append(self._job)
            self._job = next(self._coming, None)
        paths = [self._resolve(job.queue) for job in jobs]
        submitted = [self._connection.send(Submit(path, job.user)) for path, job in zip(paths, jobs)]
        for job, path, pending in zip(jobs, paths, submitted):
            try:
                app = Application.of(pending.result(), job, path)
            except Refused as refused:
                self._results.refused(job, path, refused.refusal)
            else:
                self._ask_first(app)
        return sum(job.containers for job in jobs)

    def _ask_first(self, app: Application) -> None:
        """Asks for an application's containers. Where one ask is refused it is taken out again."""
        try:
            self._allocations = self._connection.call(RegisterMaster(app.number))
            if not all(fits(group.resource, self._allocations.maximum) for group in app.later):
                raise Refused(Refusal.ASK_TOO_LARGE)
            self._connection.call(Allocate(app.number, app.response, [group.ask() for group in app.groups.values()]))
        except Refused as refused:
            self._connection.call(FinishMaster(app.number))
            self._results.refused(app.job, app.path, refused.refusal)
            return
        app.response += 1
        self._apps[app.number] = app
        if app.later:
            self._unasked[app.number] = app
        self._wanted += app.wanted
        self._results.submitted(app)

    def _carry_out(self, made: Proposal, now: int) -> None:
        """A container begins, or room is reserved."""
        app = self._apps[made.app]
        if not made.container:
            self._nodes.reserve(made.node, Reservation(made.app, made.resource, now))
            self._results.reserve(app, made.resource)
            return
        reservation = self._nodes.unreserve(made.node)
        if reservation:
            if reservation.app != made.app:
                raise Unexpected("a container is granted where room is reserved for another application")
            self._results.unreserve(app, reservation.resource, now - reservation.since)
        duration = app.begin(made.request_id, now)
        self._wanted -= 1
        self._count_news(app)
        self._nodes.launch(made.node, Running(made.container, made.app, made.resource), now + duration)
        self._results.granted(app, made.resource, duration)

    def _ask_more(self) -> bool:
        """Asks for what was more than an application may ask for at once: whether there was something."""
        is_more = False
        for app in list(self._unasked.values()):
            asks = app.next_asks()
            if asks:
                self._hear(app, asks)
                is_more = True
            if not app.later:
                del self._unasked[app.number]
        return is_more

    def _count_news(self, app: Application) -> None:
        app.news += 1
        if app.news >= NEWS_MAX:
            self._uninformed[app.number] = app

    def _inform(self) -> None:
        """Masters with much news take some of it, so that the scheduler keeps little of any."""
        for app in self._uninformed.values():
            while app.news >= NEWS_MAX:
                self._hear(app, [])
        self._uninformed.clear()

    def _hear(self, app: Application, asks: Sequence[Ask]) -> None:
        """An Allocate of an application's master, whose reply has at least 64 of its news."""
        self._hearing.append(self._connection.send(Inform(app.number, app.response, asks)))
        app.response = (app.response + 1) % RESPONSES
        app.news = max(0, app.news - NEWS_MAX)

    def _read_replies(self) -> None:
        """Reads the replies that were not read. Unexpected where the scheduler has another cluster than is counted
        here."""
        ignored = sum(it.result().ignored for it in self._reporting) + sum(it.result() for it in self._finishing)
        for it in self._hearing:
            it.result()
        if ignored:
            raise Unexpected("what has ended is not what the scheduler has as live")
        self._reporting.clear()
        self._finishing.clear()
        self._hearing.clear()
