"""Node managers and application masters that keep their response ids, and go on over a new connection where one broke.

    from functools import partial
    from capsched import Ask, Connection, Grant, Master, Resource

    with Master(partial(Connection.to_port, 7070), "root.default", "ann") as master:
        master.ask(Ask(1, 1, 2, Resource(1024, 1)))
        for event in master.follow(every=1.0):
            print(event)  # each Grant, and each End, as it comes

A request whose reply was lost is sent once more, over a new connection: the same request with the same response id,
which the scheduler processes once. Where that fails too, OSError is raised, and the same call can be made again
later."""
from __future__ import annotations

import time
from typing import Callable, Dict, Iterator, List, Optional, Sequence, Tuple, TypeVar, Union

from .connection import Connection, Ended
from .messages import (
    ASKS_MAX, CONTAINERS_MAX, VERSION, Allocate, AllocateReply, Allocations, Ask, BadReply, End, FinishMaster, Grant,
    Heartbeat, HeartbeatReply, NodeGone, Refusal, Refused, RegisterMaster, RegisterNode, Request, Resource, Submit,
)

Connect = Callable[[], Connection]
T = TypeVar("T")
OF_ASKS = (Refusal.ASK_TOO_LARGE, Refusal.TOO_MANY_ASKS)


class Link:
    """A connection that is opened anew once it has broken. `lost` is the last request whose reply did not come."""

    def __init__(self, connect: Connect) -> None:
        self._connect = connect
        self._connection: Optional[Connection] = None
        self.lost: Optional[Request[object]] = None

    @property
    def version(self) -> int:
        """The version of messages that is spoken."""
        return self._connection.version if self._connection else VERSION

    def call_once(self, request: Request[T]) -> T:
        """Sends a request and waits for its reply. OSError where the connection broke: whether it was processed is then
        not known."""
        if self._connection is None:
            self._connection = self._connect()
        try:
            return self._connection.call(request)
        except (OSError, BadReply):
            self.lost = request
            self.close()
            raise

    def call(self, request: Request[T]) -> T:
        """The same, but where the connection broke the request is sent once more over a new one."""
        if self._connection is not None:
            try:
                return self.call_once(request)
            except OSError:
                pass  # a new connection may do better
        return self.call_once(request)

    def call_or_done(self, request: Request[T], refusal: Refusal) -> Optional[T]:
        """The same for a request that is processed but once. None where its reply was lost, and it is now refused as
        one that was processed before."""
        try:
            return self.call(request)
        except Refused as refused:
            if refused.refusal is not refusal or self.lost != request:
                raise
            self.lost = None
            return None

    def close(self) -> None:
        if self._connection is not None:
            self._connection.close()
            self._connection = None


class Linked:
    """What a master and a node manager have in common: a connection, which ends where a `with` ends."""

    def __init__(self, connect: Connect) -> None:
        self._link = Link(connect)

    def close(self) -> None:
        """Ends the connection. The scheduler keeps what is registered; a later call opens a new connection."""
        self._link.close()

    def __exit__(self, *_: object) -> None:
        self.close()

    def _begin(self, request: Request[T], what: str) -> T:
        """The first call. `Ended` where its reply was lost: sent again it might be processed twice."""
        try:
            return self._link.call_once(request)
        except OSError as fault:
            if self._link.lost is None:
                raise  # nothing was sent
            raise Ended(f"whether {what} is not known, the connection broke: {fault}") from fault
        except Refused:
            self.close()
            raise


class Master(Linked):
    """An application with its master. `app` is its number, `allocations` what a container may have (None where that
    reply was lost), and `containers` has the grant of each container that was granted and has not ended, as far as was
    heard."""

    def __init__(self, connect: Connect, queue: str, user: str) -> None:
        """Submits an application to a leaf queue and registers its master. `connect` opens a connection; it is called
        again once that has broken. OSError where it can't; `Ended` where the reply to the submission was lost. Refused:
        UnknownQueue, NotLeaf, QueueStopped, TooManyApplications, NumbersSpent."""
        super().__init__(connect)
        self.app: int = self._begin(Submit(queue, user), f"an application was submitted to {queue}")
        self.allocations: Optional[Allocations] = self._register()
        self.containers: Dict[int, Grant] = {}
        self.has_finished = False
        self._response = 0
        self._asks: Dict[Tuple[int, int], Ask] = {}
        self._releases: List[int] = []
        self._unanswered: Optional[Allocate] = None

    def __enter__(self) -> Master:
        return self

    def ask(self, *asks: Ask) -> None:
        """Asks with the next `allocate`. ValueError where a part does not fit its field."""
        for ask in asks:
            Allocate(self.app, 0, [ask]).payload(0, self._link.version)
            self._asks[ask.priority, ask.request_id] = ask

    def take_back(self, priority: int, request_id: int) -> None:
        """Takes an ask back with the next `allocate`. What was granted for it stays."""
        self.ask(Ask(priority, request_id, 0, Resource(0, 0)))

    def release(self, *containers: int) -> None:
        """Releases containers with the next `allocate`. ValueError where a number does not fit its field."""
        for container in containers:
            Allocate(self.app, 0, [], [container]).payload(0)
            self._releases.append(container)

    def allocate(self) -> AllocateReply:
        """Tells the scheduler what waits, at most 256 asks and 1,024 releases, and hears what is new.

        OSError where the connection broke twice, and then the next call sends the same once more. Refused: AskTooLarge
        or TooManyAsks, and then `Refused.request` has the asks, which are dropped, while releases go with the next
        call; UnknownApplication where the application has finished, or the scheduler is another one by now."""
        if self._unanswered is None:
            self._unanswered = self._next()
        request = self._unanswered
        try:
            reply = self._link.call(request)
        except Refused as refused:
            if refused.refusal in OF_ASKS:
                self._unanswered = None
                self._releases[:0] = request.releases
            raise
        self._unanswered, self._response = None, reply.response
        self.containers.update((grant.container, grant) for grant in reply.grants)
        for end in reply.ends:
            self.containers.pop(end.container, None)
        return reply

    def follow(self, every: float = 1.0) -> Iterator[Union[Grant, End]]:
        """Each grant and each end, as it comes, until the application finishes. Where there was nothing new it looks
        again after so many seconds. The errors are those of `allocate`."""
        while not self.has_finished:
            reply = self.allocate()
            yield from reply.grants
            yield from reply.ends
            if not (reply.grants or reply.ends or self._asks or self._releases or self.has_finished):
                time.sleep(every)

    def finish(self) -> Optional[int]:
        """Ends the application, and its containers with it: how many. None where the reply was lost, and so is not
        known. OSError where the connection broke twice. Refused: UnknownApplication where it has finished before."""
        ended = self._link.call_or_done(FinishMaster(self.app), Refusal.UNKNOWN_APPLICATION)
        self.has_finished = True
        self.containers.clear()
        return ended

    def _register(self) -> Optional[Allocations]:
        try:
            return self._link.call_or_done(RegisterMaster(self.app), Refusal.ALREADY_REGISTERED)
        except OSError as fault:
            raise Ended(f"application {self.app} is submitted, and its master is not registered: {fault}") from fault

    def _next(self) -> Allocate:
        """The next request, of what waits."""
        asks = list(self._asks.values())[:ASKS_MAX]
        for ask in asks:
            del self._asks[ask.priority, ask.request_id]
        releases = take(self._releases, CONTAINERS_MAX)
        return Allocate(self.app, self._response, asks, releases)


class NodeManager(Linked):
    """A node of the cluster. `node` is its number."""

    def __init__(self, connect: Connect, host: str, rack: str, total: Resource) -> None:
        """Registers the node. A rack begins with `/`, a host doesn't. `connect` opens a connection; it is called again
        once that has broken. OSError where it can't; `Ended` where the reply was lost. Refused: HostTaken,
        TotalTooLarge, TooManyNodes, ZeroResource, NumbersSpent."""
        super().__init__(connect)
        self.node: int = self._begin(RegisterNode(host, rack, total), f"node {host} was registered")
        self._response = 0
        self._ended: List[int] = []
        self._unanswered: Optional[Heartbeat] = None

    def __enter__(self) -> NodeManager:
        return self

    def complete(self, *containers: int) -> None:
        """Reports containers as ended with the next `heartbeat`. ValueError where a number does not fit its field."""
        for container in containers:
            Heartbeat(self.node, 0, [container]).payload(0)
            self._ended.append(container)

    def heartbeat(self) -> HeartbeatReply:
        """Reports the containers that have ended, at most 1,024; the next call reports the others. OSError where the
        connection broke twice, and then the next call sends the same once more. Refused: UnknownNode where the node was
        declared lost, or the scheduler is another one by now; it is then registered again as a new `NodeManager`."""
        if self._unanswered is None:
            self._unanswered = Heartbeat(self.node, self._response, take(self._ended, CONTAINERS_MAX))
        reply = self._link.call(self._unanswered)
        self._unanswered, self._response = None, reply.response
        return reply

    def leave(self) -> Optional[int]:
        """Declares the node lost: how many containers ended with it. None where the reply was lost, and so is not
        known. OSError where the connection broke twice. Refused: UnknownNode where it was lost before."""
        return self._link.call_or_done(NodeGone(self.node), Refusal.UNKNOWN_NODE)


def take(waiting: List[int], most: int) -> Sequence[int]:
    """Takes the first of what waits."""
    taken = waiting[:most]
    del waiting[:most]
    return taken
