"""A connection to the scheduler: requests go out, and replies come in, in the same order.

Each call sends one request and waits for its reply; a refusal is raised as `Refused`, with its number and its name. To
have several requests in flight, `send` them and ask each `Pending` for its `result` later."""
from __future__ import annotations

import socket
from collections import deque
from typing import Deque, Generic, Optional, Protocol, Sequence

from .messages import (
    PAYLOAD_MAX, VERSION, Allocate, AllocateReply, Allocations, Ask, BadReply, ClusterInfo, ClusterReport,
    FinishMaster, Heartbeat, HeartbeatReply, NodeGone, QueueInfo, QueueReport, Refresh, RegisterMaster, RegisterNode,
    Request, Resource, SetQueueState, Submit, T_co, frame,
)

IN_FLIGHT = 64


class Ended(ConnectionError):
    """The other side has ended the connection before all replies came."""


class Stream(Protocol):
    """The bytes of a connection, both ways."""

    def send(self, data: bytes) -> None:
        """Sends all of the bytes."""

    def receive(self, count: int) -> bytes:
        """The next `count` bytes; fewer where the stream has ended."""

    def close(self) -> None:
        """Ends the stream on both ways."""


class Pending(Generic[T_co]):
    """A request that was sent, and its reply once it has come."""

    def __init__(self, connection: Connection, request: Request[T_co], call_id: int, version: int) -> None:
        self._connection, self._request, self._call_id, self._version = connection, request, call_id, version
        self._payload: Optional[bytes] = None

    def result(self) -> T_co:
        """What the request is answered. Waits until the reply has come. `Refused` where it was refused, `Ended` where
        the connection ended before, `BadReply` where other bytes came."""
        while self._payload is None:
            self._connection._receive_next()
        return self._request.reply(self._payload, self._call_id, self._version)


class Connection:
    """One connection: requests go out with rising call ids, and replies come in, in the same order. It is not to be
    shared by threads."""

    def __init__(self, stream: Stream, version: int = VERSION) -> None:
        """`version` is 1 or 2: what the requests are spelled in, from the next one on where it is set later."""
        self._stream, self._call_id, self.version = stream, 0, version
        self._waiting: Deque[Pending[object]] = deque()

    @classmethod
    def to_port(
        cls, port: int, host: str = "127.0.0.1", timeout: Optional[float] = None, version: int = VERSION
    ) -> Connection:
        """A connection to `capsched serve`. OSError where nobody listens there; with a timeout, in seconds, also where
        a reply takes longer."""
        try:
            stream = socket.create_connection((host, port), timeout)
        except ConnectionRefusedError:
            raise ConnectionRefusedError(
                f"nothing listens on {host}:{port}: start `capsched serve --port {port}`; where it runs already, give "
                "it more --connections: it accepts that many in all"
            ) from None
        return cls(SocketStream(stream), version)

    def send(self, request: Request[T_co]) -> Pending[T_co]:
        """Sends a request and does not wait for its reply. Where 64 wait already, the oldest is received first: neither
        side so waits for the other to read."""
        while len(self._waiting) >= IN_FLIGHT:
            self._receive_next()
        self._call_id = self._call_id % 0xFFFF_FFFF + 1
        self._stream.send(frame(request.payload(self._call_id, self.version)))
        pending = Pending(self, request, self._call_id, self.version)
        self._waiting.append(pending)
        return pending

    def call(self, request: Request[T_co]) -> T_co:
        """Sends a request and waits for its reply."""
        return self.send(request).result()

    def submit(self, path: str, user: str) -> int:
        """Submits an application to a leaf queue: its number. Refused: UnknownQueue, NotLeaf, QueueStopped,
        TooManyApplications, NumbersSpent."""
        return self.call(Submit(path, user))

    def register_master(self, app: int) -> Allocations:
        """Registers an application's master, once. Refused: UnknownApplication, AlreadyRegistered."""
        return self.call(RegisterMaster(app))

    def allocate(
        self, app: int, response: int, asks: Sequence[Ask] = (), releases: Sequence[int] = ()
    ) -> AllocateReply:
        """Asks for containers, gives containers back, and hears what is new. `response` is the id of the reply before,
        0 at first; the same id again gets the kept reply again. Refused: UnknownApplication, NotRegistered,
        BadResponseId, AskTooLarge, TooManyAsks."""
        return self.call(Allocate(app, response, asks, releases))

    def finish_master(self, app: int) -> int:
        """Ends an application: how many containers ended with it. Refused: UnknownApplication, NotRegistered."""
        return self.call(FinishMaster(app))

    def register_node(self, host: str, rack: str, total: Resource) -> int:
        """Registers a node: its number. A rack begins with `/`, a host doesn't. Refused: HostTaken, TotalTooLarge,
        TooManyNodes, ZeroResource, NumbersSpent."""
        return self.call(RegisterNode(host, rack, total))

    def heartbeat(self, node: int, response: int, ended: Sequence[int] = ()) -> HeartbeatReply:
        """Reports containers that have ended on a node. `response` is the id of the reply before, 0 at first. Refused:
        UnknownNode, BadResponseId."""
        return self.call(Heartbeat(node, response, ended))

    def node_gone(self, node: int) -> int:
        """Declares a node lost: how many containers ended with it. Refused: UnknownNode."""
        return self.call(NodeGone(node))

    def queue_info(self, path: str) -> QueueReport:
        """What there is of a queue. Refused: UnknownQueue."""
        return self.call(QueueInfo(path))

    def set_queue_state(self, path: str, running: bool) -> None:
        """Starts or stops a queue. Refused: UnknownQueue."""
        self.call(SetQueueState(path, running))

    def cluster_info(self) -> ClusterReport:
        """What there is in all."""
        return self.call(ClusterInfo())

    def refresh(self, lines: str) -> None:
        """Sets all settings to those of property lines, at most 65,526 bytes. Nothing that runs ends. Refused:
        BadSettings, OtherQueues."""
        self.call(Refresh(lines))

    def close(self) -> None:
        """Ends the connection; what waits for a reply gets none."""
        self._stream.close()

    def __enter__(self) -> Connection:
        return self

    def __exit__(self, *_: object) -> None:
        self.close()

    def _receive_next(self) -> None:
        length = int.from_bytes(self._receive(4), "big")
        if not 0 < length <= PAYLOAD_MAX:
            raise BadReply(f"{length} is no length of a frame: is this the port of `capsched serve`?")
        self._waiting[0]._payload = self._receive(length)
        self._waiting.popleft()

    def _receive(self, count: int) -> bytes:
        data = self._stream.receive(count)
        if len(data) < count:
            raise Ended("the connection has ended before all replies came: the daemon has ended, or given it up")
        return data


class SocketStream:
    """The bytes of a connection to `capsched serve`."""

    def __init__(self, stream: socket.socket) -> None:
        stream.setsockopt(socket.IPPROTO_TCP, socket.TCP_NODELAY, 1)
        self._stream, self._reader = stream, stream.makefile("rb")

    def send(self, data: bytes) -> None:
        self._stream.sendall(data)

    def receive(self, count: int) -> bytes:
        return self._reader.read(count) or b""

    def close(self) -> None:
        self._reader.close()
        self._stream.close()
