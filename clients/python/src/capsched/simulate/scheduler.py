"""The scheduler itself in simulated time: `capsched replay`, in which one worker takes its turns when it is told to."""
from __future__ import annotations

from typing import Dict, List, NamedTuple, Sequence, Tuple

from ..connection import Connection
from ..messages import Allocate, AllocateReply, Fields, Resource
from ..replaying import Replay

STARTS = 1 << 32  # a worker's starting node is counted modulo this
NOTHING = "proposed 0 none"


class Unexpected(RuntimeError):
    """The scheduler has answered what no run of this kind can be answered."""


class Proposal(NamedTuple):
    """What a turn of the worker has made: a container, or a reservation, which has the container number 0."""

    container: int
    app: int
    request_id: int
    node: int
    resource: Resource


class Inform(Allocate):
    """An Allocate that takes news off the scheduler, which are known here, and reads none of them."""

    def take_body(self, fields: Fields) -> AllocateReply:
        response, ignored = fields.take("IH")
        fields.at = len(fields.data)
        return AllocateReply(response, ignored, [], [])


class Frames:
    """The bytes of the one connection, among the lines of the script. All requests before a turn are read before it."""

    def __init__(self, replay: Replay) -> None:
        self._replay, self._came = replay, b""

    def send(self, data: bytes) -> None:
        self._replay.send(f"bytes 1 {data.hex()}")

    def receive(self, count: int) -> bytes:
        while len(self._came) < count:
            line = self._replay.read_line()
            if not line.startswith("out 1 "):
                raise Unexpected(f"a reply is expected, and not {line}")
            self._came += bytes.fromhex(line[6:])
        data, self._came = self._came[:count], self._came[count:]
        return data

    def close(self) -> None:
        self._replay.close()


class Scheduler:
    """A cluster with one connection, which brings the requests of all masters and nodes, and one worker. After each
    turn in which it proposes something it begins one node further on."""

    def __init__(self, command: Sequence[str], settings: Sequence[str]) -> None:
        """`command` is that of `capsched replay`, `settings` are property lines without a fault. OSError where the
        program can't be started, `Ended` where it ends."""
        self._replay = Replay(command, settings)
        self._replay.send("open 1")
        self._replay.read_line()
        self.connection = Connection(Frames(self._replay))
        self._resources: Dict[str, Resource] = {}  # by how they are printed
        self._start, self._sent = 0, 0

    def send_turns(self, count: int) -> None:
        """Sends so many turns of the worker, after the requests that were sent before."""
        for start in range(self._start, self._start + count):
            self._replay.send(f"copy 0\npropose 0 {start % STARTS}\ncommit 0")
        self._sent += count
        self._replay.flush()

    def read_turns(self) -> Tuple[List[Proposal], bool]:
        """What the turns that were sent have made, and whether one has proposed nothing: then so do all after it. The
        replies to requests that were sent before must have been read."""
        lines = self._replay.read_lines(3 * self._sent)
        self._sent = 0
        made: List[Proposal] = []
        for proposed, tried in zip(lines[1::3], lines[2::3]):
            if proposed == NOTHING:
                return made, True
            made.append(self._made(proposed, tried))
            self._start += 1
        return made, False

    def close(self) -> None:
        """Ends the program."""
        self._replay.close()

    def _made(self, proposed: str, tried: str) -> Proposal:
        """What a turn made, from what its proposal and its commit print."""
        _, _, kind, app, _, request_id, node, amounts = proposed.split(" ", 7)
        verdict = tried.split(" ")
        if verdict[0] != "done" or verdict[2] != kind:
            raise Unexpected(f"nothing has changed since `{proposed}`, and it comes to `{tried}`")
        resource = self._resources.get(amounts)
        if resource is None:
            resource = self._resources[amounts] = Resource(*map(int, amounts.split(" ")))
        return Proposal(int(verdict[3]) if kind == "grant" else 0, int(app), int(request_id), int(node), resource)
