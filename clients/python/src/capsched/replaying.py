"""`capsched replay` as a process of its own: a cluster without threads, in which connections and workers take their
steps one after the other."""
from __future__ import annotations

import os
import select
import subprocess
from collections import deque
from typing import Deque, List, Sequence

from .connection import Connection, Ended
from .messages import VERSION

CHUNK = 1 << 18
LAST_WORDS = ("config ", "bad line ", "no memory")  # what the last line begins with where it ends by itself


class Replay:
    """A cluster in which steps are taken in the order of these calls. `settings` are property lines.

        with Replay(["./capsched", "replay"], ["yarn.scheduler.capacity.root.queues=default"]) as cluster:
            node = cluster.connect().register_node("n1", "/r1", Resource(8192, 8))
            cluster.turn(0)

    Whoever has many lines takes `send` and `read_line` in place of the other calls: a line is written without waiting
    for what it prints, so thousands are in flight. What is printed comes in the order of the lines."""

    def __init__(self, command: Sequence[str], settings: Sequence[str] = ()) -> None:
        """OSError where the program can't be started."""
        self._process = subprocess.Popen(list(command), stdin=subprocess.PIPE, stdout=subprocess.PIPE, bufsize=0)
        assert self._process.stdin and self._process.stdout
        self._input, self._output = self._process.stdin, self._process.stdout
        for end in (self._input, self._output):
            os.set_blocking(end.fileno(), False)
        self._reading, self._both = select.poll(), select.poll()
        self._reading.register(self._output, select.POLLIN)
        self._both.register(self._output, select.POLLIN)
        self._both.register(self._input, select.POLLOUT)
        self._to_write, self._cut = bytearray(), b""  # lines that wait to be written, and the line that came in part
        self._printed: Deque[bytes] = deque()
        self._has_ended = False
        self._streams: List[ReplayStream] = []
        for line in settings:
            self.send(f"conf {line}")

    def send(self, line: str) -> None:
        """Adds a line of the script. It is written together with others: where `read_line` waits for what is printed,
        where some 256 KB have come together, or by `flush`. ValueError where it is not ASCII; `Ended` where the program
        has ended."""
        if self._has_ended:
            raise Ended("the replay has ended")
        self._to_write += line.encode("ascii")
        self._to_write += b"\n"
        if len(self._to_write) >= CHUNK:
            self.flush()

    def flush(self) -> None:
        """Writes all lines that wait. What is printed meanwhile is kept for `read_line`, so neither side waits for the
        other."""
        while self._to_write:
            self._exchange()

    def read_line(self) -> str:
        """The next line that the program prints, without its line feed; waits until it is there. `Ended` where the
        program has ended, with its last words."""
        while not self._printed:
            if self._has_ended:
                raise Ended("the replay has ended")
            self._exchange()
        line = self._printed.popleft().decode("ascii")
        if line.startswith(LAST_WORDS):
            raise Ended(f"the replay has ended: {line}")
        return line

    def read_lines(self, count: int) -> List[str]:
        """The next so many lines, as of `read_line`."""
        while len(self._printed) < count:
            if self._has_ended:
                return [self.read_line() for _ in range(count)]  # which raises what has ended it
            self._exchange()
        lines = [self._printed.popleft() for _ in range(count)]
        return b"\n".join(lines).decode("ascii").split("\n")

    def connect(self, version: int = VERSION) -> Connection:
        """Opens the next connection."""
        stream = ReplayStream(self, len(self._streams) + 1)
        self._streams.append(stream)
        self.step(f"open {len(self._streams)}")
        return Connection(stream, version)

    def copy(self, worker: int) -> None:
        """A worker, 0 to 63, copies the cluster."""
        self.step(f"copy {worker}")

    def propose(self, worker: int, start: int = 0) -> List[str]:
        """The worker proposes on its copy, from the node at this position on: the words after `proposed <worker>`, as
        `["none"]`."""
        return self.step(f"propose {worker} {start}").split()[2:]

    def commit(self, worker: int) -> List[str]:
        """The worker's proposal is tried: the words of the answer, as `["done", "0", "grant", "1"]`, or `["idle"]`
        where there is none."""
        return self.step(f"commit {worker}").split()

    def turn(self, worker: int, start: int = 0) -> List[str]:
        """A whole turn of a worker: a copy, a proposal, and its commit. What `commit` answers."""
        self.copy(worker)
        self.propose(worker, start)
        return self.commit(worker)

    def step(self, line: str) -> str:
        """A line of the script, and what it prints after the frames of its connection, which go to the connection. What
        was sent before must have been read."""
        self.send(line)
        while True:
            printed = self.read_line()
            if printed.startswith("out "):
                _, number, frame = printed.split(" ")
                self._streams[int(number) - 1].came += bytes.fromhex(frame)
            elif not printed.startswith("ended "):
                return printed

    def close(self) -> int:
        """Ends the script: the exit status. What is printed until then, and was not read, is dropped."""
        if not self._output.closed:
            self.flush()
            self._input.close()
            os.set_blocking(self._output.fileno(), True)
            while self._output.read(CHUNK):
                pass
            self._output.close()
        return self._process.wait()

    def __enter__(self) -> Replay:
        return self

    def __exit__(self, *_: object) -> None:
        self.close()

    def _exchange(self) -> None:
        """Waits until the program prints, or reads what waits to be written, and takes or writes what can be."""
        ready = {end for end, _ in (self._both if self._to_write else self._reading).poll()}
        if self._output.fileno() in ready:
            self._take()
        if self._input.fileno() in ready:
            self._write()

    def _take(self) -> None:
        data = self._output.read(CHUNK)
        if data == b"":
            self._has_ended = True
            self._to_write.clear()
        elif data:
            *lines, self._cut = (self._cut + data).split(b"\n")
            self._printed.extend(lines)

    def _write(self) -> None:
        try:
            written = self._input.write(self._to_write) or 0
        except BrokenPipeError:
            written = len(self._to_write)  # it has ended; why, it has printed
        del self._to_write[:written]


class ReplayStream:
    """The bytes of one connection of a `Replay`."""

    def __init__(self, replay: Replay, number: int) -> None:
        self._replay, self._number, self.came = replay, number, b""

    def send(self, data: bytes) -> None:
        self._replay.send(f"bytes {self._number} {data.hex()}")

    def receive(self, count: int) -> bytes:
        if len(self.came) < count:
            # a step that does nothing: what is printed before its answer are the frames of the steps before
            self._replay.step("commit 64")
        data, self.came = self.came[:count], self.came[count:]
        return data

    def close(self) -> None:
        self._replay.step(f"end {self._number}")
