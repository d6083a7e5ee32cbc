"""Reads traces of jobs, and files of nodes.

A trace is JSON as Hadoop's Scheduler Load Simulator reads it (objects one after the other, or in a list), or a CSV file
with the columns `submit_ms,queue,user,containers,duration_ms,memory,vcores`, and perhaps `gpus` and `priority`. It is
read piece by piece, so that a long one takes no memory. What it has that is not simulated goes to `Notes`."""
from __future__ import annotations

import csv
import json
from collections import Counter
from dataclasses import dataclass, field
from typing import Any, Callable, Dict, Iterator, List, Mapping, Optional, Set, TextIO, Tuple

from ..messages import AMOUNT_MAX, Resource
from .jobs import PRIORITY, Job, NodeSpec, Task

PIECE = 1 << 16  # how many characters of a JSON file are read at once
NUMBER_MAX = (1 << 32) - 1  # of a priority, and of how many containers a job asks for
TIME_MAX = 1 << 53  # of a time and a duration, in milliseconds
COLUMNS = ("submit_ms", "queue", "user", "containers", "duration_ms", "memory", "vcores", "gpus", "priority")
OPTIONAL_COLUMNS = ("gpus", "priority")
CONTAINER = Resource(1024, 1)  # where a task names none, as in Hadoop's simulator
AMOUNTS = {"memory-mb": "memory", "memory": "memory", "vcores": "vcores", "yarn.io/gpu": "gpus"}
# what is known of a job and a task, and changes nothing here
PAST = ("am.type", "job.end.ms")
KNOWN_OF_JOB = ("job.start.ms", "job.queue.name", "job.user", "job.id", "job.count", "job.tasks", *PAST)
KNOWN_OF_TASK = ("container.host", "container.start.ms", "container.end.ms", "duration.ms", "container.duration.ms",
                 "count", "container.priority", *(f"container.{name}" for name in AMOUNTS))
WHY = {
    "container.type": "the containers of a job are all asked for when it is submitted, reduces with maps",
    "container.delay.ms": "the containers of a job are all asked for when it is submitted",
    "container.request.delay": "the containers of a job are all asked for when it is submitted",
    "container.execution.type": "there are no opportunistic containers: all are guaranteed",
    "container.request.id": "allocation request ids are given in the order of the trace",
    "container.allocation.id": "allocation request ids are given in the order of the trace",
    "job.label.expression": "there are no node labels",
    "am.node.label": "there are no node labels",
    "labels": "there are no node labels",
}


class TraceFault(ValueError):
    """A trace or a file of nodes can't be read: says where, and what is expected there."""


@dataclass
class Notes:
    """What a trace has and is passed over: by what it is, how often, and where it stands first. With `is_strict` it is
    refused."""

    is_strict: bool = False
    counts: Dict[str, Tuple[int, str]] = field(default_factory=dict)

    def leave_out(self, what: str, where: str) -> None:
        """Counts what is passed over. TraceFault where that is refused."""
        if self.is_strict:
            raise TraceFault(f"{where}: {what}")
        count, first = self.counts.get(what, (0, where))
        self.counts[what] = (count + 1, first)

    def lines(self) -> List[str]:
        """A line for each thing that was passed over."""
        return [f"passed over {'once' if count == 1 else f'{count} times'}, first at {first}: {what}"
                for what, (count, first) in self.counts.items()]


def read_jobs(file: str, notes: Notes, hosts: Set[str]) -> Iterator[Job]:
    """The jobs of a trace, in its order. A host that is asked for and not among `hosts` is passed over.
    TraceFault where it can't be read, OSError where the file can't."""
    with open(file, encoding="utf-8-sig", newline="") as text:
        try:
            if is_json(text):
                yield from read_sls_jobs(file, text, notes, hosts)
            else:
                yield from read_csv_jobs(file, text, notes)
        except UnicodeDecodeError as fault:
            raise TraceFault(f"{file}: no text in UTF-8: {fault}") from None


def is_json(text: TextIO) -> bool:
    """Whether the first character that is no blank begins an object or a list. The text stands at its beginning
    again."""
    first = next((it for line in iter(text.readline, "") for it in line if not it.isspace()), "")
    text.seek(0)
    return first in ("{", "[")


def read_csv_jobs(file: str, text: TextIO, notes: Notes) -> Iterator[Job]:
    rows = csv.DictReader(text, strict=True)
    try:
        head = [name.strip() for name in rows.fieldnames or []]
        rows.fieldnames = head
        missing = [name for name in COLUMNS if name not in head and name not in OPTIONAL_COLUMNS]
        if missing or len(set(head)) != len(head):
            twice = f"no column {', '.join(missing)}" if missing else "a column stands twice"
            raise TraceFault(f"{file}: line 1: {twice}: the columns are {','.join(COLUMNS)}")
        for name in head:
            if name not in COLUMNS:
                notes.leave_out(f"column {name}: not known here", f"{file}: line 1")
        for number, row in enumerate(rows, 1):
            where = f"{file}: line {rows.line_num}"
            if None in row or None in row.values():
                raise TraceFault(f"{where}: a row has {len(head)} values, as the first line has columns")
            yield csv_job(str(number), where, row)
    except csv.Error as fault:
        raise TraceFault(f"{file}: line {rows.reader.line_num}: {fault}") from None


def csv_job(name: str, where: str, row: Mapping[str, str]) -> Job:
    fields = Checked(where, {key: value.strip() for key, value in row.items() if key and value and value.strip()})
    resource = Resource(*(fields.number(it, 0, AMOUNT_MAX, 0 if it == "gpus" else None) for it in COLUMNS[5:8]))
    task = Task(fields.number("containers", 1, NUMBER_MAX), fields.number("duration_ms", 1, TIME_MAX),
                fields.resource(resource), fields.number("priority", 0, NUMBER_MAX, PRIORITY))
    submit = fields.number("submit_ms", 0, TIME_MAX)
    return Job(name, where, submit, fields.text("queue", 255), fields.text("user", 64), [task])


def read_sls_jobs(file: str, text: TextIO, notes: Notes, hosts: Set[str]) -> Iterator[Job]:
    number = 0
    for line, found in read_objects(file, text):
        where = f"{file}: line {line}"
        if "num.nodes" in found:
            continue  # `read_node_count` reads it
        if not isinstance(found.get("job.tasks"), list) or not found["job.tasks"]:
            raise TraceFault(f"{where}: an object has a list job.tasks with at least one task, or num.nodes")
        fields = Checked(where, found)
        fields.pass_over(KNOWN_OF_JOB, notes)
        submit = fields.number("job.start.ms", 0, TIME_MAX, 0)
        queue, user = fields.text("job.queue.name", 255, "default"), fields.text("job.user", 64, "default")
        tasks = joined([sls_task(where, task, notes, hosts) for task in found["job.tasks"]])
        count = fields.number("job.count", 1, NUMBER_MAX, 1)
        for _ in range(count):
            name = str(found["job.id"]) if "job.id" in found and count == 1 else str(number)
            yield Job(name, where, submit, queue, user, tasks)
            number += 1


def sls_task(where: str, found: Any, notes: Notes, hosts: Set[str]) -> Task:
    if not isinstance(found, dict):
        raise TraceFault(f"{where}: a task is an object, and not {found!r}")
    fields = Checked(where, found)
    fields.pass_over(KNOWN_OF_TASK, notes, {"container.type": "map", "container.execution.type": "GUARANTEED"})
    resource = fields.amounts("container.", CONTAINER)
    count = fields.number("count", 1, NUMBER_MAX, 1)
    priority = fields.number("container.priority", 0, NUMBER_MAX, PRIORITY)
    place = fields.text("container.host", 255, "*").rpartition("/")[2]
    if place != "*" and place not in hosts:
        notes.leave_out("container.host of a node that the cluster does not have: asked for anywhere", where)
        place = "*"
    return Task(count, duration_of(fields), fields.resource(resource), priority, place)


def duration_of(fields: Checked) -> int:
    """How long a task's container runs, in milliseconds: its duration, or from its start to its end."""
    for name in ("container.duration.ms", "duration.ms"):
        if name in fields.found:
            return fields.number(name, 1, TIME_MAX)
    start, end = (fields.number(name, 0, TIME_MAX) for name in ("container.start.ms", "container.end.ms"))
    if end <= start:
        raise TraceFault(f"{fields.where}: container.end.ms {end} is not after container.start.ms {start}")
    return end - start


def joined(tasks: List[Task]) -> List[Task]:
    """The same tasks, where those that are alike and follow each other are one with their counts added."""
    result: List[Task] = []
    for task in tasks:
        last = result[-1] if result else None
        if last and (last.duration, last.resource, last.priority, last.place) == (
                task.duration, task.resource, task.priority, task.place):
            result[-1] = Task(last.count + task.count, task.duration, task.resource, task.priority, task.place)
        else:
            result.append(task)
    return result


def read_node_count(file: str) -> Optional[int]:
    """How many nodes a trace of Hadoop's simulator says that it has (`num.nodes`), or None. TraceFault, OSError as
    `read_jobs`."""
    with open(file, encoding="utf-8-sig", newline="") as text:
        if is_json(text):
            for line, found in read_objects(file, text):
                if "num.nodes" in found:
                    return Checked(f"{file}: line {line}", found).number("num.nodes", 1, 4096)
    return None


def read_nodes(file: str, usual: Resource, notes: Notes) -> List[NodeSpec]:
    """The nodes of a file of Hadoop's simulator: objects with `rack` and `nodes`; `usual` is what a node has where it
    doesn't say. TraceFault where it can't be read or a host stands twice, OSError where the file can't."""
    nodes: List[NodeSpec] = []
    with open(file, encoding="utf-8-sig", newline="") as text:
        for line, found in read_objects(file, text):
            where = f"{file}: line {line}"
            if not isinstance(found.get("nodes"), list):
                raise TraceFault(f"{where}: an object has a rack, and a list nodes")
            rack = "/" + Checked(where, found).text("rack", 63, "default-rack").lstrip("/")
            for node in found["nodes"]:
                if not isinstance(node, dict):
                    raise TraceFault(f"{where}: a node is an object, and not {node!r}")
                fields = Checked(where, node)
                fields.pass_over(("node", *AMOUNTS), notes)
                nodes.append(NodeSpec(fields.text("node", 64), rack, fields.amounts("", usual)))
    twice = [host for host, count in Counter(node.host for node in nodes).items() if count > 1]
    if twice or not nodes:
        raise TraceFault(f"{file}: the node {twice[0]} stands twice" if twice else f"{file}: there are no nodes")
    return nodes


def read_objects(file: str, text: TextIO) -> Iterator[Tuple[int, Dict[str, Any]]]:
    """The objects of a JSON text, one after the other or in a list, each with the line on which it begins."""
    scanner, depth = Scanner(file, text), 0
    while True:
        mark, line = scanner.next_mark(), scanner.line
        if mark == "" and depth == 0:
            return
        if mark == "[" or depth and mark in ("]", ","):
            depth += {"[": 1, "]": -1, ",": 0}[mark]
            scanner.pass_mark()
            continue
        found = scanner.take_value()
        if not isinstance(found, dict):
            raise TraceFault(f"{file}: line {line}: an object is expected, and not {found!r}")
        yield line, found


class Scanner:
    """A JSON text that is read a piece at a time."""

    def __init__(self, file: str, text: TextIO):
        self._file, self._text, self._piece, self._at = file, text, "", 0
        self._decode: Callable[[str, int], Tuple[Any, int]] = json.JSONDecoder().raw_decode
        self.line = 1

    def next_mark(self) -> str:
        """The next character that is no blank, which stays; an empty text at the end."""
        while True:
            while self._at < len(self._piece):
                mark = self._piece[self._at]
                if mark not in " \t\r\n":
                    return mark
                self.line += mark == "\n"
                self._at += 1
            if not self._read(PIECE):
                return ""

    def pass_mark(self) -> None:
        """Goes on after the character that `next_mark` gave."""
        self._at += 1

    def take_value(self) -> Any:
        """The next value. Where it is not whole yet as much again is read, so that a long one is not read often."""
        while True:
            try:
                found, end = self._decode(self._piece, self._at)
            except json.JSONDecodeError as fault:
                if self._read(max(PIECE, len(self._piece))):
                    continue
                line = self.line + self._piece.count("\n", 0, fault.pos)
                raise TraceFault(f"{self._file}: line {line}: no JSON: {fault.msg}") from None
            self.line += self._piece.count("\n", self._at, end)
            self._at = end
            return found

    def _read(self, count: int) -> bool:
        more = self._text.read(count)
        self._piece, self._at = self._piece[self._at:] + more, 0
        return more != ""


@dataclass(frozen=True)
class Checked:
    """The values of a row or an object by name, each taken as what it has to be; TraceFault where it is something
    else."""

    where: str
    found: Mapping[str, Any]

    def number(self, name: str, least: int, most: int, missing: Optional[int] = None) -> int:
        """A whole number, also where it stands as text."""
        value = self.found.get(name, missing)
        if isinstance(value, str) and value.isascii() and value.isdigit() and len(value) < 20:
            value = int(value)
        if not isinstance(value, int) or isinstance(value, bool) or not least <= value <= most:
            said = "is missing" if value is None else f"is {value!r}"
            raise TraceFault(f"{self.where}: {name} {said}: a whole number from {least} to {most} is expected")
        return value

    def text(self, name: str, most: int, missing: Optional[str] = None) -> str:
        """A text without blanks."""
        value = self.found.get(name, missing)
        if not isinstance(value, str) or not 0 < len(value) <= most or not all("!" <= it <= "~" for it in value):
            said = "is missing" if value is None else f"is {value!r}"
            raise TraceFault(
                f"{self.where}: {name} {said}: 1 to {most} characters of ASCII without blanks are expected")
        return value

    def amounts(self, prefix: str, missing: Resource) -> Resource:
        """The amounts of a resource under Hadoop's names for them."""
        values = {"memory": missing.memory, "vcores": missing.vcores, "gpus": missing.gpus}
        for name, of in AMOUNTS.items():
            if prefix + name in self.found:
                values[of] = self.number(prefix + name, 0, AMOUNT_MAX)
        return Resource(**values)

    def resource(self, resource: Resource) -> Resource:
        if resource == Resource(0, 0):
            raise TraceFault(f"{self.where}: a container is for more than nothing")
        return resource

    def pass_over(self, known: Tuple[str, ...], notes: Notes, usual: Mapping[str, str] = {}) -> None:
        """Notes each value that is not known, but where it is the usual one of its name."""
        for name, value in self.found.items():
            if name not in known and usual.get(name) != value:
                notes.leave_out(f"{name}: {WHY.get(name, 'not known here')}", self.where)
