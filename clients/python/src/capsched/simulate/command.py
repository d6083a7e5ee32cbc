"""The command `capsched-simulate`."""
from __future__ import annotations

import argparse
import os
import subprocess
import sys
import time
from contextlib import ExitStack
from dataclasses import dataclass
from typing import Callable, Iterable, List, Optional, Sequence, TextIO

from ..arguments import resource
from ..connection import Ended
from ..messages import Refused, Resource
from .jobs import Job, NodeSpec
from .nodes import Nodes
from .picture import picture
from .report import JOBS_HEAD, QUEUES_HEAD, table, write_job, write_queues
from .results import JobRow, Results
from .scheduler import Scheduler, Unexpected
from .settings import Limits, Settings, SettingsFault, find_program, read_settings
from .simulation import Simulation
from .traces import Notes, TraceFault, read_jobs, read_node_count, read_nodes

NODE = Resource(10_240, 10)  # where nothing says what a node has, as in Hadoop's simulator
NODES_MAX = 4096


@dataclass
class Survey:
    """What a trace has in all: it is read once before it is played, so that a fault is found first."""

    jobs: int = 0
    containers: int = 0
    begin: int = 0
    is_in_order: bool = True

    @classmethod
    def of(cls, jobs: Iterable[Job]) -> Survey:
        """Counts the jobs of a trace. `begin` is when the first comes, in milliseconds."""
        survey, last = cls(), 0
        for job in jobs:
            survey.begin = min(survey.begin, job.submit) if survey.jobs else job.submit
            survey.is_in_order = survey.is_in_order and last <= job.submit
            survey.jobs, survey.containers, last = survey.jobs + 1, survey.containers + job.containers, job.submit
        return survey


@dataclass
class Files:
    """The files of the answers. None of them where there is no folder for them."""

    folder: Optional[str]
    jobs: Optional[TextIO] = None
    queues: Optional[TextIO] = None

    def open(self, stack: ExitStack) -> None:
        """Makes the folder, and the files with their first lines, until the stack closes them. OSError where it
        can't."""
        if self.folder is None:
            return
        os.makedirs(self.folder, exist_ok=True)
        self.jobs, self.queues = (
            stack.enter_context(open(f"{self.folder}/{name}", "w", encoding="utf-8", newline=""))
            for name in ("jobs.csv", "queues.csv"))
        print(*JOBS_HEAD, sep=",", file=self.jobs)
        print(*QUEUES_HEAD, sep=",", file=self.queues)

    def write_job(self, config: str) -> Callable[[JobRow], None]:
        """What writes a job under these settings."""
        file = self.jobs
        return lambda row: write_job(file, config, row) if file else None

    def write_queues(self, config: str, results: Results) -> None:
        """Writes what was seen of the queues under these settings."""
        if self.queues:
            write_queues(self.queues, config, results)

    def write_picture(self, text: str) -> None:
        """Writes the picture."""
        if self.folder is not None:
            with open(f"{self.folder}/queues.svg", "w", encoding="utf-8") as file:
                file.write(text)


class Progress:
    """A line on standard error that says how far it is, where that is a terminal."""

    def __init__(self, name: str, containers: int, results: Results) -> None:
        self._name, self._containers, self._results = name, containers, results
        self._is_shown, self._began, self._next = sys.stderr.isatty(), time.monotonic(), 0.0

    def show(self, now: int) -> None:
        """Says so at most twice a second. `now` is the simulated time in milliseconds."""
        if self._is_shown and time.monotonic() >= self._next:
            passed, done = time.monotonic() - self._began, self._results.containers
            pace = done / passed if passed else 0.0
            left = f", {(self._containers - done) / pace:.0f} s left" if pace else ""
            text = (f"{self._name}: at {now / 1000:.0f} s, {done} of {self._containers} containers, {pace:.0f} a second"
                    f"{left}")
            print(f"\r\033[K{text}", end="", file=sys.stderr, flush=True)
            self._next = time.monotonic() + 0.5

    def end(self) -> None:
        """Takes the line away."""
        if self._is_shown:
            print("\r\033[K", end="", file=sys.stderr, flush=True)


@dataclass
class Player:
    """Plays one trace on one set of nodes, under one settings file after the other."""

    words: argparse.Namespace
    program: str
    nodes: Sequence[NodeSpec]
    files: Files

    def jobs(self, notes: Notes) -> Iterable[Job]:
        """The jobs of the trace, in its order."""
        return read_jobs(self.words.jobs, notes, {node.host for node in self.nodes})

    def play(self, settings: Settings, survey: Survey) -> Results:
        """What the jobs come to under these settings. Names on standard error those that don't end."""
        scheduler = Scheduler([self.program, "replay"], settings.lines)
        try:
            results = Results(scheduler.connection, settings.paths, survey.begin, self.words.heartbeat,
                              self.files.write_job(settings.name))
            progress = Progress(settings.name, survey.containers, results)
            nodes = Nodes(self.nodes, self.words.heartbeat)
            simulation = Simulation(scheduler, nodes, settings.resolve, results, progress.show)
            jobs = self.jobs(Notes())
            simulation.play(jobs if survey.is_in_order else sorted(jobs, key=lambda job: job.submit))
            progress.end()
        finally:
            scheduler.close()
        self.files.write_queues(settings.name, results)
        self.name_failed(settings.name, results, simulation.limits())
        return results

    def name_failed(self, name: str, results: Results, limits: Limits) -> None:
        """Says on standard error which jobs were refused, and which wait for what they are never granted."""
        failed = dict(results.failed)
        for app in results.left:
            for why in limits.why_never(app):
                count, first = failed.get(why, (0, app.job))
                failed[why] = (count + 1, first)
        for why, (count, job) in failed.items():
            jobs = "1 job" if count == 1 else f"{count} jobs"
            say(f"{name}: {jobs}, first job {job.name} ({job.where}): {why}")


def say(text: str) -> None:
    """Prints a line on standard error."""
    print(f"capsched-simulate: {text}", file=sys.stderr)


def nodes_of(words: argparse.Namespace, notes: Notes) -> List[NodeSpec]:
    """The nodes: those of `--nodes`, or so many as `--count` or the trace says. TraceFault where nothing says it."""
    total = words.node or NODE
    if words.nodes:
        return read_nodes(words.nodes, total, notes)
    count = words.count or read_node_count(words.jobs)
    if not count:
        raise TraceFault("how many nodes there are is not known: give --nodes FILE, or --node 8192,8 --count 100")
    return [NodeSpec(f"node{number}", "/default-rack", total) for number in range(1, count + 1)]


def run(words: argparse.Namespace) -> int:
    """What the words ask for: the status of the command."""
    program, notes = find_program(words.program), Notes(words.strict)
    settings = read_settings(program, words.config)
    player = Player(words, program, nodes_of(words, notes), Files(words.out))
    survey = Survey.of(player.jobs(notes))
    if not survey.jobs:
        raise TraceFault(f"{words.jobs}: there are no jobs")
    for line in notes.lines():
        say(line)
    with ExitStack() as stack:
        player.files.open(stack)
        results = [player.play(it, survey) for it in settings]
    names, total = [it.name for it in settings], total_of(player.nodes)
    player.files.write_picture(picture(names, results, total))
    print(*table(names, results, total), sep="\n")
    return 1 if any(it.failed or it.left for it in results) else 0


def total_of(nodes: Sequence[NodeSpec]) -> Resource:
    """What the nodes have together."""
    return Resource(sum(it.total.memory for it in nodes), sum(it.total.vcores for it in nodes),
                    sum(it.total.gpus for it in nodes))


def count_of(most: int) -> Callable[[str], int]:
    """What reads a number from 1 to `most`."""
    def count(text: str) -> int:
        if not (text.isdecimal() and 1 <= int(text) <= most):
            raise argparse.ArgumentTypeError(f"{text!r} is not a number from 1 to {most}")
        return int(text)

    return count


def parser() -> argparse.ArgumentParser:
    """The words of the command."""
    made = argparse.ArgumentParser(
        prog="capsched-simulate", formatter_class=argparse.RawDescriptionHelpFormatter,
        description="Plays a trace of jobs through the scheduler in simulated time, and says how long they wait.",
        epilog="Status: 0 where all jobs end, 1 where some are refused or never granted all they ask for,\n"
               "as standard error says, 2 where words, settings or a file have a fault.")
    made.add_argument("--config", action="append", required=True, metavar="FILE",
                      help="property lines; several of these are compared")
    made.add_argument("--jobs", required=True, metavar="TRACE",
                      help="jobs: CSV, or the JSON of Hadoop's Scheduler Load Simulator")
    made.add_argument("--nodes", metavar="FILE", help="nodes, as that simulator has them")
    made.add_argument("--node", type=resource, metavar="MIB,VCORES[,GPUS]",
                      help=f"what a node has where no file says it; {NODE.memory},{NODE.vcores} if not given")
    made.add_argument("--count", type=count_of(NODES_MAX), metavar="N", help="how many such nodes there are")
    made.add_argument("--heartbeat", type=count_of(1 << 31), default=1000, metavar="MS",
                      help="how often a node beats, 1000 ms if not given")
    made.add_argument("--out", metavar="FOLDER", help="where jobs.csv, queues.csv and queues.svg go")
    made.add_argument("--strict", action="store_true", help="refuse a trace that has what would be passed over")
    made.add_argument("--program", metavar="PATH",
                      help="the program capsched; else $CAPSCHED, ./capsched, or the one in the search path")
    return made


def main(argv: Optional[Sequence[str]] = None) -> int:
    """The command `capsched-simulate`: 0 where all jobs end, 1 where some don't, 2 where something has a fault, and 130
    after Ctrl-C."""
    words = parser().parse_args(argv)
    if words.nodes and words.count:
        parser().error("--nodes and --count both say how many nodes there are: give one of them")
    try:
        return run(words)
    except (TraceFault, SettingsFault, Refused, Unexpected, Ended, OSError, subprocess.SubprocessError) as fault:
        say(str(fault))
        return 2
    except KeyboardInterrupt:
        return 130
