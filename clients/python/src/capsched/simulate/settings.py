"""The settings under which jobs are played."""
from __future__ import annotations

import os
import subprocess
from collections import Counter
from dataclasses import dataclass
from typing import Dict, List, Mapping, Optional, Sequence

from ..messages import Allocations, QueueReport, Resource
from ..watch import queues_of
from .applications import Application, Group
from .jobs import NodeSpec, fits

CHECK_SECONDS = 60  # how long `capsched check` may take


class SettingsFault(ValueError):
    """A settings file has a fault: says which, in the words of `capsched check`."""


@dataclass(frozen=True)
class Settings:
    """A settings file: how it is called in tables, its property lines, the paths of its queues, each before those below
    it, and the path of each name that a trace may have for one."""

    name: str
    lines: Sequence[str]
    paths: Sequence[str]
    names: Mapping[str, str]

    def resolve(self, queue: str) -> str:
        """The path of a queue that a trace names: by its path, by its path below `root`, or as Hadoop has it by its
        last name where only one queue has it. What is no queue's stays as it is."""
        return self.names.get(queue, queue)


def names_of(paths: Sequence[str]) -> Dict[str, str]:
    """The path of each name of a queue: its last name where no other has it, its path below `root`, and its path."""
    last = Counter(path.rpartition(".")[2] for path in paths)
    names = {path.rpartition(".")[2]: path for path in paths if last[path.rpartition(".")[2]] == 1}
    names.update((path[len("root."):], path) for path in paths if path != "root")
    names.update((path, path) for path in paths)
    return names


def read_settings(program: str, files: Sequence[str]) -> List[Settings]:
    """The settings of these files, which `capsched check` finds no fault in. SettingsFault where it does, OSError where
    a file can't be read or the program can't be started, SubprocessError where it fails."""
    stems = [os.path.splitext(os.path.basename(file))[0] for file in files]
    names = stems if len(set(stems)) == len(stems) else list(files)
    if len(set(names)) < len(names):
        raise SettingsFault("a file of settings is named twice")
    # a program that is built first says on standard error how far it is
    subprocess.run([program, "--version"], stdout=subprocess.DEVNULL, check=True)
    result = []
    for file, name in zip(files, names):
        with open(file, "rb") as it:
            data = it.read()
        checked = subprocess.run([program, "check"], input=data, capture_output=True, timeout=CHECK_SECONDS)
        if checked.returncode:
            raise SettingsFault(f"{file}: {checked.stderr.decode('utf-8', 'replace').strip()}")
        lines = [line.rstrip(b"\r").decode("ascii") for line in data.split(b"\n") if not line.startswith(b"#")]
        paths = queues_of(lines)
        result.append(Settings(name, lines, paths, names_of(paths)))
    return result


@dataclass(frozen=True)
class Limits:
    """What a container must fit: the nodes, its queues' maxima, and what its user may have."""

    nodes: Sequence[NodeSpec]
    reports: Mapping[str, QueueReport]
    allocations: Allocations

    def why_never(self, app: Application) -> List[str]:
        """Why an application is never granted some of its containers though nothing else runs, each reason once."""
        return list(dict.fromkeys(self.why(group, app.path) for group in [*app.groups.values(), *app.later]))

    def why(self, group: Group, path: str) -> str:
        """What the containers of one ask don't fit."""
        resource = rounded(group.resource, self.allocations)
        at_place = [node for node in self.nodes if group.place in ("*", node.host, node.rack)]
        if not any(fits(resource, node.total) for node in at_place):
            return f"a container of {resource} is larger than {'any node' if group.place == '*' else group.place}"
        names = path.split(".")
        for level in range(2, len(names) + 1):
            above = ".".join(names[:level])
            maximum = self.reports[above].maximum
            if maximum and not fits(resource, maximum):
                return f"a container of {resource} is larger than the maximum of {above}, {maximum}"
        guaranteed = self.reports[path].guaranteed
        return f"a container of {resource} is over the user limit of {path}, whose guarantee is {guaranteed}"


def rounded(resource: Resource, bounds: Allocations) -> Resource:
    """What an ask for a resource is kept as: each amount a multiple of the minimum allocation, and within the
    maximum."""
    pairs = (("memory", bounds.minimum.memory, bounds.maximum.memory),
             ("vcores", bounds.minimum.vcores, bounds.maximum.vcores),
             ("gpus", bounds.minimum.gpus, bounds.maximum.gpus))
    amounts: Dict[str, int] = {}
    for name, step, most in pairs:
        amount: int = getattr(resource, name)
        amounts[name] = min(max(-(-amount // step), 1) * step, most) if step else min(amount, most)
    return Resource(**amounts)


def find_program(given: Optional[str]) -> str:
    """The program `capsched`: the one that is given, or that the variable CAPSCHED names, or that stands in the folder
    of the command as `./capsched`, or in the search path."""
    if given or os.environ.get("CAPSCHED"):
        return given or os.environ["CAPSCHED"]
    return "./capsched" if os.access("./capsched", os.X_OK) and os.path.isfile("./capsched") else "capsched"
