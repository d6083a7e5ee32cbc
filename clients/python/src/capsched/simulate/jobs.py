"""What is played: nodes, and jobs with the containers that they ask for. Times are whole milliseconds of the trace."""
from __future__ import annotations

from dataclasses import dataclass
from typing import Sequence, Union

from ..messages import Resource

PRIORITY = 20  # of an ask where the trace names none, as in Hadoop's simulator


@dataclass
class Amounts:
    """A sum of resources, each times a number: how many there are, or how many milliseconds each lasts."""

    memory: int = 0
    vcores: int = 0
    gpus: int = 0

    def add(self, resource: Union[Resource, Amounts], times: int) -> None:
        """Adds so many times a resource."""
        self.memory += resource.memory * times
        self.vcores += resource.vcores * times
        self.gpus += resource.gpus * times

    def count(self, resource: Resource) -> int:
        """How many of a resource, which is not nothing, these are enough for."""
        pairs = ((self.memory, resource.memory), (self.vcores, resource.vcores), (self.gpus, resource.gpus))
        return min(amount // each for amount, each in pairs if each)


def fits(resource: Resource, into: Union[Resource, Amounts]) -> bool:
    """Whether each amount of a resource is at most the other's."""
    return resource.memory <= into.memory and resource.vcores <= into.vcores and resource.gpus <= into.gpus


@dataclass(frozen=True)
class NodeSpec:
    """A node of the cluster."""

    host: str
    rack: str
    total: Resource


@dataclass(frozen=True)
class Task:
    """Containers of a job that are alike: how many, for how much each, and how long each runs, in milliseconds."""

    count: int
    duration: int
    resource: Resource
    priority: int = PRIORITY
    place: str = "*"


@dataclass(frozen=True)
class Job:
    """An application: when it is submitted, to which queue, for whom, and its containers. `where` says where the trace
    has it."""

    name: str
    where: str
    submit: int
    queue: str
    user: str
    tasks: Sequence[Task]

    @property
    def containers(self) -> int:
        """How many containers it asks for in all."""
        return sum(task.count for task in self.tasks)
