"""The state in Prometheus' text format."""
from __future__ import annotations

from dataclasses import dataclass, field
from typing import Callable, Iterator, List, Mapping, Optional, Sequence, Tuple, Union

from ..messages import QueueReport, Resource
from .looking import Look, State

CONTENT_TYPE = "text/plain; version=0.0.4; charset=utf-8"
MEBI = 1 << 20
INFINITY = float("inf")
UNITS = {"bytes": "memory, in bytes", "vcores": "vcores", "gpus": "GPUs"}
Value = Union[int, float]
Parts = List[Tuple[str, Value]]
UNBOUNDED: Parts = [(unit, INFINITY) for unit in UNITS]
Sample = Tuple[Mapping[str, str], Value]
OF_A_QUEUE: Sequence[Tuple[str, str, Callable[[QueueReport], Optional[Resource]]]] = (
    ("used", "What a queue uses, with what is reserved for it", lambda it: it.used),
    ("guaranteed", "The guarantee of a queue", lambda it: it.guaranteed),
    ("maximum", "The maximum capacity of a queue, +Inf where it has none", lambda it: it.maximum),
)
STATE_OF_A_QUEUE: Sequence[Tuple[str, str, Callable[[QueueReport], int]]] = (
    ("running", "Whether a queue and all above it are RUNNING", lambda it: int(it.running)),
    ("leaf", "Whether a queue is a leaf queue", lambda it: int(it.leaf)),
    ("applications", "Active applications in a queue and under it", lambda it: it.applications),
)
# by the daemon's name: the name here, and what is counted since the daemon has begun
COUNTERS = {
    "entries": ("entries", "Entries of journals: calls that were answered, grants and reservations"),
    "calls": ("calls", "Calls that were answered"),
    "grants": ("grants", "Containers that were granted"),
    "reservations": ("reservations", "Reservations that were made"),
    "rejected": ("rejections", "Proposals that were rejected, since the cluster had changed"),
    "epochs": ("epochs", "Epochs that were begun"),
    "connections": ("connections", "Connections that were accepted"),
}


@dataclass
class Metric:
    """A metric: its name, whether it is a gauge or a counter, what it says, and its samples by their labels."""

    name: str
    kind: str
    says: str
    samples: List[Sample] = field(default_factory=list)

    def lines(self) -> Iterator[str]:
        yield f"# HELP {self.name} {self.says}"
        yield f"# TYPE {self.name} {self.kind}"
        for labels, value in self.samples:
            said = ",".join(f'{name}="{escape(text)}"' for name, text in labels.items())
            yield f"{self.name}{{{said}}} {number(value)}" if said else f"{self.name} {number(value)}"


def escape(text: str) -> str:
    """A label's value, between quotes."""
    return text.replace("\\", "\\\\").replace('"', '\\"').replace("\n", "\\n")


def number(value: Value) -> str:
    return "+Inf" if value == INFINITY else repr(value)


def of_one(name: str, says: str, value: Value, kind: str = "gauge") -> Metric:
    return Metric(name, kind, says, [({}, value)])


def parts(resource: Resource) -> Parts:
    """The amounts of a resource, each with its unit."""
    return [("bytes", resource.memory * MEBI), ("vcores", resource.vcores), ("gpus", resource.gpus)]


def of_daemon(state: State) -> Iterator[Metric]:
    """Whether the daemon is there, how long it took to answer, and its own counters."""
    yield of_one("capsched_up", "Whether the daemon answers", int(state.is_up))
    looks, failed = "capsched_exporter_looks_total", "capsched_exporter_failed_looks_total"
    yield of_one(looks, "How often the exporter has looked at the daemon", state.looks, "counter")
    yield of_one(failed, "How often it was not answered", state.failures, "counter")
    if state.last:
        yield of_one("capsched_last_answer_timestamp_seconds", "When the daemon answered last", state.last.at)
    for name, (ours, says) in COUNTERS.items():
        if name in state.counters:
            yield of_one(f"capsched_{ours}_total", says, state.counters[name], "counter")


def of_cluster(look: Look) -> Iterator[Metric]:
    cluster = look.cluster
    yield of_one("capsched_answer_seconds", "How long the daemon took to answer the last look", look.seconds)
    yield of_one("capsched_nodes", "Nodes that are present", cluster.nodes)
    yield of_one("capsched_applications", "Active applications", cluster.applications)
    yield of_one("capsched_containers", "Live containers", cluster.containers)
    for unit, amount in parts(cluster.total):
        yield of_one(f"capsched_cluster_total_{unit}", f"What all nodes have together: {UNITS[unit]}", amount)
    for unit, amount in parts(cluster.used):
        says = f"What is in use or reserved in the cluster: {UNITS[unit]}"
        yield of_one(f"capsched_cluster_used_{unit}", says, amount)


def of_queues(look: Look) -> Iterator[Metric]:
    """The use, the guarantee and the maximum of each queue, a metric a unit, and its state."""
    for which, says, resource_of in OF_A_QUEUE:
        metrics = {unit: Metric(f"capsched_queue_{which}_{unit}", "gauge", f"{says}: {UNITS[unit]}") for unit in UNITS}
        for path, report in look.queues.items():
            resource = resource_of(report)
            for unit, amount in parts(resource) if resource else UNBOUNDED:
                metrics[unit].samples.append(({"queue": path}, amount))
        yield from metrics.values()
    for name, says, value_of in STATE_OF_A_QUEUE:
        samples: List[Sample] = [({"queue": path}, value_of(report)) for path, report in look.queues.items()]
        yield Metric(f"capsched_queue_{name}", "gauge", says, samples)


def metrics_of(state: State) -> str:
    """All metrics. Where the daemon does not answer, what it would have to say of the cluster is left out."""
    metrics = list(of_daemon(state))
    if state.is_up and state.last:
        metrics += [*of_cluster(state.last), *of_queues(state.last)]
    return "".join(f"{line}\n" for metric in metrics for line in metric.lines())
