"""Writes the property lines of capsched that say what a Hadoop configuration says, where they can.

    capsched-from-hadoop capacity-scheduler.xml [yarn-site.xml ..] [--total 1048576,512] > cluster.conf

Property lines go to standard output. With `--total`, the memory (MiB), vcores and perhaps GPUs of the whole cluster,
capacities in percent become amounts. Every property of the scheduler that capsched leaves out is named on standard
error with its value, why it is left out, and what stands in its place if anything does; the status is then 1, and also
where a guarantee comes to 0. It is 0 where all was said, and 2 where a file is no configuration."""
from __future__ import annotations

import argparse
import re
import sys
from dataclasses import dataclass
from fractions import Fraction
from typing import Dict, Iterable, List, Mapping, NamedTuple, Optional, Sequence, Set, Tuple
from xml.etree import ElementTree

from .arguments import resource as resource_word
from .messages import Resource

PREFIX = "yarn.scheduler.capacity."
GPU = "yarn.io/gpu"
CAPACITIES = ("capacity", "maximum-capacity")
LIMITS = [f"yarn.scheduler.{which}-allocation-{what}" for which in ("minimum", "maximum") for what in ("mb", "vcores")]
LIMITS += [f"yarn.resource-types.{GPU}.{which}-allocation" for which in ("minimum", "maximum")]
# of capacity-scheduler.xml in whole, and of yarn-site.xml the part that is the scheduler's
OF_THE_SCHEDULER = (
    "yarn.scheduler.", "yarn.resource-types", "yarn.resourcemanager.scheduler.",
    "yarn.resourcemanager.monitor.capacity.")
# names of limits in the file of resource types; Hadoop takes their values in place of those of the others
SAME_LIMITS = {f"yarn.resource-types.{name}.{which}-allocation": f"yarn.scheduler.{which}-allocation-{what}"
               for name, what in (("memory-mb", "mb"), ("vcores", "vcores")) for which in ("minimum", "maximum")}
MEBI = {"": 1, "Mi": 1, "Gi": 1 << 10, "Ti": 1 << 20, "Pi": 1 << 30}
# the settings of a queue, and those of the whole scheduler, that are left out: a beginning of the name after the path
# or the prefix, and why
OF_A_QUEUE = [
    ("minimum-user-limit-percent",
     "only user-limit-factor limits a user: a user may take that many times the queue's guarantee"),
    ("maximum-applications",
     "the limit of active applications is the cluster's: yarn.scheduler.capacity.maximum-applications"),
    ("max-parallel-apps",
     "the limit of active applications is the cluster's: yarn.scheduler.capacity.maximum-applications"),
    ("maximum-am-resource-percent", "masters run outside the cluster's containers, and take nothing of a queue"),
    ("maximum-allocation", "the maximum allocation is the cluster's: yarn.scheduler.maximum-allocation-mb and -vcores"),
    ("acl_", "there are no access lists: whoever reaches the port may make any call, so guard the port"),
    ("priority", "queues are compared by how full they are, applications are served in order of submission"),
    ("default-application-priority", "applications have no priorities: they are served in order of submission"),
    ("maximum-application-lifetime", "applications have no lifetime: a client ends one by FinishMaster"),
    ("default-application-lifetime", "applications have no lifetime: a client ends one by FinishMaster"),
    ("accessible-node-labels", "there are no node labels: an ask may name a host or a rack"),
    ("default-node-label-expression", "there are no node labels: an ask may name a host or a rack"),
    ("disable_preemption", "there is no preemption: a container ends when its master or its node says so"),
    ("intra-queue-preemption", "there is no preemption: a container ends when its master or its node says so"),
    ("auto-create-child-queue", "queues are those of the settings, none is made on submission"),
    ("auto-queue-creation", "queues are those of the settings, none is made on submission"),
    ("leaf-queue-template", "queues are those of the settings, none is made on submission"),
    ("reservable", "there is no reservation system; room on a node is reserved for single containers"),
    ("reservation", "there is no reservation system; room on a node is reserved for single containers"),
    ("multi-node-sorting", "nodes are looked at as a ring, in order of their registration"),
]
OF_THE_CLUSTER = [
    ("schedule-asynchronously",
     "scheduling is always by threads that propose: `capsched serve --workers` says how many"),
    ("per-node-heartbeat", "containers are granted by workers, and not at a node's heartbeat"),
    ("node-locality-delay", "a place is strict: an ask that names a host or a rack is granted there, or waits"),
    ("rack-locality", "a place is strict: an ask that names a host or a rack is granted there, or waits"),
    ("queue-mapping", "an application is submitted to the leaf queue that its Submit names"),
    ("mapping-rule", "an application is submitted to the leaf queue that its Submit names"),
    ("workflow-priority", "applications have no priorities: they are served in order of submission"),
    ("multi-node", "nodes are looked at as a ring, in order of their registration"),
    ("reservations", "there is no reservation system; room on a node is reserved for single containers"),
    ("lazy-preemption", "there is no preemption: a container ends when its master or its node says so"),
    ("application.fail-fast", "settings are read when the daemon starts, and of a client's Refresh"),
    ("user.", "a user has the limit of the queue, and no weight of its own"),
]
ELSEWHERE = [
    (f"yarn.resource-types.{GPU}.units", "GPUs are counted, and have no unit"),
    ("yarn.resource-types", f"the resources are memory, vcores and {GPU}"),
    ("yarn.resourcemanager.monitor.capacity.",
     "there is no preemption: a container ends when its master or its node says so"),
    ("yarn.resourcemanager.scheduler.", "which scheduler runs is not asked: it is this one"),
    ("yarn.scheduler.", "nothing stands in its place"),
]


class NotAConfiguration(Exception):
    """The file is no Hadoop configuration."""


@dataclass(frozen=True)
class Left:
    """A property that is left out, and why."""

    name: str
    value: str
    why: str

    def __str__(self) -> str:
        return f"{self.name}={self.value}: {self.why}"


class Converted(NamedTuple):
    """What becomes of a property: its line, or why there is none. Where there is neither it says what is so anyway."""

    line: Optional[str] = None
    why: Optional[str] = None


Amounts = Dict[str, Fraction]  # of a resource, by their names in property lines


def read_properties(file: str) -> Dict[str, str]:
    """The properties of a Hadoop configuration file, in order; the last of a name counts, where it stands first.
    NotAConfiguration where it is none, OSError where it can't be read."""
    try:
        root = ElementTree.parse(file).getroot()
    except ElementTree.ParseError as fault:
        raise NotAConfiguration(f"{file}: {fault}") from None
    if root.tag != "configuration":
        raise NotAConfiguration(f"{file}: its root is <{root.tag}>, and not <configuration>")
    found = {}
    for item in root.iter("property"):
        name = (item.findtext("name") or "").strip()
        if name:
            found[name] = " ".join((item.findtext("value") or "").split())
    return found


def read_all(scheduler: str, others: Iterable[str]) -> Dict[str, str]:
    """The properties of capacity-scheduler.xml, and of the other files those that are the scheduler's. Faults as of
    `read_properties`."""
    properties = read_properties(scheduler)
    for file in others:
        for name, value in read_properties(file).items():
            if name.startswith(OF_THE_SCHEDULER):
                properties.setdefault(name, value)
    return {SAME_LIMITS.get(name, name): properties.get(same_limit(name), value) for name, value in properties.items()}


def same_limit(name: str) -> str:
    """The name of a limit in the file of resource types, whose value Hadoop takes before that of this name."""
    return next((other for other, it in SAME_LIMITS.items() if it == name), name)


def amounts_of(value: str) -> Optional[Amounts]:
    """An absolute resource of memory, vcores and perhaps GPUs; None where it is something else."""
    inner = re.fullmatch(r"\[(.*)\]", value)
    parts = dict(part.strip().split("=", 1) for part in inner[1].split(",") if "=" in part) if inner else {}
    memory = re.fullmatch(r"(\d+) *([MGTP]i)?", parts.get("memory", "").strip())
    counts = {name: parts[name].strip() for name in ("vcores", GPU) if name in parts}
    is_whole = all(count.isdigit() for count in counts.values())
    if set(parts) - {GPU} != {"memory", "vcores"} or not memory or not is_whole:
        return None
    amounts = {"memory": Fraction(int(memory[1]) * MEBI[memory[2] or ""])}
    return {**amounts, **{name: Fraction(int(count)) for name, count in counts.items()}}


def written(amounts: Amounts) -> str:
    """A resource as capsched writes it. Each amount is rounded down."""
    return f"[{','.join(f'{name}={int(amount)}' for name, amount in amounts.items())}]"


def percent_of(value: str) -> Optional[Fraction]:
    """A capacity in percent, as a part of 1; None where it is none."""
    number = re.fullmatch(r"(\d+(?:\.\d*)?|\.\d+) *%?", value)
    return Fraction(number[1]) / 100 if number else None


def why_no_resource(value: str) -> str:
    if value.endswith("w"):
        return "weights are left out: write the guarantee as [memory=MiB,vcores=N]"
    if re.fullmatch(r"-?[\d.]+ *%?", value):
        return ("percentages are left out: give --total MIB,VCORES, or write the amount as [memory=MiB,vcores=N]; "
                "a maximum-capacity of 100 is the parent's, as where none is given")
    return f"a resource is [memory=MiB,vcores=N] or [memory=MiB,vcores=N,{GPU}=N], and has no other parts"


class Percentages:
    """Capacities in percent of a cluster of this size. A `capacity` is a part of the parent's, and a `maximum-capacity`
    a part of the parent's, as Hadoop has them. They are exact, and rounded down where they are written: so the
    guarantees of children are never together more than their parent's."""

    def __init__(self, properties: Mapping[str, str], paths: Iterable[str], total: Resource) -> None:
        whole = {"memory": Fraction(total.memory), "vcores": Fraction(total.vcores)}
        if total.gpus:
            whole[GPU] = Fraction(total.gpus)
        self._amounts: Dict[str, Optional[Amounts]] = {f"root.{setting}": whole for setting in CAPACITIES}
        for path in sorted(set(paths) - {"root"}, key=lambda path: path.count(".")):
            for setting in CAPACITIES:
                usual = "100" if setting == "maximum-capacity" else "0"
                value = properties.get(f"{PREFIX}{path}.{setting}", usual)
                self._amounts[f"{path}.{setting}"] = amounts_of(value) or self._part(path, setting, value)

    def _part(self, path: str, setting: str, value: str) -> Optional[Amounts]:
        above = self._amounts.get(f"{path.rpartition('.')[0]}.{setting}")
        part = Fraction(1) if is_whole_maximum(setting, value) else percent_of(value)
        if above is None or part is None or part > 1:
            return None
        return {name: amount * part for name, amount in above.items()}

    def convert(self, path: str, setting: str, value: str) -> Converted:
        """The line of a capacity that is in percent."""
        if is_whole_maximum(setting, value):
            return Converted()
        amounts = self._amounts[f"{path}.{setting}"]
        if amounts is None:
            above = path.rpartition(".")[0]
            why = f"it is no part of the {setting} of {above}, which is no amount, or more than 100 percent"
            return Converted(why=why)
        return Converted(f"{PREFIX}{path}.{setting}={written(amounts)}")

    def zeros(self, properties: Mapping[str, str], path: str) -> Optional[Left]:
        """The guarantee of a queue that is in percent and comes to 0 of something."""
        name = f"{PREFIX}{path}.capacity"
        amounts, value = self._amounts.get(f"{path}.capacity"), properties.get(name, "")
        if path == "root" or amounts is None or percent_of(value) is None or all(int(it) for it in amounts.values()):
            return None
        return Left(name, value, f"it comes to {written(amounts)}; a leaf queue with 0 of one grants none of it")


def is_whole_maximum(setting: str, value: str) -> bool:
    """Whether a maximum is all of the parent's, which needs no line."""
    return setting == "maximum-capacity" and (value == "-1" or percent_of(value) == 1)


def convert_capacity(path: str, setting: str, value: str, percentages: Optional[Percentages]) -> Converted:
    """The line for a capacity of a queue."""
    if path == "root":
        is_all = percent_of(value) == 1
        return Converted(why=None if is_all else "root has what the nodes have, and takes no capacity")
    amounts = amounts_of(value)
    if amounts:
        return Converted(f"{PREFIX}{path}.{setting}={written(amounts)}")
    if percentages and (percent_of(value) is not None or is_whole_maximum(setting, value)):
        return percentages.convert(path, setting, value)
    return Converted(why=why_no_resource(value))


def convert_setting(path: str, setting: str, value: str, percentages: Optional[Percentages]) -> Converted:
    """The line for a setting of a queue, or why there is none."""
    key = f"{PREFIX}{path}.{setting}"
    if setting in CAPACITIES:
        return convert_capacity(path, setting, value, percentages)
    if setting == "user-limit-factor":
        whole = re.fullmatch(r"0*([1-9]\d{0,2}|1000)(\.0+)?", value)
        if path == "root":
            return Converted(why="root takes no user limit factor: a leaf queue has its own")
        return Converted(f"{key}={whole[1]}") if whole else Converted(why="a factor is a whole number from 1 to 1000")
    if setting == "state":
        if value in ("RUNNING", "STOPPED"):
            return Converted(f"{key}={value}")
        return Converted(why="a queue is RUNNING or STOPPED; a STOPPED one goes on with what it has")
    if setting == "ordering-policy":
        served = "in a leaf applications are served in order of submission, queues by how full they are"
        return Converted(why=None if value in ("fifo", "utilization") else served)
    if setting == "queues":
        return Converted(f"{key}={','.join(name.strip() for name in value.split(','))}")
    unknown = "no queue of this configuration has this path" if "." in setting else "nothing stands in its place"
    return Converted(why=next((why for name, why in OF_A_QUEUE if setting.startswith(name)), unknown))


def convert(name: str, value: str, paths: Set[str], percentages: Optional[Percentages]) -> Converted:
    """The line for a property, or why there is none."""
    if "${" in value:
        return Converted(why="a value that refers to another property is not read: write what it stands for")
    if name in LIMITS or name == f"{PREFIX}maximum-applications":
        return Converted(f"{name}={value}")
    if name == "yarn.resource-types" and value == GPU or name == f"yarn.resource-types.{GPU}.units" and not value:
        return Converted()
    if name == f"{PREFIX}resource-calculator":
        compared = f"queues are compared by their dominant resource, of memory, vcores and {GPU}"
        return Converted(why=None if value.endswith(".DominantResourceCalculator") else compared)
    if not name.startswith(PREFIX):
        return Converted(why=next(why for beginning, why in ELSEWHERE if name.startswith(beginning)))
    rest = name[len(PREFIX):]
    path = max((it for it in paths if rest.startswith(f"{it}.")), key=len, default=None)
    if path:
        return convert_setting(path, rest[len(path) + 1:], value, percentages)
    known = (why for beginning, why in [*OF_THE_CLUSTER, *OF_A_QUEUE] if rest.startswith(beginning))
    return Converted(why=next(known, "no queue of this configuration has this path"))


def convert_all(properties: Mapping[str, str], total: Optional[Resource]) -> Tuple[List[str], List[str]]:
    """The property lines, and what is said of what they don't say. With the cluster's total, percentages are
    amounts."""
    ends = [name[len(PREFIX):-len(".queues")] for name in properties
            if name.startswith(PREFIX) and name.endswith(".queues")]
    paths = {"root", *ends}
    paths |= {f"{path}.{child.strip()}" for path in ends for child in properties[f"{PREFIX}{path}.queues"].split(",")}
    percentages = Percentages(properties, paths, total) if total else None
    lines, said = [], []
    for name, value in properties.items():
        line, why = convert(name, value, paths, percentages)
        if line:
            lines.append(line)
        elif why:
            said.append(f"left out: {Left(name, value, why)}")
    zeros = (percentages.zeros(properties, path) for path in sorted(paths)) if percentages else ()
    return lines, said + [f"comes to 0: {it}" for it in zeros if it]


def main(argv: Optional[Sequence[str]] = None) -> int:
    """The command `capsched-from-hadoop`: 0 where all was said, 1 where something was left out or a guarantee comes to
    0, 2 where a file is no configuration."""
    parser = argparse.ArgumentParser(
        prog="capsched-from-hadoop", description="Writes the property lines of a Hadoop configuration.")
    parser.add_argument("scheduler", metavar="capacity-scheduler.xml")
    parser.add_argument("others", nargs="*", metavar="yarn-site.xml", help="this, and a file of resource types")
    parser.add_argument("--total", type=resource_word, metavar="MIB,VCORES[,GPUS]",
                        help="what all nodes have together: capacities in percent become amounts of it")
    words = parser.parse_args(argv)
    try:
        properties = read_all(words.scheduler, words.others)
    except (NotAConfiguration, OSError) as fault:
        print(f"capsched-from-hadoop: {fault}", file=sys.stderr)
        return 2
    lines, said = convert_all(properties, words.total)
    print(*lines, sep="\n")
    if words.total:
        print(f"percentages are amounts of {words.total} now, which stay as they are when the cluster grows: "
              "convert again with the new --total", file=sys.stderr)
    for it in said:
        print(it, file=sys.stderr)
    return 1 if said else 0


if __name__ == "__main__":
    sys.exit(main())
