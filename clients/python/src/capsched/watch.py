"""An operator's screen for a running `capsched serve`: the tree of queues, each with its use against its guarantee and
its maximum, and what there is in all.

    capsched-watch 7070 --config examples/serve.conf

It takes one of the daemon's connections (`--connections`), and looks once a second until the daemon or Ctrl-C ends it.
`--once` prints the screen once; `--svg FILE` writes at the end a picture of each queue's use over time, with its
guarantee and its maximum as lines. The queues are those of the settings file."""
from __future__ import annotations

import argparse
import os
import signal
import sys
import time
from dataclasses import dataclass
from typing import Dict, Iterator, List, Optional, Sequence, Tuple
from xml.sax.saxutils import escape

from .arguments import port, seconds
from .connection import Connection
from .messages import BadReply, ClusterInfo, ClusterReport, QueueInfo, QueueReport, Refused

BAR = 20
TITLES = {"memory": "memory in MiB", "vcores": "vcores", "gpus": "GPUs"}
LEGEND = (
    "# in use within the guarantee, + beyond it, | where the guarantee ends; "
    "a queue without a maximum is shown against what the nodes have"
)
COLOURS = {"use": "#4477aa", "guarantee": "#228833", "maximum": "#cc3311"}
WITHIN, OVER, FULL, STOPPED, RESET = "\033[32m", "\033[33m", "\033[31m", "\033[2m", "\033[0m"


def queues_of(lines: Sequence[str]) -> List[str]:
    """The paths of all queues in property lines, each before those below it."""
    children: Dict[str, List[str]] = {}
    for line in lines:
        key, _, value = line.partition("=")
        words = key.strip().split(".")
        if not line.startswith("#") and words[:3] == ["yarn", "scheduler", "capacity"] and words[-1] == "queues":
            children[".".join(words[3:-1])] = [name.strip() for name in value.split(",")]

    def under(path: str) -> List[str]:
        return [path, *(it for name in children.get(path, []) for it in under(f"{path}.{name}"))]

    return under("root")


def queues_in(file: str) -> List[str]:
    """The paths of all queues in a settings file. OSError where it can't be read."""
    with open(file, encoding="ascii", errors="replace") as it:
        return queues_of(it.read().splitlines())


@dataclass
class Seen:
    """What was seen of the cluster and of its queues at a moment, in seconds since the first look."""

    at: float
    cluster: ClusterReport
    queues: List[QueueReport]


def look(connection: Connection, paths: Sequence[str], at: float) -> Seen:
    """Asks for the cluster and these queues. OSError where the connection broke. Refused: UnknownQueue."""
    pending = [connection.send(QueueInfo(path)) for path in paths]
    cluster = connection.send(ClusterInfo())
    return Seen(at, cluster.result(), [it.result() for it in pending])


@dataclass
class Amount:
    """One resource of a queue: what is in use, what is guaranteed, and the most that there may be: the queue's maximum,
    or what the nodes have."""

    used: int
    guaranteed: int
    maximum: Optional[int]
    total: int

    @property
    def most(self) -> int:
        return self.total if self.maximum is None else self.maximum

    def is_full(self) -> bool:
        return 0 < self.most <= self.used

    def is_over_guarantee(self) -> bool:
        return self.used > self.guaranteed

    def bar(self) -> str:
        """The use as a bar, `#` within the guarantee and `+` beyond it, with `|` where the guarantee ends."""
        most = max(self.most, self.used, 1)
        cells = ["+" if n * most >= self.guaranteed * BAR else "#" for n in range(-(-self.used * BAR // most))]
        cells += ["."] * (BAR - len(cells))
        mark = self.guaranteed * BAR // most
        if 0 < mark < BAR:
            cells[mark] = "|"
        return "".join(cells)


def resources(clusters: Sequence[ClusterReport]) -> List[str]:
    """The resources that are shown: GPUs where the nodes have had some."""
    return ["memory", "vcores"] + ["gpus"] * any(it.total.gpus for it in clusters)


def amounts(names: Sequence[str], path: str, report: QueueReport, cluster: ClusterReport) -> List[Amount]:
    """These resources of a queue. What the nodes have is `root`'s, which has no guarantee of its own."""
    guaranteed = cluster.total if path == "root" else report.guaranteed

    def amount(name: str) -> Amount:
        used, least, total = (int(getattr(it, name)) for it in (report.used, guaranteed, cluster.total))
        return Amount(used, least, getattr(report.maximum, name) if report.maximum else None, total)

    return [amount(name) for name in names]


def heading(cluster: ClusterReport, names: Sequence[str]) -> str:
    """What there is in all."""
    used, total = cluster.used, cluster.total
    return (
        f"nodes {cluster.nodes}   applications {cluster.applications}   containers {cluster.containers}   "
        f"memory {used.memory} of {total.memory} MiB   vcores {used.vcores} of {total.vcores}"
        + (f"   GPUs {used.gpus} of {total.gpus}" if "gpus" in names else "")
    )


def screen(paths: Sequence[str], seen: Seen, has_colour: bool) -> List[str]:
    """The lines of the screen."""

    def coloured(text: str, colour: str) -> str:
        return f"{colour}{text}{RESET}" if has_colour else text

    def cell(amount: Amount) -> str:
        colour = FULL if amount.is_full() else OVER if amount.is_over_guarantee() else WITHIN
        return f"{coloured(amount.bar(), colour)} {f'{amount.used} of {amount.most}':23}"

    names = resources([seen.cluster])
    titles = [f"{'  ' * path.count('.')}{path.rpartition('.')[2]}" for path in paths]
    width = max(5, *(len(title) for title in titles))
    heads = "  ".join(f"{TITLES[name].split()[0]} of its maximum".ljust(BAR + 24) for name in names)
    lines = [heading(seen.cluster, names), "", f"{'queue':{width}}  {'state':7}  {'apps':>5}  {heads}".rstrip()]
    for title, path, report in zip(titles, paths, seen.queues):
        cells = "  ".join(cell(amount) for amount in amounts(names, path, report, seen.cluster))
        state = "RUNNING" if report.running else coloured("STOPPED", STOPPED)
        lines.append(f"{title:{width}}  {state}  {report.applications:>5}  {cells}".rstrip())
    return [*lines, "", LEGEND]


@dataclass
class Chart:
    """One resource of one queue over time, as a part of the picture."""

    title: str
    guarantee: str
    times: List[float]
    amounts: List[Amount]
    left: int
    top: int
    width: int = 400
    height: int = 90

    @property
    def floor(self) -> int:
        return self.top + self.height

    def across(self) -> List[float]:
        """Where each look stands, from left to right."""
        span = max(self.times[-1] - self.times[0], 1e-9)
        return [self.left + self.width * (at - self.times[0]) / span for at in self.times]

    def down(self, value: int) -> float:
        """Where a value stands, from the top."""
        values = (it for amount in self.amounts for it in (amount.used, amount.guaranteed, amount.maximum or 0))
        return self.top + self.height * (1 - value / max(1, *values))

    def points(self) -> Iterator[Tuple[float, float]]:
        """The line of the use, with a step at each look: what was seen holds until the next."""
        heights = [self.down(amount.used) for amount in self.amounts]
        for x, before, height in zip(self.across(), heights[:1] + heights, heights):
            yield x, before
            yield x, height

    def title_and_use(self) -> List[str]:
        last, across = self.amounts[-1], self.across()
        line = " ".join(f"{x:.1f},{y:.1f}" for x, y in self.points())
        numbers = " ".join(str(it.used) for it in self.amounts)
        title, maximum = escape(self.title), "none" if last.maximum is None else last.maximum
        return [
            f"<g><title>{title}: use {numbers}; {self.guarantee} {last.guaranteed}; maximum {maximum}</title>",
            f'<text x="{self.left}" y="{self.top - 8}">{title}</text>',
            f'<rect x="{self.left}" y="{self.top}" width="{self.width}" height="{self.height}" fill="#f4f4f4"/>',
            f'<polygon points="{across[0]:.1f},{self.floor} {line} {across[-1]:.1f},{self.floor}" '
            f'fill="{COLOURS["use"]}" fill-opacity="0.35"/>',
            f'<polyline points="{line}" fill="none" stroke="{COLOURS["use"]}" stroke-width="1.5"/>',
        ]

    def limit(self, name: str, value: int, colour: str, dash: str) -> List[str]:
        """A line across at an amount, with its name beside it."""
        y, right = self.down(value), self.left + self.width
        return [
            f'<line x1="{self.left}" x2="{right}" y1="{y:.1f}" y2="{y:.1f}" '
            f'stroke="{colour}" stroke-dasharray="{dash}"/>',
            f'<text x="{right + 4}" y="{y + 4:.1f}" fill="{colour}">{name} {value}</text>',
        ]

    def svg(self) -> List[str]:
        last = self.amounts[-1]
        rows = self.title_and_use() + self.limit(self.guarantee, last.guaranteed, COLOURS["guarantee"], "5,3")
        if last.maximum is not None:
            rows += self.limit("maximum", last.maximum, COLOURS["maximum"], "none")
        return [*rows, "</g>"]


def picture(paths: Sequence[str], history: Sequence[Seen]) -> str:
    """Each queue's use over time as SVG: memory at the left, vcores and then GPUs beside it, a row a queue."""
    names, times = resources([seen.cluster for seen in history]), [seen.at for seen in history]
    rows: List[str] = []
    for n, path in enumerate(paths):
        over_time = [amounts(names, path, seen.queues[n], seen.cluster) for seen in history]
        guarantee = "of the nodes" if path == "root" else "guarantee"
        for column, name in enumerate(names):
            shown = [it[column] for it in over_time]
            rows += Chart(f"{path}: {TITLES[name]}", guarantee, times, shown, 20 + 560 * column, 40 + 150 * n).svg()
    height, width = 40 + 150 * len(paths), 20 + 560 * len(names)
    return "\n".join([
        f'<svg xmlns="http://www.w3.org/2000/svg" viewBox="0 0 {width} {height}" '
        'font-family="sans-serif" font-size="12">',
        f'<rect width="{width}" height="{height}" fill="white"/>',
        *rows,
        f'<text x="20" y="{height - 12}">use of each queue over {times[-1] - times[0]:.0f} s</text>',
        "</svg>",
        "",
    ])


def watch(connection: Connection, paths: Sequence[str], words: argparse.Namespace) -> List[Seen]:
    """Looks and shows until the daemon or the operator ends it: what was seen."""
    history: List[Seen] = []
    has_colour, began = sys.stdout.isatty() and "NO_COLOR" not in os.environ, time.monotonic()
    clear = "\033[H\033[2J" if has_colour and not words.once else ""
    try:
        while True:
            history.append(look(connection, paths, time.monotonic() - began))
            print(clear + "\n".join(screen(paths, history[-1], has_colour)), flush=True)
            if words.once or words.looks and len(history) >= words.looks:
                return history
            time.sleep(words.every)
    except (ConnectionError, KeyboardInterrupt):
        return history


def parse(argv: Optional[Sequence[str]]) -> argparse.Namespace:
    parser = argparse.ArgumentParser(
        prog="capsched-watch", description="Shows the queues of a running `capsched serve`.")
    parser.add_argument("port", type=port, help="the daemon's port on 127.0.0.1")
    parser.add_argument("--config", required=True, help="the settings file of the daemon")
    parser.add_argument("--once", action="store_true", help="print the screen once")
    parser.add_argument("--svg", metavar="FILE", help="write a picture of each queue's use over time")
    parser.add_argument(
        "--every", type=seconds, default=1.0, metavar="SECONDS", help="how often to look, 1 s if not given")
    parser.add_argument("--looks", type=int, metavar="N", help="end after so many looks")
    return parser.parse_args(argv)


def run(words: argparse.Namespace) -> None:
    paths = queues_in(words.config)
    with Connection.to_port(words.port) as connection:
        history = watch(connection, paths, words)
    if words.svg and history:
        with open(words.svg, "w", encoding="utf-8") as it:
            it.write(picture(paths, history))


def main(argv: Optional[Sequence[str]] = None) -> int:
    """The command `capsched-watch`: 0; 1 where a file can't be read or written, the daemon isn't there, or it has other
    queues."""
    words = parse(argv)
    # ended by SIGTERM it draws its picture too
    signal.signal(signal.SIGTERM, signal.default_int_handler)
    try:
        run(words)
    except (OSError, BadReply, Refused) as fault:
        print(f"capsched-watch: {fault}", file=sys.stderr)
        return 1
    return 0


if __name__ == "__main__":
    sys.exit(main())
