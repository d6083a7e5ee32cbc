"""The state as a page for people, in the manner of the resource manager's scheduler page."""
from __future__ import annotations

import math
import time
from html import escape
from importlib import resources
from string import Template
from typing import Dict, Iterator, List, Sequence, Tuple

from ..watch import Amount
from .looking import RESOURCES, WINDOW, History, Look, State

TEMPLATE = Template(resources.files(__package__).joinpath("page.html").read_text("utf-8"))
FOOTER = '<footer class="faint"><a href="/metrics">/metrics</a> <a href="/state.json">/state.json</a></footer>'
TITLES = {"memory": "Memory", "vcores": "vcores", "gpus": "GPUs"}
LEGEND = (
    '<p class="legend faint"><span><i class="within"></i>within the guarantee</span>'
    '<span><i class="beyond"></i>beyond it</span><span><i class="full"></i>at its maximum</span>'
    '<span><i class="mark"></i>the guarantee</span>'
    "<span>a bar is as long as the maximum, or where there is none as the nodes</span>"
    "<span>a reservation counts as use</span>"
    "<span>small lines: the last ten minutes, of the resource of which most is used</span></p>"
)


def said(name: str, amount: int) -> str:
    """An amount with its unit: memory from 1 GiB on in GiB, and from 1 TiB on in TiB, to one place behind the point."""
    if name != "memory" or not amount:
        return f"{amount:,}"
    for unit, size in (("TiB", 1 << 20), ("GiB", 1 << 10)):
        if amount >= size:
            return f"{amount / size:,.1f}".removesuffix(".0") + f" {unit}"
    return f"{amount} MiB"


def kind_of(amount: Amount) -> str:
    return "full" if amount.is_full() else "beyond" if amount.is_over_guarantee() else "within"


def percent(part: int, whole: int) -> str:
    return f"{min(100.0, 100.0 * part / whole) if whole else 0.0:.1f}%"


def bar(name: str, amount: Amount, is_root: bool) -> str:
    """One resource: a bar of the use with a mark at the guarantee, and the amounts in words."""
    used, most = said(name, amount.used), said(name, amount.most)
    of = "of all nodes" if is_root else "no maximum" if amount.maximum is None else "at its maximum" * amount.is_full()
    least = f"guarantee {said(name, amount.guaranteed)}" if amount.guaranteed else "no guarantee"
    whole = max(amount.most, amount.used)
    has_mark = not is_root and 0 < amount.guaranteed < whole
    mark = f'<span class="guarantee" style="left:{percent(amount.guaranteed, whole)}"></span>' if has_mark else ""
    notes = of if is_root else f"{least}, {of}" if of else least
    return (
        f'<span class="what"><span>{TITLES[name]}</span><span>{used} of {most}</span></span>'
        f'<span class="bar"><i class="use {kind_of(amount)}" style="width:{percent(amount.used, whole)}"></i>'
        f"{mark}</span>"
        f"<small>{notes}</small>"
    )


def line(moments: Sequence[Tuple[float, float]]) -> str:
    """The last ten minutes of a queue as a small line, broken where the daemon did not answer."""
    steps, pen = [], "M"
    for ago, share in moments:
        if math.isnan(share):
            pen = "M"
            continue
        steps.append(f"{pen}{100 - 100 * ago / WINDOW:.1f} {29 - 28 * min(share, 1.0):.1f}")
        pen = "L"
    shares = [share for _, share in moments if not math.isnan(share)]
    words = f"now {100 * shares[-1]:.0f} %, most {100 * max(shares):.0f} %" if shares else "nothing seen yet"
    return (
        f'<svg class="line" viewBox="0 0 100 30" preserveAspectRatio="none" role="img" '
        f'aria-label="the last ten minutes: {words} of its maximum">'
        f'<rect width="100" height="30"></rect><path d="{"".join(steps)}"></path></svg>'
    )


def shown(look: Look) -> List[str]:
    """The resources that are shown: GPUs where there are some."""
    has_gpus = look.cluster.total.gpus or any(it.guaranteed.gpus or it.used.gpus for it in look.queues.values())
    return [name for name in RESOURCES if name != "gpus" or has_gpus]


def counted(count: int, what: str) -> str:
    return f"{count:,} {what}{'' if count == 1 else 's'}"


class Tree:
    """The queues of a look, each as a row with those below it."""

    def __init__(self, look: Look, history: History, now: float) -> None:
        self.look, self.history, self.now, self.names = look, history, now, shown(look)
        self.below: Dict[str, List[str]] = {path: [] for path in look.queues}
        for path in look.queues:
            above = path.rpartition(".")[0]
            if above in self.below:
                self.below[above].append(path)

    def cells(self, path: str) -> Iterator[str]:
        """What changes of a row: its name with its state, a bar for each resource, and the line."""
        report, words = self.look.queues[path], escape(path)
        state = "RUNNING" if report.running else '<span class="stopped">STOPPED</span>'
        yield (
            f'<span class="name" style="--depth:{path.count(".")}" data-live="name {words}">'
            f"<b>{escape(path.rpartition('.')[2])}</b>"
            f"<small>{state}, {counted(report.applications, 'application')}</small></span>"
        )
        for name, amount in zip(RESOURCES, self.look.amounts(path)):
            if name in self.names:
                yield f'<span class="cell" data-live="{name} {words}">{bar(name, amount, path == "root")}</span>'
        moments = self.history.shares(path, self.now)
        yield f'<span class="history" data-live="line {words}">{line(moments)}</span>'

    def item(self, path: str) -> str:
        row = "".join(self.cells(path))
        if not self.below[path]:
            return f'<li><div class="row">{row}</div></li>'
        items = "".join(self.item(it) for it in self.below[path])
        return f'<li><details open="open"><summary class="row">{row}</summary><ul>{items}</ul></details></li>'


def clock(at: float) -> str:
    return time.strftime("%H:%M:%S", time.localtime(at))


def of_daemon(state: State) -> str:
    """Whether the daemon answers, in words."""
    daemon = escape(state.daemon)
    if state.is_up and state.last:
        words = f"{daemon} answered in {1000 * state.last.seconds:.1f} ms, at {clock(state.last.at)}"
    else:
        since = f"; this is what was seen at {clock(state.last.at)}" if state.last else ""
        words = f"{daemon} does not answer: {escape(state.fault or '')}{since}"
    return f'<p role="status" data-live="daemon" class="{"good" if state.is_up else "bad"}">{words}</p>'


def of_cluster(look: Look) -> str:
    """What there is in all."""
    cluster = look.cluster
    counts = (("nodes", cluster.nodes), ("applications", cluster.applications), ("containers", cluster.containers))
    items = "".join(f"<div><dt>{name}</dt><dd>{count:,}</dd></div>" for name, count in counts)
    amounts = {name: (getattr(cluster.used, name), getattr(cluster.total, name)) for name in shown(look)}
    bars = "".join(
        f'<div class="cell" data-live="all {name}">{bar(name, Amount(used, total, None, total), True)}</div>'
        for name, (used, total) in amounts.items()
    )
    return (
        f'<section class="totals card" aria-label="Cluster"><dl class="counts" data-live="counts">{items}</dl>'
        f"{bars}</section>"
    )


def of_counters(state: State) -> str:
    """The daemon's own counters, where it tells them."""
    words = ", ".join(f"{escape(name)} {count:,}" for name, count in state.counters.items())
    return f'<p class="faint" data-live="counters">{"Since it began: " + words if words else ""}</p>'


def of_look(look: Look, history: History) -> str:
    """The cluster and the tree of its queues."""
    tree = Tree(look, history, time.time())
    roots = [path for path in look.queues if path.rpartition(".")[0] not in look.queues]
    items = "".join(tree.item(path) for path in roots)
    names = escape(", ".join(look.unknown))
    unknown = f"The daemon has no queue {names}: is --config its file?" if names else ""
    return (
        f'{of_cluster(look)}<h2>Queues</h2>{LEGEND}<ul class="queues card">{items}</ul>'
        f'<p class="bad" data-live="unknown">{unknown}</p>'
    )


def page_of(state: State, history: History, every: float) -> str:
    """The page: one document, which asks for itself again every so many seconds. Where the daemon does not answer, it
    shows its last answer, and says so."""
    look = state.last
    main = (of_look(look, history) if look else "") + of_counters(state) + FOOTER
    columns = len(shown(look)) if look else 0
    daemon = escape(state.daemon)
    return TEMPLATE.substitute(every=every, daemon=daemon, status=of_daemon(state), columns=columns, main=main)
