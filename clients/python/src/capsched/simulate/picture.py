"""Draws each queue's use over time as SVG: for each of the settings one chart above the other, in the same scale."""
from __future__ import annotations

from dataclasses import dataclass
from typing import Iterator, List, NamedTuple, Optional, Sequence, Tuple
from xml.sax.saxutils import escape

from ..messages import Resource
from .results import Results

TITLES = {"memory": "memory in MiB", "vcores": "vcores", "gpus": "GPUs"}
WIDTH, HEIGHT = 420, 80  # of a chart
COLUMN, ROW, HEAD, AXIS = 570, 104, 24, 30
LEFT, TOP = 20, 52
# between the times of an axis, in seconds
STEPS = (1, 2, 5, 10, 20, 30, 60, 120, 300, 600, 1800, 3600, 7200, 21_600, 86_400, 604_800, 2_592_000)
USED, RESERVED, GUARANTEE, MAXIMUM = "#7d9fc4", "#f2bb77", "#228833", "#cc3311"
APART = 12  # of two labels, at least


class Point(NamedTuple):
    """What a queue uses of one resource at a time, in milliseconds: all of it, and what of it is not reserved."""

    at: int
    used: int
    running: int


@dataclass(frozen=True)
class Chart:
    """One resource of one queue under one of the settings. `floor` is what its guarantee is called; `begin` and `span`
    are in milliseconds; `most` is the amount at the upper edge."""

    title: str
    floor: str
    points: Sequence[Point]
    guarantee: int
    maximum: Optional[int]
    begin: int
    span: int
    most: int

    def svg(self, left: int, top: int) -> Iterator[str]:
        """The chart's elements, with its corner there."""
        peak = max((it.used for it in self.points), default=0)
        maximum = "none" if self.maximum is None else self.maximum
        yield (f"<g><title>{escape(self.title)}: at most {peak} in use; {self.floor} {self.guarantee}; "
               f"maximum {maximum}</title>")
        yield f'<text x="{left}" y="{top - 5}">{escape(self.title)}</text>'
        yield f'<rect x="{left}" y="{top}" width="{WIDTH}" height="{HEIGHT}" fill="#f4f4f4"/>'
        used = [(it.at, it.used) for it in self.points]
        running = [(it.at, it.running) for it in self.points]
        if used != running:
            yield f'<path d="{self.area(used, left, top)}" fill="{RESERVED}"/>'
        yield f'<path d="{self.area(running, left, top)}" fill="{USED}"/>'
        yield from self.bounds(left, top)
        yield "</g>"

    def bounds(self, left: int, top: int) -> Iterator[str]:
        """The lines of the maximum and the guarantee, each with its label; the labels stand apart."""
        above = -APART * 1.0
        for name, value, colour, dash in (("maximum", self.maximum, MAXIMUM, ""),
                                          (self.floor, self.guarantee, GUARANTEE, ' stroke-dasharray="5,3"')):
            if value is not None:
                y = self.down(value, top)
                above = max(y + 4, above + APART)
                yield f'<path d="M{left} {y:.1f}h{WIDTH}" stroke="{colour}"{dash}/>'
                yield f'<text x="{left + WIDTH + 4}" y="{above:.1f}" fill="{colour}">{name} {value}</text>'

    def area(self, values: Sequence[Tuple[int, int]], left: int, top: int) -> str:
        """What lies under a line with a step at each change; of changes within half a pixel the last one stands."""
        path, before = f"M{left} {top + HEIGHT}", 0
        for n, (at, value) in enumerate(values):
            is_last = n + 1 == len(values)
            if is_last or value != before and self.pixel(values[n + 1][0]) != self.pixel(at):
                path += f"H{left + self.pixel(at) / 2:g}V{self.down(value, top):.1f}"
                before = value
        return f"{path}V{top + HEIGHT}Z"

    def pixel(self, at: int) -> int:
        """How many halves of a pixel a time is from the left."""
        return 2 * WIDTH * (at - self.begin) // max(self.span, 1)

    def down(self, value: int, top: int) -> float:
        return top + HEIGHT * (1 - value / self.most)


def picture(names: Sequence[str], results: Sequence[Results], total: Resource) -> str:
    """The picture of all queues: a column for memory, vcores, and GPUs where nodes have some."""
    resources = ["memory", "vcores"] + ["gpus"] * (total.gpus > 0)
    paths = list(dict.fromkeys(path for it in results for path in it.paths))
    span = max(it.samples[-1].at - it.begin for it in results)
    rows: List[str] = []
    top = TOP
    for path in paths:
        shown = [(name, it) for name, it in zip(names, results) if path in it.paths]
        for column, resource in enumerate(resources):
            charts = charts_of(path, resource, shown, total, span)
            for n, chart in enumerate(charts):
                rows += chart.svg(LEFT + COLUMN * column, top + HEAD + ROW * n)
            rows += axis(span, LEFT + COLUMN * column, top + HEAD + ROW * len(shown) - (ROW - HEIGHT))
        top += HEAD + ROW * len(shown) + AXIS
    width = LEFT + COLUMN * len(resources)
    colours = (("in use", USED), ("reserved", RESERVED), ("guarantee", GUARANTEE), ("maximum", MAXIMUM))
    legend = "  ".join(f'<tspan fill="{colour}">&#9632;</tspan> {name}' for name, colour in colours)
    return "\n".join([
        f'<svg xmlns="http://www.w3.org/2000/svg" viewBox="0 0 {width} {top}" font-family="sans-serif" font-size="12">',
        f'<rect width="{width}" height="{top}" fill="white"/>',
        f'<text x="{LEFT}" y="28" font-size="15">use of each queue over time: {legend}</text>',
        *rows, "</svg>", ""])


def charts_of(
    path: str, resource: str, shown: Sequence[Tuple[str, Results]], total: Resource, span: int
) -> List[Chart]:
    """The charts of one resource of a queue, one for each of the settings, in one scale. `root` has what the nodes have
    in place of a guarantee."""
    found = []
    for name, results in shown:
        index, report = results.paths.index(path), results.reports[path]
        points = [Point(at, getattr(queues[index].used, resource),
                        getattr(queues[index].used, resource) - getattr(queues[index].reserved, resource))
                  for at, queues in results.samples]
        guarantee = getattr(total if path == "root" else report.guaranteed, resource)
        maximum = getattr(report.maximum, resource) if report.maximum else None
        floor = "of the nodes" if path == "root" else "guarantee"
        found.append((f"{path}, {TITLES[resource]}, {name}", floor, points, guarantee, maximum, results.begin))
    most = max([1, *(max([it.used for it in points] + [guarantee, maximum or 0])
                     for _, _, points, guarantee, maximum, _ in found)])
    return [Chart(*values, span, most) for values in found]


def axis(span: int, left: int, top: int) -> Iterator[str]:
    """The times under a column of charts, counted from the first job."""
    step = next((it for it in STEPS if it * 6000 >= span), STEPS[-1])
    for seconds in range(0, span // 1000 + 1, step):
        x = left + WIDTH * 1000 * seconds / max(span, 1)
        yield f'<path d="M{x:.1f} {top}v5" stroke="#555"/>'
        yield f'<text x="{x:.1f}" y="{top + 17}" text-anchor="middle" fill="#555">{clock(seconds)}</text>'


def clock(seconds: int) -> str:
    """Hours, minutes and seconds, as far as they are needed."""
    minutes, hours = seconds // 60, seconds // 3600
    return f"{hours}:{minutes % 60:02}:{seconds % 60:02}" if hours else f"{minutes}:{seconds % 60:02}"
