"""Tables of results, side by side for several settings, and the files that have them in whole."""
from __future__ import annotations

import csv
from dataclasses import dataclass
from enum import Enum
from typing import Iterator, List, Optional, Sequence, TextIO

from ..messages import Resource
from .jobs import Amounts
from .results import JobRow, Results, Tally

AMOUNTS = ("memory", "vcores", "gpus")
JOBS_HEAD = ("config", "job", "queue", "user", "state", "submit_ms", "first_ms", "last_ms", "end_ms", "first_wait_ms",
             "last_wait_ms", "containers", "granted")
QUEUES_HEAD = ("config", "time_ms", "queue", *AMOUNTS, *(f"reserved_{name}" for name in AMOUNTS), "applications",
               "wanted_containers")


class Unit(Enum):
    """What a value of a table counts: how many of the unit make up 1 in print, and how many digits follow the point."""

    COUNT = (1, 0)
    SECONDS = (1000, 3)
    PERCENT = (100, 2)

    def show(self, value: int) -> str:
        """The value in print."""
        one, digits = self.value
        sign, value = "-" if value < 0 else "", abs(value)
        return f"{sign}{value // one}" + (f".{value % one:0{digits}}" if digits else "")


@dataclass(frozen=True)
class Row:
    """A line of a table: of each of the settings a whole number of its unit, None where there is none."""

    label: str
    unit: Unit
    values: Sequence[Optional[int]]

    def cells(self) -> Iterator[str]:
        """The values, and after each but the first how much it is more than the first."""
        first = self.values[0]
        for n, value in enumerate(self.values):
            yield "-" if value is None else self.unit.show(value)
            if n:
                difference = None if value is None or first is None else value - first
                yield "-" if difference is None else ("+" if difference > 0 else "") + self.unit.show(difference)


def rank(waits: Sequence[int], percent: int) -> int:
    """The wait that so many percent of the jobs did not pass: the least for which that holds."""
    return sorted(waits)[-(-len(waits) * percent // 100) - 1]


def waits_rows(label: str, tallies: Sequence[Sequence[int]]) -> List[Row]:
    """Mean, median, 95th percentile and longest of waits, in milliseconds."""
    def of(name: str, values: List[Optional[int]]) -> Row:
        return Row(f"  {name}", Unit.SECONDS, values)

    return [
        Row(label, Unit.SECONDS, []),
        of("mean", [(2 * sum(it) + len(it)) // (2 * len(it)) if it else None for it in tallies]),
        of("median", [rank(it, 50) if it else None for it in tallies]),
        of("95th percentile", [rank(it, 95) if it else None for it in tallies]),
        of("longest", [max(it) if it else None for it in tallies]),
    ]


def share(spent: Amounts, name: str, total: Resource, span: int) -> Optional[int]:
    """How much of what the cluster has in so many milliseconds was taken, in hundredths of a percent."""
    whole = getattr(total, name) * span
    return (2 * 10_000 * int(getattr(spent, name)) + whole) // (2 * whole) if whole else None


def rows_of(tallies: Sequence[Tally], results: Sequence[Results], total: Resource) -> List[Row]:
    """The rows of a queue, or of the whole cluster."""
    spans = [it.end - it.begin for it in results]
    rows = [
        Row("jobs", Unit.COUNT, [it.jobs for it in tallies]),
        Row("  refused", Unit.COUNT, [it.refused for it in tallies]),
        Row("  never granted all", Unit.COUNT, [it.waiting for it in tallies]),
        Row("containers", Unit.COUNT, [it.containers for it in tallies]),
    ]
    for name in AMOUNTS[:3 if total.gpus else 2]:
        used = [share(it.ran, name, total, span) for it, span in zip(tallies, spans)]
        rows.append(Row(f"{name} used, % of the cluster", Unit.PERCENT, used))
        held = [share(it.held, name, total, span) for it, span in zip(tallies, spans)]
        rows.append(Row(f"{name} reserved, % of the cluster", Unit.PERCENT, held))
    rows += waits_rows("wait for the first container, s", [it.first_waits for it in tallies])
    rows += waits_rows("wait for the last container, s", [it.last_waits for it in tallies])
    return rows


def table(names: Sequence[str], results: Sequence[Results], total: Resource) -> List[str]:
    """The lines of the tables: first of the cluster, then of each queue. Rows of refused and waiting jobs and of
    reservations stand only where there are some."""
    makespan = Row("makespan, s", Unit.SECONDS, [it.end - it.begin for it in results])
    whole = rows_of([it.total() for it in results], results, total)
    blocks = [("the cluster", [*whole[:4], makespan, *whole[4:]])]
    for path in dict.fromkeys(path for it in results for path in it.queues):
        blocks.append((path, rows_of([it.queues.get(path, Tally()) for it in results], results, total)))
    heads = [cell for n, name in enumerate(names) for cell in [name, *["difference"] * (n > 0)]]
    rows = [row for _, rows in blocks for row in rows]
    label_width = max(len(it) for it in [*(row.label for row in rows), *(head for head, _ in blocks)])
    widths = [max(len(cell) for cell in column) for column in zip(heads, *(row.cells() for row in rows if row.values))]
    lines = []
    for head, block in blocks:
        lines += [line(head, heads, label_width, widths)]
        lines += [line(row.label, list(row.cells()) if row.values else [], label_width, widths)
                  for row in block if is_shown(row)]
        lines.append("")
    return lines[:-1]


def is_shown(row: Row) -> bool:
    """Whether a row says something: those of what is rare are left out where it is nothing."""
    is_rare = row.label.startswith(("  refused", "  never")) or " reserved" in row.label
    return not is_rare or any(row.values)


def line(label: str, cells: Sequence[str], label_width: int, widths: Sequence[int]) -> str:
    return "  ".join([label.ljust(label_width), *(cell.rjust(width) for cell, width in zip(cells, widths))]).rstrip()


def write_job(file: TextIO, config: str, row: JobRow) -> None:
    """Adds a job to `jobs.csv`."""
    job = row.job
    waits = [None if at is None else at - job.submit for at in (row.first, row.last)]
    csv.writer(file, lineterminator="\n").writerow([
        config, job.name, row.queue, job.user, row.state, job.submit, row.first, row.last, row.end, *waits,
        job.containers, row.granted])


def write_queues(file: TextIO, config: str, results: Results) -> None:
    """Adds the samples of all queues to `queues.csv`."""
    writer = csv.writer(file, lineterminator="\n")
    for at, queues in results.samples:
        for path, it in zip(results.paths, queues):
            amounts = [getattr(of, name) for of in (it.used, it.reserved) for name in AMOUNTS]
            writer.writerow([config, at, path, *amounts, it.applications, it.wanted])
