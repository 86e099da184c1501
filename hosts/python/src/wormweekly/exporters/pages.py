"""A page for Prometheus that goes on where a run ends.

    page = Page(metrics, metrics.reader("prometheus"), {"service.name": "shop"})
    dialect, body = page.answer(accept)  # for whoever asks with this header `Accept`
"""

from __future__ import annotations

import threading
from collections.abc import Callable
from dataclasses import dataclass, field

from wormweekly import Attributes, Dialect, Ended, Metrics, Reader
from wormweekly._metrics import at_fork

__all__ = ["Page"]

Gauge = Callable[[str], "str | None"]  # what a gauge's series is called in a page, or that it is left out

_ADDED = ("counter", "histogram")


class Page:
    """A page of all instruments, by a cumulative reader, as text 0.0.4 or in OpenMetrics. What runs counted that ended
    is added; what is no counter and no histogram is that of the run that is under way."""

    def __init__(
        self,
        metrics: Metrics,
        reader: Reader,
        resource: Attributes | None = None,
        *,
        roll_over_below: float | None = None,
        created: bool = False,
    ) -> None:
        """The metrics roll over when a page is asked for, where less than this part of a budget is left: if nothing is
        said, half of it, where they have no other reader; else hand `take` the runs that end. With `created`, pages in
        OpenMetrics say when counters and histograms began, in lines `_created`: a server that does not take them as that
        keeps each as a series more. Raises an `ExposureFault`, a `ResourceRefusal`."""
        reader.expose()
        self._metrics, self._reader, self._resource = metrics, reader, resource or {}
        self._roll_over_below = roll_over_part(metrics) if roll_over_below is None else roll_over_below
        self._open_metrics = Dialect.OPEN_METRICS_CREATED if created else Dialect.OPEN_METRICS
        self._begin()
        self.text()
        at_fork(self, after_in_child=Page._begin)

    def _begin(self) -> None:
        """Begins, or begins anew in the child of a fork: what ended before is the parent's, who may have held the
        lock."""
        self._turn = threading.Lock()
        self._ended: dict[Dialect, str] = {}

    def text(self) -> str:
        """The page as text 0.0.4."""
        return self._page(Dialect.TEXT)

    def answer(self, accept: str) -> tuple[Dialect, bytes]:
        """The page for whoever asks with this header `Accept`, and how it is written."""
        is_text = Dialect.accepted(accept) is Dialect.TEXT
        dialect = Dialect.TEXT if is_text else self._open_metrics
        return dialect, self._page(dialect).encode()

    def take(self, ended: Ended) -> None:
        """Adds a run that ended."""
        with self._turn:
            self._take(ended)

    def _page(self, dialect: Dialect) -> str:
        with self._turn:
            if self._metrics.part_left() < self._roll_over_below:
                self._take(self._metrics.roll_over())
            return self._added(self._metrics, dialect, str)

    def _take(self, ended: Ended) -> None:
        dialects = (Dialect.TEXT, self._open_metrics)
        self._ended = {dialect: self._added(ended, dialect, no_gauge) for dialect in dialects}

    def _added(self, metrics: Metrics, dialect: Dialect, gauge: Gauge) -> str:
        made = Pages()
        made.add(self._ended.get(dialect, ""), no_gauge)
        page = metrics.page(metrics.readers[self._reader.number], self._resource, dialect=dialect)
        made.add(page.decode(), gauge)
        return made.text() if dialect is Dialect.TEXT else made.text() + "# EOF\n"


def roll_over_part(metrics: Metrics) -> float:
    """Below which part of a budget the only reader's driver rolls over: another reader would lose what it did not
    collect."""
    return 0.5 if len(metrics.readers) == 1 else 0.0


def no_gauge(series: str) -> None:
    """Leaves gauges out."""
    return None


@dataclass(slots=True)
class _Family:
    kind: str
    head: list[str] = field(default_factory=list)
    samples: dict[str, str] = field(default_factory=dict)


class Pages:
    """Pages of one dialect that are added up."""

    def __init__(self) -> None:
        self._families: dict[str, _Family] = {}

    def add(self, page: str, gauge: Gauge) -> None:
        described, family = "", _Family("")
        for line in page.split("\n"):
            if line.startswith("# HELP "):
                described = line
            elif line.startswith("# TYPE "):
                name, kind = line.split(" ")[2:4]
                family = self._families.setdefault(name, _Family(kind))
                family.head = [described, line]
            elif line.startswith("# UNIT "):
                family.head.append(line)
            elif line and line != "# EOF":
                _add(family, line, gauge)

    def text(self) -> str:
        lines: list[str] = []
        for family in self._families.values():
            lines += family.head
            lines += (f"{series} {value}" for series, value in family.samples.items())
        return "".join(f"{line}\n" for line in lines)


def _add(family: _Family, line: str, gauge: Gauge) -> None:
    series, _, number = line.rpartition(" ")
    if family.kind not in _ADDED:
        named = series if series.startswith("target_info{") else gauge(series)
        if named is not None:
            family.samples[named] = number
    elif series.partition("{")[0].endswith("_created"):
        family.samples.setdefault(series, number)
    else:
        family.samples[series] = str(int(family.samples.get(series, "0")) + int(number))
