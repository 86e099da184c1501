"""Batches, point by point."""

from __future__ import annotations

from dataclasses import dataclass
from enum import Enum
from typing import TYPE_CHECKING, Union

if TYPE_CHECKING:
    from wormweekly import _library

Value = Union[str, int, bool]


class Kind(Enum):
    """The kind of an instrument."""

    COUNTER = 0
    UP_DOWN_COUNTER = 1
    HISTOGRAM = 2
    GAUGE = 3


@dataclass(frozen=True, slots=True)
class Sum:
    """The sum of the values that were recorded."""

    value: int


@dataclass(frozen=True, slots=True)
class Last:
    """The value that was recorded last."""

    value: int


@dataclass(frozen=True, slots=True)
class Buckets:
    """How many values there are, and in each bucket; their sum, where there is one; the least and the greatest."""

    count: int
    counts: tuple[int, ...]
    sum: int | None
    least: int
    greatest: int


@dataclass(frozen=True, slots=True)
class Point:
    """What is reported of one series. A certified plan has no overflow point."""

    attributes: dict[str, Value]
    value: Sum | Last | Buckets
    is_overflow: bool


@dataclass(frozen=True, slots=True)
class Stream:
    """A stream with its points. Its boundaries are those of a histogram."""

    name: str
    unit: str
    description: str
    meter: str
    version: str
    schema_url: str
    kind: Kind
    is_delta: bool
    boundaries: tuple[int, ...]
    points: tuple[Point, ...]


@dataclass(frozen=True, slots=True)
class Batch:
    """What a reader collected of an instrument, from `start` to `time` in nanoseconds, and as the library's text."""

    instrument: int
    start: int
    time: int
    streams: tuple[Stream, ...]
    text: str


def batch_of(told: _library._Batch) -> Batch:
    """Names the parts of what the library told."""
    instrument, start, time, streams, text = told
    return Batch(instrument, start, time, tuple(map(_stream_of, streams)), text)


def _stream_of(told: _library._Stream) -> Stream:
    texts, kind, aggregation, is_delta, boundaries, points = told
    return Stream(*texts, Kind(kind), is_delta, boundaries, tuple(_point_of(own, aggregation) for own in points))


def _point_of(told: _library._Point, aggregation: int) -> Point:
    attributes, is_overflow, value, count, least, greatest, counts = told
    if aggregation == 2:
        return Point(attributes, Buckets(count, counts, value, least, greatest), is_overflow)
    return Point(attributes, (Sum, Last)[aggregation](value or 0), is_overflow)
