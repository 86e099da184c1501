"""The instruments of a run, and the seats of its recorders and readers."""

from __future__ import annotations

import os
import time
import weakref
from collections.abc import Callable, Iterable, Mapping
from dataclasses import dataclass
from enum import IntEnum
from typing import TypeVar

from wormweekly import _library
from wormweekly._batches import Batch, Kind, Value, batch_of
from wormweekly._refusals import ClosedRefusal, MeaningFault, Teller

Attributes = Mapping[str, Value]

_INSTRUMENT_NAME, _METER_NAME, _RECORDER_NAME, _READER_NAME = range(4)


class Dialect(IntEnum):
    """How a page for Prometheus is written: the text format 0.0.4, OpenMetrics 1.0, or that with lines `_created`."""

    TEXT = 0
    OPEN_METRICS = 1
    OPEN_METRICS_CREATED = 2

    @property
    def content_type(self) -> str:
        """What a page is served as."""
        if self is Dialect.TEXT:
            return "text/plain; version=0.0.4; charset=utf-8"
        return "application/openmetrics-text; version=1.0.0; charset=utf-8"

    @classmethod
    def accepted(cls, accept: str) -> Dialect:
        """That for whoever asks with this header `Accept`: OpenMetrics where it is named, with no less weight than
        plain text."""
        weights = {"application/openmetrics-text": 0.0, "text/plain": 0.0}
        for one in accept.lower().split(","):
            name, *parameters = (word.strip() for word in one.split(";"))
            if name in weights:
                weights[name] = max(weights[name], _weight(parameters))
        open_metrics, text = weights.values()
        return cls.OPEN_METRICS if 0.0 < open_metrics >= text else cls.TEXT


def accepts_gzip(accept: str) -> bool:
    """Whether whoever asks with this header `Accept-Encoding` takes a page that is packed by gzip."""
    weights: dict[str, float] = {}
    for one in accept.lower().split(","):
        name, *parameters = (word.strip() for word in one.split(";"))
        name = "gzip" if name == "x-gzip" else name
        weights[name] = max(weights.get(name, 0.0), _weight(parameters))
    return weights.get("gzip", weights.get("*", 0.0)) > 0.0


def _weight(parameters: Iterable[str]) -> float:
    """The weight that a part of such a header has; none, where it says what is no weight."""
    said = next((one[2:] for one in parameters if one.startswith("q=")), "1")
    try:
        weight = float(said)
    except ValueError:
        return 0.0
    return weight if 0.0 <= weight <= 1.0 else 0.0


def lint(catalogue: str, config: str) -> list[str]:
    """The remarks that `wormweekly lint` has on a catalogue and a config, a line each with its place: what looks like a
    mistake, also that the two are not safe together. At most a hundred are told, and in one more line how many there
    are beside these. A fault of the texts is raised as an `OpenFault`."""
    return _library.Run.lint(catalogue, config).split("\n")[:-1]


class UnknownName(LookupError):
    """There is nothing of this name, or more than one."""


@dataclass(frozen=True, slots=True)
class Total:
    """What an instrument comes to: how many recordings were accepted, and the sum of their values."""

    count: int
    sum: int


@dataclass(frozen=True, slots=True)
class Budget:
    """How many recordings a recorder may make on an instrument, declared and granted; how many it made; the rest."""

    declared: int
    granted: int
    spent: int
    left: int


@dataclass(frozen=True, slots=True)
class Spare:
    """How many recordings may be granted on an instrument beside the budgets; how many were granted; what is left."""

    declared: int
    granted: int
    left: int


@dataclass(frozen=True, slots=True)
class ExpectedKey:
    """A key of an instrument, as a program was made for it: its name, its values in order, at least one, and whether a
    recording may leave it out."""

    name: str
    values: tuple[Value, ...]
    optional: bool = False


_Own = TypeVar("_Own")


def at_fork(own: _Own, **calls: Callable[[_Own], object]) -> None:
    """Has them called at each fork, when `os.register_at_fork` says, as long as there is what they are called with."""
    here = weakref.ref(own)

    def called(call: Callable[[_Own], object]) -> Callable[[], None]:
        def at() -> None:
            if (it := here()) is not None:
                call(it)

        return at

    if hasattr(os, "register_at_fork"):
        os.register_at_fork(**{when: called(call) for when, call in calls.items()})


class Instrument(_library.Instrument):
    """An instrument, on which any thread records.

    A recording takes a recorder that no other thread is using. One whose budget is spent hands on to the next, and the
    last one asks the spare budget; only then is a recording refused. What is refused, for whatever reason, changes
    nothing but `refused`, and is logged once for each reason; a run that was opened with `strict=True` raises it."""

    __slots__ = ("_meter", "_name", "_number")
    _name: str
    _meter: str
    _number: int

    @property
    def name(self) -> str:
        """The name."""
        return self._name

    @property
    def meter(self) -> str:
        """The name of its meter."""
        return self._meter

    @property
    def number(self) -> int:
        """Its number in the catalogue, from 0."""
        return self._number

    def spare(self) -> Spare:
        """What may be granted beside the budgets."""
        return Spare(*self._spare())

    @property
    def clamped(self) -> int:
        """How many values above its range `time` and `record_clamped` recorded as the greatest value of the range.
        Where these are many, declare a wider range."""
        return self._clamped()

    @property
    def replaced(self) -> int:
        """How many values that it does not declare `known_or` replaced."""
        return self._replaced()

    @property
    def refused(self) -> dict[str, int]:
        """How often recordings on it were refused, by the refusal's name."""
        return self._refused()

    def __repr__(self) -> str:
        return f"<wormweekly.Instrument {self._number} {self._meter}/{self._name}>"


class Recorder(_library.Recorder):
    """The seat of a recorder, for a thread that wants its own: `Instrument.add` needs none. It is the first thread's
    that records with it, until another calls `take_over`."""

    __slots__ = ("_name", "_number")
    _name: str
    _number: int

    @property
    def name(self) -> str:
        """The name."""
        return self._name

    @property
    def number(self) -> int:
        """Its number in the catalogue, from 0."""
        return self._number

    def budget(self, instrument: Instrument) -> Budget:
        """What it may record on an instrument. Any thread may ask."""
        return Budget(*self._budget(instrument))

    def __repr__(self) -> str:
        return f"<wormweekly.Recorder {self._number} {self._name}>"


class Reader(_library.Reader):
    """The seat of a reader. Threads may share it: one waits for the other."""

    __slots__ = ("_name", "_number")
    _name: str
    _number: int

    @property
    def name(self) -> str:
        """The name."""
        return self._name

    @property
    def number(self) -> int:
        """Its number in the config, from 0."""
        return self._number

    def collect(self, instrument: Instrument, now: int | None = None) -> Batch:
        """Collects an instrument at a time in nanoseconds, or now. A delta reader gets what was recorded since its last
        batch, a cumulative one since the start. A later batch has no earlier time."""
        return batch_of(self._collect(instrument, time.time_ns() if now is None else now))

    def text(self, instrument: Instrument, now: int | None = None) -> str:
        """The same as the library's text, without the points, which is quicker."""
        return self._collect_text(instrument, time.time_ns() if now is None else now)

    def otlp(
        self, instrument: Instrument, resource: Attributes, now: int | None = None, *, json: bool = False
    ) -> bytes:
        """The same in the OpenTelemetry protocol, with the attributes of the resource: a message that a collector takes
        at /v1/metrics as application/x-protobuf, or a line of JSON, as application/json; empty where there are no
        points. Messages in bytes, one after the other, are one message; each line of JSON is a post of its own. Keep
        one that was not taken: a delta reader does not give its window again."""
        return self._collect_otlp(instrument, time.time_ns() if now is None else now, resource, json)

    def prometheus(
        self, instrument: Instrument, now: int | None = None, dialect: Dialect = Dialect.TEXT
    ) -> bytes:
        """The same as lines of a page for Prometheus. `Metrics.page` has a whole one, where instruments of one name in
        several meters stand together."""
        return self._collect_page(instrument, time.time_ns() if now is None else now, dialect)

    def last(self) -> Batch | None:
        """The batch that was collected last, none before one."""
        told = self._last()
        return None if told is None else batch_of(told)

    def __repr__(self) -> str:
        return f"<wormweekly.Reader {self._number} {self._name}>"


_M = TypeVar("_M", bound="Metrics")


class Metrics:
    """A run: the instruments of a certified plan, with a seat for each recorder and each reader, in declared order.

    `warnings` has a line for each view that does not fit an instrument.
    """

    __slots__ = ("_run", "instruments", "readers", "recorders", "warnings")
    _run: _library.Run
    instruments: tuple[Instrument, ...]
    recorders: tuple[Recorder, ...]
    readers: tuple[Reader, ...]
    warnings: str

    @classmethod
    def open(
        cls,
        catalogue: str,
        config: str,
        *,
        certificate: str | None = None,
        start: int | None = None,
        strict: bool = False,
        reopen_in_child: bool = False,
    ) -> Metrics:
        """Opens a run of a catalogue and a config (TOML), since a time in nanoseconds, or now. Where no certificate is
        given, the library makes one; it is checked, whoever made it. Raises an `OpenFault` with the first fault. A
        strict run raises each refusal of a recording; else these are counted, and logged once for each reason. The
        child of a fork refuses to count, unless `reopen_in_child` has it opened anew there, since the time of the
        fork."""
        teller = Teller()
        run = _library.Run(catalogue, config, certificate, time.time_ns() if start is None else start, strict, teller)
        self = cls()
        self._fill(run, run.warnings())
        teller.names += (one.name for one in self.instruments)
        if reopen_in_child:
            at_fork(run, after_in_child=lambda own: own.open_anew(catalogue, config, certificate, time.time_ns()))
        return self

    def _fill(self, run: _library.Run, warnings: str) -> None:
        instruments, recorders, readers = map(range, run.counts())
        self._run = run
        self.instruments = tuple(_instrument(run, number) for number in instruments)
        self.recorders = tuple(_recorder(run, number) for number in recorders)
        self.readers = tuple(_reader(run, number) for number in readers)
        self.warnings = warnings

    def instrument(self, name: str) -> Instrument:
        """The instrument of this name, where there is exactly one."""
        return _only(self.instruments, "instrument", name)

    def recorder(self, name: str) -> Recorder:
        """The recorder of this name, where there is exactly one."""
        return _only(self.recorders, "recorder", name)

    def reader(self, name: str) -> Reader:
        """The reader of this name, where there is exactly one."""
        return _only(self.readers, "reader", name)

    def expect(
        self, meter: str, name: str, kind: Kind, unit: str, keys: Iterable[ExpectedKey] = ()
    ) -> Instrument:
        """The instrument of this meter and name, where it means what a program was made for, as one that is made from a
        catalogue asks once: it has this kind and unit; its first keys are these in order, each optional exactly where
        that is said; the values of each begin with these; and each further key may be left out. Else a `MeaningFault`
        tells the first difference; an `UnknownName` where there is not one of this meter and name."""
        found = [one for one in self.instruments if (one.meter, one.name) == (meter, name)]
        if len(found) != 1:
            raise UnknownName(f"there is not one instrument {meter}/{name}")
        own = tuple(keys)
        if bare := next((key for key in own if not key.values), None):
            raise MeaningFault("Meaning", f"{meter}/{name}: key {bare.name!r} is asked for without a value")
        declared = [("", meter), ("", name), ("", unit), *((key.name, value) for key in own for value in key.values)]
        # Of more than 32 keys those behind are none of any instrument.
        flags = sum(1 << at for at, key in enumerate(own[:32]) if key.optional)
        self._run.expect(found[0].number, kind.value, declared, flags)
        return found[0]

    def settle(self) -> tuple[Total, ...]:
        """The total of each instrument, in order, each compared with what its recorders were told."""
        return tuple(_total(*self._run.settle(one.number)) for one in self.instruments)

    def close(self) -> None:
        """Ends the recordings of all instruments. They are collected and settled as before. At the end of a `with` it
        is called."""
        for instrument in self.instruments:
            try:
                instrument.close()
            except ClosedRefusal:
                continue

    def __enter__(self: _M) -> _M:
        return self

    def __exit__(self, *unused: object) -> None:
        self.close()

    def page(
        self,
        reader: Reader,
        resource: Attributes | None = None,
        now: int | None = None,
        dialect: Dialect = Dialect.TEXT,
    ) -> bytes:
        """A page for Prometheus of all instruments, collected by a cumulative reader, with the attributes of the
        resource as `target_info`. Ask `Reader.expose` first, once."""
        at = time.time_ns() if now is None else now
        page = reader._target(resource or {}, dialect) + reader._collect_page(None, at, dialect)
        return page if dialect is Dialect.TEXT else page + b"# EOF\n"

    def otlp(
        self, reader: Reader, resource: Attributes, now: int | None = None, *, json: bool = False
    ) -> bytes:
        """All instruments, collected by a reader, as one message of OTLP, or one line of JSON, which is empty where
        there are no points. Where an instrument is refused, those before it come with the next message. Keep one that
        was not taken, as of `Reader.otlp`."""
        return reader._collect_otlp(None, time.time_ns() if now is None else now, resource, json)

    def part_left(self) -> float:
        """How much is left of all that may be recorded on an instrument, budgets and spare: the least part that any
        has, from 1.0 to 0.0. Roll over in time: past it, recordings are refused."""
        return min((self._part_left_of(one) for one in self.instruments), default=1.0)

    def _part_left_of(self, instrument: Instrument) -> float:
        kinds: list[Budget | Spare] = [recorder.budget(instrument) for recorder in self.recorders]
        kinds.append(instrument.spare())
        most = sum(own.declared for own in kinds)
        return sum(own.left for own in kinds) / most if most > 0 else 1.0

    def roll_over(self, start: int | None = None) -> Ended:
        """Ends the run, and begins the next one of the same plan in its place, since a time in nanoseconds, or now:
        with budgets as declared, nothing counted, and all instruments open. Seats and bound sets go on in it, and a
        recording waits no longer than it takes to settle. The run that ended is answered: let each of its readers
        collect a last time, so that nothing is lost. Refused, all is as before."""
        run, totals = self._run.roll_over(time.time_ns() if start is None else start)
        ended = Ended()
        ended._fill(run, self.warnings)
        ended.totals = tuple(_total(*one) for one in totals)
        return ended


class Ended(Metrics):
    """A run that has ended, with the total of each instrument, in order. Its instruments are closed; its readers
    collect them as they would have."""

    __slots__ = ("totals",)
    totals: tuple[Total, ...]


_Seat = TypeVar("_Seat", Instrument, Recorder, Reader)


def _only(seats: tuple[_Seat, ...], what: str, name: str) -> _Seat:
    found = [seat for seat in seats if seat.name == name]
    if len(found) != 1:
        raise UnknownName(f"there is not one {what} named {name!r}")
    return found[0]


def _instrument(run: _library.Run, number: int) -> Instrument:
    made = run.instrument(Instrument, number)
    made._number = number
    made._name = run.name(_INSTRUMENT_NAME, number)
    made._meter = run.name(_METER_NAME, number)
    return made


def _recorder(run: _library.Run, number: int) -> Recorder:
    made = run.recorder(Recorder, number)
    made._number = number
    made._name = run.name(_RECORDER_NAME, number)
    return made


def _reader(run: _library.Run, number: int) -> Reader:
    made = run.reader(Reader, number)
    made._number = number
    made._name = run.name(_READER_NAME, number)
    return made


def _total(count: int, is_negative: bool, high: int, low: int) -> Total:
    size = (high << 64) + low
    return Total(count, -size if is_negative else size)
