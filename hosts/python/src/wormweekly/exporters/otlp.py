"""Pushes metrics to an OpenTelemetry collector, as OTLP over HTTP, from a thread of its own.

    with Metrics.open(catalogue, config) as metrics, otlp.Exporter(metrics, metrics.reader("otlp")):
        serve(metrics)

Where nothing else is said, the environment says where to: `Settings` lists its variables. Each collection is one post.
What a collector did not take waits, in order, and is posted again after the pause that it asks for, else after pauses
that grow; what it refuses for good is dropped, counted and logged by the logger `wormweekly`. The same thread rolls
over before a budget is spent. A post that timed out may have arrived, so that a delta window may arrive twice.
"""

from __future__ import annotations

import gzip
import logging
import os
import random
import threading
import time
import urllib.error
import urllib.request
import uuid
from collections import deque
from collections.abc import Callable, Iterator, Mapping
from dataclasses import dataclass, field
from email.utils import parsedate_to_datetime
from http.client import HTTPException
from types import TracebackType
from typing import IO
from urllib.parse import unquote, urlsplit

from wormweekly import Attributes, Ended, Metrics, Reader, __version__
from wormweekly._metrics import at_fork
from wormweekly.exporters.pages import roll_over_part

__all__ = ["Exporter", "Settings", "SettingsFault"]

_LOGGER = logging.getLogger("wormweekly")
_AGAIN = (429, 502, 503, 504)  # any other answer is final
_MOST_READ = 64 << 10  # of an answer
_LONGEST_PAUSE, _LONGEST_ASKED = 60.0, 86_400.0
_LONGEST_SLEEP = 1.0  # between two looks at what is left of the budgets


class SettingsFault(ValueError):
    """A variable of the environment says what it cannot."""


@dataclass(frozen=True, slots=True)
class Settings:
    """Where metrics go, and how. Times are in seconds. `resource` is what produces them; where it has no
    `service.instance.id`, an exporter draws one, so that no two processes have the same."""

    endpoint: str = "http://localhost:4318/v1/metrics"
    headers: Mapping[str, str] = field(default_factory=dict)
    timeout: float = 10.0
    interval: float = 60.0
    is_compressed: bool = False
    resource: Attributes = field(default_factory=dict)

    @classmethod
    def of_environment(cls, environment: Mapping[str, str] = os.environ) -> Settings:
        """By `OTEL_EXPORTER_OTLP_ENDPOINT`, `_HEADERS`, `_TIMEOUT` and `_COMPRESSION`, before which the same names with
        `OTLP_METRICS` go, `OTEL_METRIC_EXPORT_INTERVAL`, `OTEL_RESOURCE_ATTRIBUTES` and `OTEL_SERVICE_NAME`. An empty
        variable says nothing. Raises a `SettingsFault`."""
        read = _Environment(environment)
        return cls(
            endpoint=read.endpoint(),
            headers=read.pairs(read.own("HEADERS")),
            timeout=read.seconds(read.own("TIMEOUT"), 10.0),
            interval=read.seconds("OTEL_METRIC_EXPORT_INTERVAL", 60.0),
            is_compressed=read.is_compressed(),
            resource=read.resource(),
        )


class _Environment:
    def __init__(self, environment: Mapping[str, str]) -> None:
        self._environment = environment

    def text(self, name: str) -> str:
        return self._environment.get(name, "").strip()

    def own(self, word: str) -> str:
        """The name of the variable that counts: that of metrics, else that of all signals."""
        of_metrics = f"OTEL_EXPORTER_OTLP_METRICS_{word}"
        return of_metrics if self.text(of_metrics) else f"OTEL_EXPORTER_OTLP_{word}"

    def endpoint(self) -> str:
        name = self.own("ENDPOINT")
        given = self.text(name)
        if not given:
            return "http://localhost:4318/v1/metrics"
        if not _is_url(given):
            raise SettingsFault(f"{name}: no URL of http or https: {given!r}")
        # that of all signals is the folder of each signal's path
        return given if "METRICS" in name else given.rstrip("/") + "/v1/metrics"

    def pairs(self, name: str) -> dict[str, str]:
        found = {}
        for pair in filter(None, map(str.strip, self.text(name).split(","))):
            key, is_pair, value = pair.partition("=")
            if not is_pair or not key.strip():
                raise SettingsFault(f"{name}: no key and value: {pair!r}")
            found[unquote(key.strip())] = unquote(value.strip())
        return found

    def seconds(self, name: str, default: float) -> float:
        given = self.text(name)
        if not given:
            return default
        if not given.isdecimal() or len(given) > 10 or not 0 < int(given) < 1 << 31:
            raise SettingsFault(f"{name}: no number of milliseconds from 1 to 2147483647: {given!r}")
        return int(given) / 1000

    def is_compressed(self) -> bool:
        name = self.own("COMPRESSION")
        given = self.text(name)
        if given not in ("", "none", "gzip"):
            raise SettingsFault(f"{name}: neither gzip nor none: {given!r}")
        return given == "gzip"

    def resource(self) -> Attributes:
        name = self.text("OTEL_SERVICE_NAME")
        named = {"service.name": name} if name else {}
        return {**self.pairs("OTEL_RESOURCE_ATTRIBUTES"), **named}


class Exporter:
    """Collects by a reader at each interval, and posts. No one else collects by this reader. In the child of a fork it
    has ended, and what waits is the parent's: begin one there.

    `posted` counts the collections that were taken, `dropped` those that were refused for good, and the oldest ones
    where more than `most_waiting` bytes wait; `rejected` the points that a collector says it did not take."""

    def __init__(
        self,
        metrics: Metrics,
        reader: Reader,
        settings: Settings | None = None,
        *,
        roll_over_below: float | None = None,
        on_roll_over: Callable[[Ended], object] | None = None,
        most_waiting: int = 64 << 20,
    ) -> None:
        """Begins. The metrics roll over where less than this part of a budget is left: if nothing is said, half of it,
        where they have no other reader. `on_roll_over` gets the run that ended, so that others collect it. Raises a
        `ResourceRefusal`."""
        self.settings = settings or Settings.of_environment()
        self.posted = self.dropped = self.rejected = 0
        self._metrics, self._reader = metrics, reader
        self._roll_over_below = roll_over_part(metrics) if roll_over_below is None else roll_over_below
        self._on_roll_over = on_roll_over
        self._most_waiting = most_waiting
        self._resource = _sdk() | dict(self.settings.resource)
        self._waiting: deque[bytes] = deque()
        self._size = 0  # of what waits
        self._pause = self._paused_until = 0.0
        self._due = time.monotonic() + self.settings.interval
        self._told = ""
        self._turn = threading.Lock()
        self._ended = threading.Event()
        self._opener = urllib.request.build_opener(_NoRedirect)
        self._is_childs = False
        self._collect(metrics, time.time_ns())
        self._thread = threading.Thread(target=self._run, name="wormweekly otlp", daemon=True)
        self._thread.start()
        at_fork(self, after_in_child=Exporter._end_in_child)

    @property
    def waiting(self) -> int:
        """How many collections wait for a collector that takes them."""
        return len(self._waiting)

    def flush(self) -> bool:
        """Collects, and posts what waits unless a pause is asked for. Whether all was answered."""
        if self._is_childs:
            return True
        with self._turn:
            self._collect(self._metrics, time.time_ns())
            return self._push()

    def shutdown(self, timeout: float = 10.0) -> bool:
        """Ends the thread, collects a last time, and posts until all is answered or the time is up."""
        end = time.monotonic() + timeout
        self._ended.set()
        self._thread.join(timeout)
        is_done = self.flush()
        while not is_done and (rest := end - time.monotonic()) > 0:
            time.sleep(min(rest, max(self._paused_until - time.monotonic(), 0.01)))
            with self._turn:
                is_done = self._push()
        return is_done

    def __enter__(self) -> Exporter:
        return self

    def __exit__(self, kind: type[BaseException] | None, fault: BaseException | None, at: TracebackType | None) -> None:
        self.shutdown()

    def _end_in_child(self) -> None:
        """What the parent's thread held then is held here for ever."""
        self._is_childs, self._ended = True, threading.Event()
        self._waiting.clear()
        self._size = 0

    def _run(self) -> None:
        while not self._ended.wait(min(self.settings.interval, _LONGEST_SLEEP)):
            try:
                self._take_turn()
            except Exception:  # the thread is needed again, as when there is memory
                _LOGGER.exception("OTLP: a turn failed")

    def _take_turn(self) -> None:
        with self._turn:
            if self._metrics.part_left() < self._roll_over_below:
                self._roll_over()
            if time.monotonic() >= self._due:
                self._collect(self._metrics, time.time_ns())
            self._push()

    def _roll_over(self) -> None:
        at = time.time_ns()
        ended = self._metrics.roll_over(at)
        try:
            self._collect(ended, at)
        finally:
            if self._on_roll_over is not None:
                self._on_roll_over(ended)

    def _collect(self, metrics: Metrics, at: int) -> None:
        self._due = time.monotonic() + self.settings.interval
        reader = metrics.readers[self._reader.number]
        body = metrics.otlp(reader, self._resource, at)
        if body:
            self._waiting.append(gzip.compress(body, 6) if self.settings.is_compressed else body)
            self._size += len(self._waiting[-1])
        while self._size > self._most_waiting:
            self._forget()
            self._drop("more waits than there is room for")

    def _forget(self) -> None:
        """Forgets the first one that waits."""
        self._size -= len(self._waiting.popleft())

    def _push(self) -> bool:
        while self._waiting and time.monotonic() >= self._paused_until and self._is_answered(self._waiting[0]):
            self._forget()
        return not self._waiting

    def _is_answered(self, body: bytes) -> bool:
        """Posts a collection. Whether the answer is final."""
        headers = {"User-Agent": f"wormweekly-python/{__version__}"} | dict(self.settings.headers)
        headers["Content-Type"] = "application/x-protobuf"
        if self.settings.is_compressed:
            headers["Content-Encoding"] = "gzip"
        request = urllib.request.Request(self.settings.endpoint, body, headers)
        try:
            with self._opener.open(request, timeout=self.settings.timeout) as answer:
                self._take(answer.read(_MOST_READ))
        except urllib.error.HTTPError as fault:
            with fault:
                if fault.code in _AGAIN:
                    return self._wait(fault, _asked_pause(fault.headers.get("Retry-After", "")))
                self._drop(f"{fault} {_words_of(fault)}".rstrip())
        except (OSError, HTTPException) as fault:
            return self._wait(fault, 0.0)
        self._pause = self._paused_until = 0.0
        return True

    def _take(self, answer: bytes) -> None:
        rejected, why = partial_success(answer)
        self.posted += 1
        self.rejected += rejected
        if rejected or why:
            self._tell(f"{rejected} points are rejected: {why}")
        else:
            self._told = ""

    def _wait(self, fault: Exception, asked: float) -> bool:
        self._pause = min(max(2 * self._pause, 1.0), _LONGEST_PAUSE)
        # not all that were refused at once come again at once
        self._paused_until = time.monotonic() + max(self._pause * random.uniform(0.5, 1.0), asked)
        self._tell(f"not taken, and tried again: {fault}")
        return False

    def _drop(self, why: str) -> None:
        self.dropped += 1
        self._tell(f"a collection is dropped: {why}")

    def _tell(self, what: str) -> None:
        """Logs what was not told just before."""
        if what != self._told:
            _LOGGER.warning("OTLP, %s: %s", self.settings.endpoint, what)
        self._told = what


class _NoRedirect(urllib.request.HTTPRedirectHandler):
    """A post that is sent elsewhere would arrive there without its body."""

    def redirect_request(self, req: object, fp: IO[bytes], code: int, msg: str, headers: object, newurl: str) -> None:
        return None


def _sdk() -> dict[str, str | int | bool]:
    return {
        "service.name": "unknown_service",
        "service.instance.id": str(uuid.uuid4()),
        "telemetry.sdk.language": "python",
        "telemetry.sdk.name": "wormweekly",
        "telemetry.sdk.version": __version__,
    }


def _is_url(given: str) -> bool:
    try:
        parts = urlsplit(given)
        return parts.scheme in ("http", "https") and bool(parts.hostname) and parts.port != 0
    except ValueError:  # as for a bracket or a port that is none
        return False


def _asked_pause(after: str) -> float:
    """The seconds that a header `Retry-After` asks for, as a number or as a date."""
    if after.isdecimal():
        return min(float(after), _LONGEST_ASKED)
    try:
        return min(max(parsedate_to_datetime(after).timestamp() - time.time(), 0.0), _LONGEST_ASKED)
    except (ValueError, OverflowError):
        return 0.0


def _words_of(answer: urllib.error.HTTPError) -> str:
    """The first words of an answer, a text or a message of protobuf."""
    try:
        return "".join(filter(str.isprintable, answer.read(_MOST_READ).decode(errors="ignore")))[:200]
    except (OSError, HTTPException):
        return ""


def partial_success(answer: bytes) -> tuple[int, str]:
    """How many points a collector says it rejected, and why: both of the first field of what it answers in protobuf."""
    rejected, why = 0, ""
    partial = dict(_fields(memoryview(answer))).get(1)
    for number, value in _fields(partial) if isinstance(partial, memoryview) else ():
        if number == 1 and isinstance(value, int):
            rejected = value
        elif number == 2 and isinstance(value, memoryview):
            why = bytes(value).decode(errors="replace")
    return rejected, why


def _fields(rest: memoryview) -> Iterator[tuple[int, memoryview | int]]:
    """The fields of a message of protobuf, as far as they are numbers or bytes."""
    while rest:
        tag, rest = _number(rest)
        value, rest = _number(rest)
        if tag & 7 == 2:
            yield tag >> 3, rest[:value]
            rest = rest[value:]
        elif tag & 7 == 0:
            yield tag >> 3, value
        else:
            return


def _number(message: memoryview) -> tuple[int, memoryview]:
    """A number of protobuf, seven bits in each byte, and what follows it."""
    number = 0
    for place, byte in enumerate(message[:10]):
        number |= (byte & 127) << (7 * place)
        if byte < 128:
            return number, message[place + 1 :]
    return 0, message[:0]
