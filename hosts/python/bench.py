"""What a recording with three attributes costs, beside an increment of the Prometheus client for Python, in one run.

    python bench.py [RECORDINGS]      how many each thread makes in a round; the best of five rounds is told

All threads share an instrument, and those of the client its counter, as they do in a service; lists are made by a
recorder of each thread.
"""

from __future__ import annotations

import sys
import threading
import time
from collections.abc import Callable
from functools import partial

import prometheus_client

import wormweekly

THREADS = 4
ROUNDS = 5
KEYS = {"route": ("/", "/cart", "/pay", "/item"), "method": ("get", "post"), "region": ("north", "south")}
SETS = [
    {"route": route, "method": method, "region": region}
    for route in KEYS["route"]
    for method in KEYS["method"]
    for region in KEYS["region"]
]
CONFIG = "format = 1\n[[reader]]\nname = 'all'\n"

Work = Callable[[int], None]


def catalogue() -> str:
    keys = ", ".join(f"{{ name = '{key}', values = {list(values)} }}" for key, values in KEYS.items())
    text = "format = 1\n[[meter]]\nname = 'measured'\n"
    text += f"[[meter.instrument]]\nname = 'requests'\nkind = 'counter'\nrange = [0, 100]\nkey = [{keys}]\n"
    text += "[[meter.instrument]]\nname = 'took'\nkind = 'histogram'\nrange = [0, 60000]\nboundaries = [10, 100]\n"
    text += f"key = [{keys}]\n[[meter.instrument]]\nname = 'in_flight'\nkind = 'up_down_counter'\nrange = [-1, 1]\n"
    budgets = ", ".join(f"{{ instrument = {number}, amount = 1000000000000 }}" for number in range(3))
    return text + "".join(f"[[recorder]]\nname = 'worker {number}'\nbudget = [{budgets}]\n" for number in range(THREADS))


def nanoseconds(works: list[Work], count: int) -> float:
    """How long one of `count` recordings takes of each thread, in the best of some rounds."""
    best = float("inf")
    for _ in range(ROUNDS):
        threads = [threading.Thread(target=work, args=(count,)) for work in works]
        before = time.perf_counter()
        for thread in threads:
            thread.start()
        for thread in threads:
            thread.join()
        best = min(best, (time.perf_counter() - before) / count * 1e9)
    return best


class Ours:
    def __init__(self) -> None:
        self.metrics = wormweekly.Metrics.open(catalogue(), CONFIG)
        self.requests, self.took, self.in_flight = self.metrics.instruments
        self.bound = [self.requests.bind(one) for one in SETS]

    def at_the_call(self, count: int) -> None:
        add = self.requests.add
        for _ in range(count // len(SETS)):
            for one in SETS:
                add(1, one)

    def with_bound_sets(self, count: int) -> None:
        for _ in range(count // len(SETS)):
            for one in self.bound:
                one.add(1)

    def timed(self, count: int) -> None:
        time_of = self.took.time
        for _ in range(count // len(SETS)):
            for one in SETS:
                with time_of(one):
                    pass

    def counted(self, count: int) -> None:
        in_flight = self.in_flight.in_flight
        for _ in range(count):
            with in_flight():
                pass

    def in_lists(self, recorder: wormweekly.Recorder, count: int) -> None:
        recorder.take_over()
        add_all = recorder.add_all
        items = [(one, 1) for one in self.bound]
        for _ in range(count // len(SETS)):
            add_all(items)

    def listed(self, threads: int) -> list[Work]:
        return [partial(self.in_lists, recorder) for recorder in self.metrics.recorders[:threads]]


class Theirs:
    def __init__(self) -> None:
        registry = prometheus_client.CollectorRegistry()
        self.requests = prometheus_client.Counter("requests", "measured", list(KEYS), registry=registry)
        self.took = prometheus_client.Histogram("took", "measured", list(KEYS), registry=registry, buckets=(10, 100))
        self.in_flight = prometheus_client.Gauge("in_flight", "measured", registry=registry)
        self.bound = [self.requests.labels(**one) for one in SETS]

    def at_the_call(self, count: int) -> None:
        labels = self.requests.labels
        for _ in range(count // len(SETS)):
            for one in SETS:
                labels(**one).inc()

    def with_bound_sets(self, count: int) -> None:
        for _ in range(count // len(SETS)):
            for one in self.bound:
                one.inc()

    def timed(self, count: int) -> None:
        labels = self.took.labels
        for _ in range(count // len(SETS)):
            for one in SETS:
                with labels(**one).time():
                    pass

    def counted(self, count: int) -> None:
        in_flight = self.in_flight.track_inprogress
        for _ in range(count):
            with in_flight():
                pass


def main(count: int) -> None:
    ours, theirs = Ours(), Theirs()
    print(f"nanoseconds for a recording with three attributes; {count} recordings of each thread")
    for threads in (1, THREADS):
        print(f"{threads} thread{'s' if threads > 1 else ''}{'':33}wormweekly    client    ratio")
        rows: list[tuple[str, list[Work], Work]] = [
            ("at the call", [ours.at_the_call] * threads, theirs.at_the_call),
            ("bound", [ours.with_bound_sets] * threads, theirs.with_bound_sets),
            ("bound, sixteen in one call", ours.listed(threads), theirs.with_bound_sets),
            ("a block that is timed", [ours.timed] * threads, theirs.timed),
            ("a block in flight, without attributes", [ours.counted] * threads, theirs.counted),
        ]
        for name, own, peer in rows:
            mine = nanoseconds(own, count)
            other = nanoseconds([peer] * threads, count)
            print(f"  {name:<40}{mine:>10.0f}{other:>10.0f}{mine / other:>9.2f}")


if __name__ == "__main__":
    main(int(sys.argv[1]) if len(sys.argv) > 1 else 200_000)
