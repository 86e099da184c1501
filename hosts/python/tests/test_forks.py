"""Processes that fork."""

from __future__ import annotations

import os
import signal
import unittest
from collections.abc import Callable, Iterator, Mapping

from tests.plans import CATALOGUE, CONFIG, HOME, opened
from wormweekly import Bound, InFlight, Metrics, Recorder, ThreadRefusal, Timer, Total
from wormweekly.exporters.otlp import Exporter, Settings
from wormweekly.exporters.pages import Page


def is_right_in_child(call: Callable[[], bool]) -> bool:
    """Whether a call answers in a child that all is right, within ten seconds."""
    child = os.fork()
    if child == 0:
        status = 1
        signal.alarm(10)
        try:
            status = 0 if call() else 2
        finally:
            os._exit(status)
    return os.waitstatus_to_exitcode(os.waitpid(child, 0)[1]) == 0


class Parent:
    """What there is before a fork."""

    def __init__(self, metrics: Metrics) -> None:
        self.metrics = metrics
        self.requests, self.in_flight, self.duration, self.temperature = metrics.instruments
        self.recorder: Recorder = metrics.recorders[1]
        self.reader = metrics.readers[0]
        self.home: Bound = self.requests.bind(HOME)
        self.home.add(7)
        self.block: InFlight = self.in_flight.in_flight()
        self.timer: Timer = self.duration.time({"route": "/"})
        self.block.__enter__()
        self.timer.__enter__()


# What a child may not do with a run that is not opened anew there.
REFUSED: dict[str, Callable[[Parent], object]] = {
    "a recording by a recorder": lambda own: own.recorder.record(own.requests, HOME, 1),
    "that of a bound set": lambda own: own.recorder.add(own.home, 1),
    "a list": lambda own: own.recorder.add_all([(own.home, 1)]),
    "more budget": lambda own: own.recorder.ask(own.temperature, 1),
    "a budget": lambda own: own.recorder.budget(own.requests),
    "a set": lambda own: own.requests.bind(HOME),
    "what is spare": lambda own: own.temperature.spare(),
    "a grant": lambda own: own.temperature.grant(own.recorder, 1),
    "an end of recordings": lambda own: own.metrics.close(),
    "a collection": lambda own: own.reader.collect(own.requests),
    "a text": lambda own: own.reader.text(own.requests),
    "a message": lambda own: own.reader.otlp(own.requests, {}),
    "a page": lambda own: own.metrics.page(own.reader),
    "the last batch": lambda own: own.reader.last(),
    "what a page can have": lambda own: own.reader.expose(),
    "totals": lambda own: own.metrics.settle(),
    "what is left": lambda own: own.metrics.part_left(),
    "the next run": lambda own: own.metrics.roll_over(),
    "a page that goes on": lambda own: Page(own.metrics, own.reader),
    "a recorder of the child": lambda own: opened().recorders[0].record(own.requests, HOME, 1),
    "a reader of the child": lambda own: opened().readers[0].collect(own.requests),
}


class Forking(Mapping[str, str | int | bool]):
    """Attributes, for which the process forks."""

    child = 0

    def __getitem__(self, key: str) -> str | int | bool:
        return HOME[key]

    def __iter__(self) -> Iterator[str]:
        self.child = os.fork()
        return iter(HOME)

    def __len__(self) -> int:
        return len(HOME)


@unittest.skipUnless(hasattr(os, "fork"), "there is no fork")
class Forks(unittest.TestCase):
    def test_what_is_refused_in_a_child(self) -> None:
        own = Parent(opened())

        def is_right() -> bool:
            for what, call in REFUSED.items():
                try:
                    call(own)
                except ThreadRefusal as refusal:
                    if refusal.name == "Forked":
                        continue
                print("not refused in a child:", what)
                return False
            return True

        self.assertTrue(is_right_in_child(is_right))
        own.block.__exit__(None, None, None)
        self.assertEqual(own.metrics.settle()[:3], (Total(1, 7), Total(2, 0), Total(0, 0)))

    def test_what_a_child_counts_as_refused(self) -> None:
        own = Parent(opened())

        def is_right() -> bool:
            own.block.__exit__(None, None, None)
            own.timer.__exit__(None, None, None)
            own.requests.add(1, HOME)
            own.home.add(1)
            own.duration.record_clamped(5, {"route": "/"})
            with own.duration.time({"route": "/"}), own.in_flight.in_flight() as block, own.home.time():
                is_counted = block.is_counted
            counts = [one.refused.get("Forked") for one in own.metrics.instruments]
            return counts == [3, 2, 3, None] and not is_counted and own.requests.known_or("route", "/x", "/") == "/x"

        self.assertTrue(is_right_in_child(is_right))
        self.assertEqual(own.requests.refused, {})

    def test_a_strict_run_raises(self) -> None:
        own = Parent(Metrics.open(CATALOGUE, CONFIG, strict=True))
        self.assertTrue(is_right_in_child(lambda: self.assertRaises(ThreadRefusal, own.home.add, 1) is None))

    def test_a_run_of_the_child_counts(self) -> None:
        Parent(opened())

        def is_right() -> bool:
            own = Parent(opened())
            own.block.__exit__(None, None, None)
            return own.metrics.settle()[:2] == (Total(1, 7), Total(2, 0))

        self.assertTrue(is_right_in_child(is_right))

    def test_a_run_is_opened_anew(self) -> None:
        own = Parent(Metrics.open(CATALOGUE, CONFIG, reopen_in_child=True))
        own.recorder.record(own.requests, HOME, 1)

        def is_right() -> bool:
            own.block.__exit__(None, None, None)
            own.timer.__exit__(None, None, None)
            own.home.add(2)
            own.requests.add(3, HOME)
            own.recorder.record(own.requests, HOME, 4)
            totals = own.metrics.settle()
            point = own.reader.collect(own.requests).streams[0].points
            return totals[:3] == (Total(3, 9), Total(0, 0), Total(1, totals[2].sum)) and len(point) == 1

        for _ in range(2):
            self.assertTrue(is_right_in_child(is_right))
        self.assertTrue(is_right_in_child(lambda: is_right_in_child(is_right)))
        own.block.__exit__(None, None, None)
        self.assertEqual(own.metrics.settle()[:2], (Total(2, 8), Total(2, 0)))

    def test_a_page_begins_anew(self) -> None:
        own = Parent(Metrics.open(CATALOGUE, CONFIG, reopen_in_child=True))
        page = Page(own.metrics, own.reader)
        page.take(own.metrics.roll_over())
        with page._turn:  # as a thread that is scraped holds it
            self.assertTrue(is_right_in_child(lambda: "requests_total" not in page.text()))
        self.assertIn("requests_total{", page.text())

    def test_an_exporter_has_ended(self) -> None:
        own = Parent(Metrics.open(CATALOGUE, CONFIG, reopen_in_child=True))
        exporter = Exporter(own.metrics, own.reader, Settings("http://127.0.0.1:9/", timeout=0.1, interval=3600))
        with exporter._turn:  # as the thread that posts holds it
            self.assertTrue(is_right_in_child(lambda: exporter.flush() and exporter.shutdown() and exporter.waiting == 0))
        self.assertGreater(exporter.waiting, 0)
        exporter.shutdown(0)

    def test_attributes_that_fork(self) -> None:
        metrics, given, name = opened(), Forking(), ""
        try:
            metrics.recorders[0].record(metrics.instruments[0], given, 1)
        except ThreadRefusal as refusal:
            name = refusal.name
        if given.child == 0:
            os._exit(0 if name == "Forked" else 1)
        self.assertEqual(os.waitstatus_to_exitcode(os.waitpid(given.child, 0)[1]), 0)
        self.assertEqual((name, metrics.settle()[0].count), ("", 1))
