"""The page of several processes."""

from __future__ import annotations

import os
import signal
import tempfile
import unittest
from collections.abc import Callable
from pathlib import Path

from tests.plans import CATALOGUE, CONFIG, HOME
from wormweekly import Metrics
from wormweekly.exporters.folder import PageFault, PageFolder

STATUS = 'route="/",status="200",otel_scope_name="shop",otel_scope_version="1.0"'


def opened() -> Metrics:
    return Metrics.open(CATALOGUE, CONFIG, reopen_in_child=True)


@unittest.skipUnless(hasattr(os, "fork"), "there is no fork")
class Folder(unittest.TestCase):
    def setUp(self) -> None:
        self.folder = tempfile.mkdtemp()
        self.metrics = opened()
        self.pages = self.page_folder(self.metrics)
        self.addCleanup(self.pages.close)

    def page_folder(self, metrics: Metrics) -> PageFolder:
        return PageFolder(self.folder, metrics, metrics.readers[0], {"service.name": "shop"}, interval=3600, roll_over_below=0.5)

    def in_child(self, call: Callable[[], object]) -> int:
        """Calls in a child, which ends without a word."""
        child = os.fork()
        if child == 0:
            try:
                call()
                os._exit(0)
            finally:
                os._exit(1)
        return child

    def record(self, count: int) -> None:
        requests, in_flight, duration, temperature = self.metrics.instruments
        for _ in range(count):
            requests.add(2, HOME)
            duration.record(50, {"route": "/"})
        in_flight.add(1)
        temperature.record(min(count, 50))

    def lines(self) -> set[str]:
        return set(self.pages.page().decode().split("\n"))

    def files(self) -> set[str]:
        return {path.suffix for path in Path(self.folder).iterdir()}

    def test_processes_add_up(self) -> None:
        def work() -> None:
            self.record(100)
            self.pages.close()

        self.record(1)
        children = [self.in_child(work) for _ in range(4)]
        for child in children:
            self.assertEqual(os.waitpid(child, 0)[1], 0)
        for _ in range(3):
            lines = self.lines()
            self.assertIn(f"requests_total{{{STATUS}}} 802", lines)
            bucket = 'duration_milliseconds_bucket{route="/",otel_scope_name="shop",otel_scope_version="1.0",le="100.0"}'
            self.assertIn(f"{bucket} 401", lines)
            self.assertIn('target_info{service_name="shop"} 1', lines)
            gauge = f'temperature{{otel_scope_name="shop",otel_scope_version="1.0",pid="{os.getpid()}"}} 1'
            self.assertEqual({line for line in lines if line.startswith("temperature")}, {gauge})
        self.assertEqual(len(list(Path(self.folder).glob("*.page"))), 2)

    def test_a_child_that_lives(self) -> None:
        ready, tell = os.pipe()

        def work() -> None:
            self.record(7)
            self.pages.write()
            os.write(tell, b"1")
            signal.pause()

        child = self.in_child(work)
        os.read(ready, 1)
        lines = self.lines()
        self.assertIn(f"requests_total{{{STATUS}}} 14", lines)
        self.assertIn(f'in_flight{{otel_scope_name="shop",otel_scope_version="1.0",pid="{child}"}} 1', lines)
        os.kill(child, signal.SIGKILL)
        os.waitpid(child, 0)
        lines = self.lines()
        self.assertIn(f"requests_total{{{STATUS}}} 14", lines)
        self.assertFalse(any(f'pid="{child}"' in line for line in lines))

    def test_a_file_that_was_not_removed(self) -> None:
        def work() -> None:
            self.record(5)
            self.pages.close()

        child = self.in_child(work)
        os.waitpid(child, 0)
        ended = next(iter(Path(self.folder).glob(f"{child}-*.page")))
        kept = ended.read_bytes()
        self.lines()
        ended.write_bytes(kept)  # as if the one that added it had ended just before
        for _ in range(2):
            self.assertIn(f"requests_total{{{STATUS}}} 10", self.lines())

    def test_runs_that_ended(self) -> None:
        gauge = self.metrics.instrument("temperature")
        for _ in range(4):
            self.record(50)
            self.pages.write()
        self.assertIn(f"requests_total{{{STATUS}}} 400", self.lines())
        self.assertEqual(gauge.refused, {})

    def test_a_label_of_its_own(self) -> None:
        text = CATALOGUE.replace("range = [-50, 50]", "range = [-50, 50]\nkey = [{ name = 'pid', values = ['a,b=\"'] }]")
        metrics = Metrics.open(text, CONFIG)
        metrics.instrument("temperature").record(1, {"pid": 'a,b="'})
        pages = self.page_folder(metrics)
        with self.assertRaises(PageFault):
            pages.page()
        metrics.roll_over()
        pages.close()

    def test_a_run_that_does_not_go_on(self) -> None:
        metrics = Metrics.open(CATALOGUE, CONFIG)
        pages = self.page_folder(metrics)

        def work() -> None:
            metrics.instruments[0].add(1, HOME)
            pages.write()
            pages.close()

        child = self.in_child(work)
        self.assertEqual(os.waitpid(child, 0)[1], 0)
        pages.close()
