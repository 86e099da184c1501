"""The recipes of docs/RECIPES.md, which shows parts of this file."""

from __future__ import annotations

import asyncio
import logging
import os
import signal
import threading
import unittest

from tests.test_otlp import DONE, Collector
from wormweekly import Ended, Metrics, OpenFault, Reader, Total
from wormweekly.exporters import otlp

CATALOGUE = """format = 2
[[meter]]
name = 'shop'
[[meter.instrument]]
name = 'orders'
kind = 'counter'
range = [1, 100]
key = [{ name = 'country', values = ['de', 'fr'] }]
spare = 100_000
[[meter.instrument]]
name = 'requests'
kind = 'counter'
range = [1, 1]
key = [{ name = 'route', values = ['/', '/cart', 'other'] }]
spare = 100_000
[[recorder]]
name = 'worker'
budget = []
"""

CONFIG = "format = 1\n[[reader]]\nname = 'all'\n"


class Shop:
    def __init__(self, metrics: Metrics) -> None:
        self.metrics = metrics
        self.orders = metrics.instrument("orders")
        self.requests = metrics.instrument("requests")

    def check_out(self, country: str, items: int) -> None:
        self.orders.add(items, {"country": country})

    def route(self, path: str) -> None:
        route = self.requests.known_or("route", path, "other")
        self.requests.add(1, {"route": route})


class ShopTest(unittest.TestCase):
    def setUp(self) -> None:
        self.metrics = Metrics.open(CATALOGUE, CONFIG, start=0, strict=True)
        self.shop = Shop(self.metrics)

    def test_each_item_is_counted(self) -> None:
        self.shop.check_out("de", items=3)
        self.assertEqual(self.metrics.settle()[self.shop.orders.number], Total(count=1, sum=3))
        points = self.metrics.reader("all").collect(self.shop.orders, now=1).streams[0].points
        self.assertEqual([point.attributes for point in points], [{"country": "de"}])

    def test_an_unknown_route_is_other(self) -> None:
        self.shop.route("/")
        self.shop.route("/wp-admin.php")
        self.assertEqual(self.shop.requests.replaced, 1)


class Task:
    """What a service does while it lives."""

    def __init__(self, metrics: Metrics) -> None:
        self.metrics = metrics
        self.orders = metrics.instrument("orders")
        self.exported: list[tuple[Ended, str]] = []

    def roll_over_in_time(self) -> None:
        if self.metrics.part_left() < 0.25:
            ended = self.metrics.roll_over()
            for reader in ended.readers:
                self.export(reader, ended)  # what was recorded since it last collected

    def export(self, reader: Reader, ended: Ended) -> None:
        self.exported.append((ended, reader.text(ended.instrument("orders"))))

    async def serve_all(self, tasks: int) -> None:
        async def serve() -> None:
            await asyncio.sleep(0)
            self.orders.add(1, {"country": "de"})

        await asyncio.gather(*(serve() for _ in range(tasks)))


class Recipes(unittest.TestCase):
    def setUp(self) -> None:
        logging.getLogger("wormweekly").setLevel(logging.CRITICAL)
        self.addCleanup(logging.getLogger("wormweekly").setLevel, logging.NOTSET)

    def test_a_budget_is_never_used_up(self) -> None:
        task = Task(Metrics.open(CATALOGUE, CONFIG))
        bound = task.orders.bind({"country": "de"})
        for _ in range(80_000):
            bound.add(1)
            task.roll_over_in_time()
        self.assertEqual((task.orders.refused, [ended.totals[0].count for ended, _ in task.exported]), ({}, [75_001]))

    def test_tasks_record(self) -> None:
        task = Task(Metrics.open(CATALOGUE, CONFIG))
        asyncio.run(task.serve_all(1_000))
        self.assertEqual(task.metrics.settle()[0], Total(1_000, 1_000))

    def test_a_signal_ends_the_service(self) -> None:
        collector = Collector(DONE)
        self.addCleanup(collector.close)
        self.addCleanup(signal.signal, signal.SIGTERM, signal.getsignal(signal.SIGTERM))
        settings = collector.settings

        def serve(metrics: Metrics) -> None:
            metrics.instrument("orders").add(1, {"country": "fr"})
            os.kill(os.getpid(), signal.SIGTERM)
            threading.Event().wait(10)

        def stop(number: int, frame: object) -> None:
            raise SystemExit(0)  # leaves both blocks below: collected a last time, and posted

        def run() -> None:
            signal.signal(signal.SIGTERM, stop)
            with Metrics.open(CATALOGUE, CONFIG) as metrics:
                with otlp.Exporter(metrics, metrics.reader("all"), settings):
                    serve(metrics)

        self.assertRaises(SystemExit, run)
        self.assertIn(b"\x12\x04\n\x02fr", collector.posts[-1][2])

    def test_what_waits_for_a_collector_is_posted_when_it_is_back(self) -> None:
        collector = Collector((503, {"Retry-After": "0"}, b""), DONE)
        self.addCleanup(collector.close)
        metrics = Metrics.open(CATALOGUE, CONFIG)
        exporter = otlp.Exporter(metrics, metrics.reader("all"), collector.settings, most_waiting=16 << 20)
        metrics.instrument("orders").add(1, {"country": "de"})
        self.assertFalse(exporter.flush())
        self.assertEqual((exporter.waiting, exporter.dropped), (1, 0))
        self.assertTrue(exporter.shutdown())
        self.assertEqual((exporter.waiting, exporter.dropped), (0, 0))

    def test_services_share_a_catalogue(self) -> None:
        bodies = []
        for service in ("shop", "billing", "mail"):
            metrics = Metrics.open(CATALOGUE, CONFIG, start=0)
            orders = metrics.instrument("orders")
            orders.add(1, {"country": "de"})
            bodies.append(metrics.reader("all").otlp(orders, {"service.name": service}, 1))
        self.assertEqual(len(set(bodies)), 3)

    def test_a_wide_gauge_is_recorded_in_a_larger_unit(self) -> None:
        for unit, greatest, is_safe in (("By", 1 << 40, False), ("MiBy", 1 << 20, True)):
            with self.subTest(unit):
                catalogue = gauge(unit, greatest)
                self.assertEqual(is_open(catalogue), is_safe)


def gauge(unit: str, greatest: int) -> str:
    """A catalogue of one gauge, which is set up to a thousand million times."""
    return f"""format = 2
[[meter]]
name = 'host'
[[meter.instrument]]
name = 'memory.used'
kind = 'gauge'
unit = '{unit}'
range = [0, {greatest}]
spare = 1_000_000_000
[[recorder]]
name = 'sampler'
budget = []
"""


def is_open(catalogue: str) -> bool:
    try:
        Metrics.open(catalogue, CONFIG, start=0)
    except OpenFault:
        return False
    return True
