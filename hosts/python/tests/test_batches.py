"""What readers collect."""

import gc
import json
import unittest
from pathlib import Path

from tests.plans import CONFIG, HOME, opened
from wormweekly import (
    Attributes,
    Buckets,
    BudgetRefusal,
    Dialect,
    ExposureFault,
    Kind,
    Last,
    Metrics,
    Point,
    ResourceRefusal,
    Stream,
    Sum,
    Total,
)
from wormweekly._metrics import accepts_gzip


class Batches(unittest.TestCase):
    def setUp(self) -> None:
        self.metrics = opened()
        self.all, self.new = self.metrics.readers
        self.second = self.metrics.recorder("second")

    def test_names(self) -> None:
        instruments = [(one.meter, one.name, one.number) for one in self.metrics.instruments]
        names = ["requests", "in_flight", "duration", "temperature"]
        self.assertEqual(instruments, [("shop", name, number) for number, name in enumerate(names)])
        self.assertEqual([(one.name, one.number) for one in self.metrics.recorders], [("first", 0), ("second", 1)])
        self.assertEqual([(one.name, one.number) for one in self.metrics.readers], [("all", 0), ("new", 1)])
        self.assertEqual(self.metrics.warnings, "")

    def test_sums(self) -> None:
        requests = self.metrics.instrument("requests")
        self.assertIsNone(self.all.last())
        for value in (1, 2, 3):
            self.second.record(requests, {"cached": True, **HOME}, value)
        self.second.add(requests.bind({"route": "/cart", "status": 404}), 100)
        batch = self.all.collect(requests, 10)
        self.assertEqual((batch.instrument, batch.start, batch.time), (0, 0, 10))
        home = Point({"route": "/", "status": 200, "cached": True}, Sum(6), False)
        cart = Point({"route": "/cart", "status": 404}, Sum(100), False)
        (stream,) = batch.streams
        self.assertEqual(sorted(map(str, stream.points)), sorted(map(str, (home, cart))))
        self.assertEqual((stream.kind, stream.is_delta, stream.boundaries), (Kind.COUNTER, False, ()))
        self.assertEqual((stream.name, stream.meter, stream.version), ("requests", "shop", "1.0"))
        self.assertTrue(batch.text.startswith("collected 10 2\n"))
        self.assertEqual(self.all.last(), batch)
        self.assertEqual(self.all.text(requests, 10), batch.text)

    def test_windows(self) -> None:
        requests = self.metrics.instrument("requests")
        for reader, values in ((self.all, [1, 3]), (self.new, [3, 3])):
            sums = []
            for now, value in enumerate(values, 10):
                self.second.record(requests, HOME, value)
                sums.append(reader.collect(requests, now).streams[0].points[0].value)
            self.assertEqual(sums[-1], Sum(4) if reader is self.all else Sum(3))

    def test_histograms(self) -> None:
        duration = self.metrics.instrument("duration")
        for value in (0, 10, 11, 5000):
            self.second.record(duration, {"route": "/"}, value)
        batch = self.all.collect(duration, 5)
        point = Point({"route": "/"}, Buckets(4, (2, 1, 0, 1), 5021, 0, 5000), False)
        wanted = Stream(
            "duration", "ms", "", "shop", "1.0", "", Kind.HISTOGRAM, False, (10, 100, 1000), (point,)
        )
        self.assertEqual(batch.streams, (wanted,))

    def test_last_values(self) -> None:
        temperature = self.metrics.instrument("temperature")
        self.second.record(temperature, {}, -7)
        point = self.all.collect(temperature, 5).streams[0].points[0]
        self.assertEqual(point, Point({}, Last(-7), False))

    def test_totals(self) -> None:
        in_flight = self.metrics.instrument("in_flight")
        for recorder in self.metrics.recorders:
            recorder.record(in_flight, {}, -1)
        self.assertEqual(self.metrics.settle(), (Total(0, 0), Total(2, -2), Total(0, 0), Total(0, 0)))
        self.assertEqual(self.metrics.settle()[1], Total(2, -2))

    def test_otlp(self) -> None:
        requests = self.metrics.instrument("requests")
        shop: Attributes = {"service.name": "shop", "service.instance": 7, "test": True}
        self.assertEqual(self.all.otlp(requests, shop, 10), b"")
        self.second.record(requests, HOME, 42)
        (resource,) = json.loads(self.all.otlp(requests, shop, 20, json=True))["resourceMetrics"]
        attributes = {one["key"]: one["value"] for one in resource["resource"]["attributes"]}
        self.assertEqual(attributes["service.name"], {"stringValue": "shop"})
        self.assertEqual(attributes["service.instance"], {"intValue": "7"})
        (metric,) = resource["scopeMetrics"][0]["metrics"]
        self.assertEqual(metric["name"], "requests")
        (point,) = metric["sum"]["dataPoints"]
        self.assertEqual((point["asInt"], point["timeUnixNano"]), ("42", "20"))
        message = self.all.otlp(requests, shop, 30)
        self.assertIn(b"requests", message)
        self.assertIn(b"service.name", message)

    def test_one_message(self) -> None:
        metrics, shop = self.metrics, {"service.name": "shop"}
        self.assertEqual(metrics.otlp(self.all, shop, 10), b"")
        self.second.record(metrics.instrument("requests"), HOME, 42)
        self.second.record(metrics.instrument("temperature"), {}, -7)
        (resource,) = json.loads(metrics.otlp(self.all, shop, 20, json=True))["resourceMetrics"]
        (scope,) = resource["scopeMetrics"]
        self.assertEqual([one["name"] for one in scope["metrics"]], ["requests", "temperature"])
        message = metrics.otlp(self.new, shop, 20)
        self.assertEqual([message.count(it) for it in (b"service.name", b"requests", b"temperature")], [1, 1, 1])
        self.assertEqual(metrics.otlp(self.new, shop, 30).count(b"requests"), 0)
        with self.assertRaises(ResourceRefusal):
            metrics.otlp(self.all, {"": "shop"}, 40)

    def test_pages(self) -> None:
        self.all.expose()
        self.second.record(self.metrics.instrument("requests"), HOME, 42)
        self.second.record(self.metrics.instrument("temperature"), {}, -7)
        page = self.metrics.page(self.all, {"service.name": "shop"}).decode()
        scope = 'otel_scope_name="shop",otel_scope_version="1.0"'
        lines = [
            'target_info{service_name="shop"} 1',
            "# TYPE requests_total counter",
            f'requests_total{{route="/",status="200",{scope}}} 42',
            f"temperature{{{scope}}} -7",
        ]
        self.assertEqual([line for line in page.splitlines() if line in lines], lines)
        ends = {Dialect.TEXT: False, Dialect.OPEN_METRICS: True, Dialect.OPEN_METRICS_CREATED: True}
        for dialect, has_end in ends.items():
            self.assertEqual(self.metrics.page(self.all, dialect=dialect).endswith(b"# EOF\n"), has_end)
        created = self.metrics.page(self.all, dialect=Dialect.OPEN_METRICS_CREATED)
        self.assertIn(b"requests_created{", created)

    def test_a_page_of_several_meters(self) -> None:
        instrument = "[[meter.instrument]]\nname = 'hits'\nkind = 'counter'\nrange = [0, 9]\n"
        meters = "".join(f"[[meter]]\nname = '{name}'\n{instrument}" for name in "ab")
        budgets = "budget = [{ instrument = 0, amount = 9 }, { instrument = 1, amount = 9 }]\n"
        metrics = Metrics.open(f"format = 1\n{meters}[[recorder]]\nname = 'r'\n{budgets}", CONFIG)
        reader = metrics.reader("all")
        reader.expose()
        for number, hits in enumerate(metrics.instruments):
            metrics.recorder("r").record(hits, {}, number + 1)
        lines = [
            "# HELP hits_total ",
            "# TYPE hits_total counter",
            'hits_total{otel_scope_name="a"} 1',
            'hits_total{otel_scope_name="b"} 2',
        ]
        for _ in range(2):
            self.assertEqual(metrics.page(reader).decode().splitlines(), lines)
            metrics.otlp(reader, {})  # after which a page has no batch twice

    def test_what_can_not_stand_in_a_page(self) -> None:
        with self.assertRaises(ExposureFault) as caught:
            self.new.expose()
        self.assertEqual(caught.exception.name, "NotExposed")

    def test_dialects(self) -> None:
        dialects = {"text": Dialect.TEXT, "openmetrics": Dialect.OPEN_METRICS}
        lines = (Path(__file__).resolve().parents[2] / "accept.txt").read_text().splitlines()[1:]
        for word, _, accept in (line.partition(" ") for line in lines):
            if word in dialects:
                self.assertIs(Dialect.accepted(accept), dialects[word], accept)
            else:
                self.assertIs(accepts_gzip(accept), word == "gzip", accept)

    def test_no_recorder(self) -> None:
        instrument = "[[meter.instrument]]\nname = 'i'\nkind = 'counter'\nrange = [0, 1]\n"
        metrics = Metrics.open(f"format = 1\n[[meter]]\nname = 'm'\n{instrument}", CONFIG)
        self.assertEqual((metrics.instrument("i").meter, metrics.recorders), ("m", ()))
        self.assertEqual(metrics.reader("all").collect(metrics.instrument("i")).streams[0].points, ())

    def test_roll_over(self) -> None:
        requests = self.metrics.instrument("requests")
        home = requests.bind(HOME)
        first = self.metrics.recorder("first")
        for runs in range(3):
            for value in range(1, 6):
                first.add(home, value)
            with self.assertRaises(BudgetRefusal):
                first.add(home, 1)
            self.assertEqual(self.all.collect(requests).streams[0].points[0].value, Sum(15))
            if runs == 1:
                requests.close()
            self.assertEqual(self.metrics.roll_over().totals[0], Total(5, 15))
        batch = self.all.collect(requests)
        self.assertEqual(batch.streams[0].points, ())
        self.assertGreater(batch.start, 0)
        self.assertEqual(self.metrics.settle()[0], Total(0, 0))

    def test_seats_outlive_their_run(self) -> None:
        requests, second, reader = self.metrics.instrument("requests"), self.second, self.all
        home = requests.bind(HOME)
        del self.metrics, self.second, self.all, self.new
        gc.collect()
        second.add(home, 1)
        self.assertEqual(reader.collect(requests).streams[0].points[0].value, Sum(1))
