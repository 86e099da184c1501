"""A page that goes on where a run ends."""

import unittest

from tests.plans import CATALOGUE, CONFIG, HOME, opened
from wormweekly import Dialect, Metrics
from wormweekly.exporters.pages import Page

LABELS = 'otel_scope_name="shop",otel_scope_version="1.0"'


class Pages(unittest.TestCase):
    def test_a_page_goes_on(self) -> None:
        metrics = Metrics.open(CATALOGUE, CONFIG.partition("[[reader]]\nname = 'new'")[0])
        page = Page(metrics, metrics.readers[0], {"service.name": "shop"})
        temperature = metrics.instrument("temperature")
        for value in range(12):
            metrics.instrument("requests").add(2, HOME)
            metrics.instrument("duration").record(value, {"route": "/"})
            temperature.record(value)
            page.text()
        temperature.record(7)
        lines = page.text().splitlines()
        for line in [
            f'requests_total{{route="/",status="200",{LABELS}}} 24',
            f'duration_milliseconds_bucket{{route="/",{LABELS},le="10.0"}} 11',
            f'duration_milliseconds_sum{{route="/",{LABELS}}} 66',
            f"temperature{{{LABELS}}} 7",
            'target_info{service_name="shop"} 1',
        ]:
            self.assertEqual(lines.count(line), 1, line)
        self.assertEqual(temperature.refused, {})
        self.assertLess(metrics.settle()[0].count, 12)

    def test_each_dialect_goes_on(self) -> None:
        metrics = Metrics.open(CATALOGUE, CONFIG.partition("[[reader]]\nname = 'new'")[0], start=1_000_000_000)
        page = Page(metrics, metrics.readers[0], {"service.name": "shop"}, roll_over_below=0.0, created=True)
        for number in range(3):
            metrics.instrument("requests").add(2, HOME)
            metrics.instrument("duration").record(number, {"route": "/"})
            metrics.instrument("temperature").record(number)
            page.take(metrics.roll_over())
        metrics.instrument("requests").add(2, HOME)
        dialect, body = page.answer("application/openmetrics-text")
        self.assertEqual(dialect, Dialect.OPEN_METRICS_CREATED)
        lines = body.decode().splitlines()
        began = [at for at, line in enumerate(lines) if "_created{" in line]
        self.assertEqual([lines[at].rpartition(" ")[2] for at in began], ["1.000000000"] * 2)
        self.assertTrue(lines[began[0] - 1].startswith("requests_total{") and lines[began[0] - 1].endswith(" 8"))
        self.assertEqual([line for line in lines if "# UNIT" in line], ["# UNIT duration_milliseconds milliseconds"])
        self.assertEqual((lines[-1], lines.count("# EOF")), ("# EOF", 1))
        samples = {line for line in lines if line[0] != "#" and "_created{" not in line}
        self.assertEqual(samples, {line for line in page.text().splitlines() if line[0] != "#"})
        self.assertEqual(page.answer("text/plain"), (Dialect.TEXT, page.text().encode()))

    def test_of_two_readers_another_one_is_asked(self) -> None:
        metrics = opened()
        page = Page(metrics, metrics.readers[0])
        metrics.instrument("temperature").record(1)
        metrics.instrument("temperature").record(1)
        metrics.instrument("requests").add(2, HOME)
        page.text()
        self.assertEqual(metrics.settle()[0].count, 1)
        page.take(metrics.roll_over())
        self.assertIn(f'requests_total{{route="/",status="200",{LABELS}}} 2\n', page.text())
