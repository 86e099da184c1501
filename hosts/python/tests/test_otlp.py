"""The exporter for OTLP, against servers that answer as collectors do."""

from __future__ import annotations

import gzip
import logging
import socket
import threading
import time
import unittest
from email.utils import formatdate
from http.server import BaseHTTPRequestHandler, ThreadingHTTPServer

from tests.plans import HOME, opened
from wormweekly import Ended, ResourceRefusal, Total
from wormweekly.exporters.otlp import Exporter, Settings, SettingsFault, partial_success

Answer = tuple[int, dict[str, str], bytes]
REJECTED = b"\n\x06\x08\x03\x12\x02no"  # 3 points, "no"


class Collector(ThreadingHTTPServer):
    """Gives the answers in turn, the last one for ever, and keeps what it was posted."""

    daemon_threads = True

    def __init__(self, *answers: Answer) -> None:
        super().__init__(("127.0.0.1", 0), Taker)
        self.answers = list(answers)
        self.posts: list[tuple[str, dict[str, str], bytes]] = []
        self.settings = Settings(f"http://127.0.0.1:{self.server_port}/v1/metrics", timeout=0.3, interval=3600)
        threading.Thread(target=self.serve_forever, args=(0.01,), daemon=True).start()

    def close(self) -> None:
        self.shutdown()
        self.server_close()


class Taker(BaseHTTPRequestHandler):
    server: Collector

    def do_POST(self) -> None:
        body = self.rfile.read(int(self.headers["Content-Length"]))
        own = self.server
        own.posts.append((self.path, {name.title(): value for name, value in self.headers.items()}, body))
        status, headers, answer = own.answers.pop(0) if len(own.answers) > 1 else own.answers[0]
        self.send_response(status)
        for name, value in {"Content-Length": str(len(answer)), **headers}.items():
            self.send_header(name, value)
        self.end_headers()
        self.wfile.write(answer)

    def do_GET(self) -> None:
        raise AssertionError("a post became something else")

    def log_message(self, format: str, *args: object) -> None:
        pass


DONE: Answer = (200, {}, b"")


class Posts(unittest.TestCase):
    def setUp(self) -> None:
        logging.getLogger("wormweekly").setLevel(logging.CRITICAL)
        self.addCleanup(logging.getLogger("wormweekly").setLevel, logging.NOTSET)
        self.metrics = opened()
        self.requests = self.metrics.instrument("requests")

    def pushed(self, *answers: Answer) -> tuple[Collector, Exporter]:
        """A recording that was pushed once to a collector of such answers."""
        collector = Collector(*answers)
        self.addCleanup(collector.close)
        exporter = Exporter(self.metrics, self.metrics.reader("new"), collector.settings)
        self.addCleanup(exporter._ended.set)
        self.requests.add(2, HOME)
        exporter.flush()
        return collector, exporter

    def again(self, exporter: Exporter) -> bool:
        """Whether all is answered, after any pause."""
        exporter._paused_until = 0.0
        return exporter.flush()

    def test_a_post(self) -> None:
        collector, exporter = self.pushed(DONE)
        path, headers, body = collector.posts[0]
        self.assertEqual((path, headers["Content-Type"]), ("/v1/metrics", "application/x-protobuf"))
        for text in (b"requests", b"service.name", b"service.instance.id", b"telemetry.sdk.name"):
            self.assertIn(text, body)
        self.assertTrue(exporter.shutdown())
        self.assertEqual((exporter.posted, exporter.dropped, len(collector.posts)), (1, 0, 1))

    def test_a_collection_is_one_post(self) -> None:
        collector, exporter = self.pushed(DONE)
        self.metrics.instrument("duration").record(3, {"route": "/"})
        self.requests.add(1, HOME)
        exporter.flush()
        self.assertEqual(len(collector.posts), 2)
        self.assertTrue(b"duration" in collector.posts[1][2] and b"requests" in collector.posts[1][2])

    def test_what_is_refused_for_good_is_dropped(self) -> None:
        for status in (400, 401, 404, 413, 500, 501, 302, 307):
            headers = {"Location": "/elsewhere"} if status < 400 else {}
            collector, exporter = self.pushed((status, headers, b""))
            self.assertEqual((exporter.dropped, exporter.waiting, len(collector.posts)), (1, 0, 1), status)

    def test_a_reason_is_told(self) -> None:
        logging.getLogger("wormweekly").setLevel(logging.WARNING)
        with self.assertLogs("wormweekly") as told:
            self.pushed((400, {}, b"\x08\x03\x12\x06no key"))
        self.assertIn("a collection is dropped: HTTP Error 400: Bad Request no key", told.output[0])

    def test_what_is_not_taken_now_is_posted_again(self) -> None:
        for status in (429, 502, 503, 504):
            collector, exporter = self.pushed((status, {}, b""), DONE)
            self.assertEqual((exporter.waiting, exporter.dropped), (1, 0), status)
            self.assertFalse(exporter.flush())
            self.assertEqual(len(collector.posts), 1)  # not before a pause
            self.requests.add(1, HOME)
            self.assertTrue(self.again(exporter))
            self.assertEqual([post[2] for post in collector.posts[:2]], [collector.posts[0][2]] * 2)
            self.assertEqual((exporter.posted, len(collector.posts)), (2, 3))

    def test_a_pause_that_is_asked_for(self) -> None:
        for after in ("77", formatdate(time.time() + 77, usegmt=True)):
            _, exporter = self.pushed((429, {"Retry-After": after}, b""))
            self.assertTrue(70 < exporter._paused_until - time.monotonic() <= 77)
        for after in ("-1", "soon", "9" * 400, "Mon, 99 Foo"):
            _, exporter = self.pushed((503, {"Retry-After": after}, b""))
            self.assertTrue(exporter._paused_until - time.monotonic() <= 86_400)

    def test_a_part_that_is_rejected(self) -> None:
        _, exporter = self.pushed((200, {}, REJECTED))
        self.assertEqual((exporter.posted, exporter.rejected, exporter.waiting), (1, 3, 0))
        self.assertEqual(partial_success(REJECTED), (3, "no"))
        for answer in (b"", b"\n", b"\n\xff", b"\xff" * 20, b"\x08\x01", b"\n\x01\x08", b"<html>"):
            partial_success(answer)

    def test_nobody_answers(self) -> None:
        with socket.create_server(("127.0.0.1", 0)) as deaf:
            settings = Settings(f"http://127.0.0.1:{deaf.getsockname()[1]}/", timeout=0.1, interval=3600)
            exporter = Exporter(self.metrics, self.metrics.reader("new"), settings)
            self.requests.add(2, HOME)
            self.assertEqual((exporter.flush(), exporter.waiting, exporter.dropped), (False, 1, 0))
            self.assertFalse(exporter.shutdown(timeout=0.2))
        self.assertFalse(self.again(exporter))  # nobody listens any more

    def test_compressed(self) -> None:
        collector = Collector(DONE)
        self.addCleanup(collector.close)
        settings = Settings(collector.settings.endpoint, {"x-key": "a b"}, interval=3600, is_compressed=True)
        with Exporter(self.metrics, self.metrics.reader("new"), settings):
            self.requests.add(2, HOME)
        _, headers, body = collector.posts[0]
        self.assertEqual((headers["Content-Encoding"], headers["X-Key"]), ("gzip", "a b"))
        self.assertIn(b"requests", gzip.decompress(body))

    def test_what_waits_has_an_end(self) -> None:
        collector = Collector((503, {}, b""))
        self.addCleanup(collector.close)
        exporter = Exporter(self.metrics, self.metrics.reader("new"), collector.settings, most_waiting=2000)
        for _ in range(20):
            self.requests.add(2, HOME)
            exporter.flush()
        self.assertEqual(exporter.dropped + exporter.waiting, 20)
        self.assertTrue(0 < exporter.waiting < 20)

    def test_a_budget_never_ends(self) -> None:
        collector, ended = Collector(DONE), list[Ended]()
        self.addCleanup(collector.close)
        exporter = Exporter(
            self.metrics, self.metrics.reader("new"), collector.settings,
            roll_over_below=0.5, on_roll_over=ended.append,
        )
        gauge = self.metrics.instrument("temperature")
        for _ in range(5):
            for _ in range(3):
                gauge.record(7)
            exporter._take_turn()
        self.assertEqual(gauge.refused, {})
        self.assertEqual([run.totals[3] for run in ended], [Total(3, 21)] * 5)
        exporter.shutdown()
        self.assertEqual(len(collector.posts), 5)

    def test_a_resource_that_is_not_taken(self) -> None:
        settings = Settings("http://127.0.0.1:1/", resource={"": "a"})
        with self.assertRaises(ResourceRefusal):
            Exporter(self.metrics, self.metrics.reader("new"), settings)

    def test_a_thread_posts(self) -> None:
        collector = Collector(DONE)
        self.addCleanup(collector.close)
        settings = Settings(collector.settings.endpoint, interval=0.02)
        with Exporter(self.metrics, self.metrics.reader("all"), settings) as exporter:
            self.requests.add(1, HOME)
            while exporter.posted < 3:
                time.sleep(0.01)


class Environment(unittest.TestCase):
    def test_nothing_is_said(self) -> None:
        self.assertEqual(Settings.of_environment({"OTEL_SERVICE_NAME": " "}), Settings())

    def test_all_is_said(self) -> None:
        said = Settings.of_environment(
            {
                "OTEL_EXPORTER_OTLP_ENDPOINT": "https://host:1/below/",
                "OTEL_EXPORTER_OTLP_HEADERS": "api-key=a%20b, x = y=z",
                "OTEL_EXPORTER_OTLP_TIMEOUT": "1500",
                "OTEL_EXPORTER_OTLP_COMPRESSION": "gzip",
                "OTEL_METRIC_EXPORT_INTERVAL": "250",
                "OTEL_RESOURCE_ATTRIBUTES": "service.name=other,deployment.environment=a%2Cb",
                "OTEL_SERVICE_NAME": "shop",
            }
        )
        self.assertEqual((said.endpoint, said.headers), ("https://host:1/below/v1/metrics", {"api-key": "a b", "x": "y=z"}))
        self.assertEqual((said.timeout, said.interval, said.is_compressed), (1.5, 0.25, True))
        self.assertEqual(said.resource, {"service.name": "shop", "deployment.environment": "a,b"})

    def test_what_is_said_of_metrics_goes_first(self) -> None:
        said = Settings.of_environment(
            {
                "OTEL_EXPORTER_OTLP_ENDPOINT": "http://all",
                "OTEL_EXPORTER_OTLP_METRICS_ENDPOINT": "http://metrics/here",
                "OTEL_EXPORTER_OTLP_TIMEOUT": "1",
                "OTEL_EXPORTER_OTLP_METRICS_TIMEOUT": "2000",
            }
        )
        self.assertEqual((said.endpoint, said.timeout), ("http://metrics/here", 2.0))

    def test_what_cannot_be_said(self) -> None:
        for name, value in [
            ("OTEL_EXPORTER_OTLP_ENDPOINT", "host:4318"),
            ("OTEL_EXPORTER_OTLP_METRICS_ENDPOINT", "http://"),
            ("OTEL_EXPORTER_OTLP_ENDPOINT", "http://["),
            ("OTEL_EXPORTER_OTLP_ENDPOINT", "http://host:99999"),
            ("OTEL_EXPORTER_OTLP_TIMEOUT", "10s"),
            ("OTEL_METRIC_EXPORT_INTERVAL", "0"),
            ("OTEL_METRIC_EXPORT_INTERVAL", "9" * 5000),
            ("OTEL_EXPORTER_OTLP_COMPRESSION", "zstd"),
            ("OTEL_EXPORTER_OTLP_HEADERS", "key"),
            ("OTEL_RESOURCE_ATTRIBUTES", "=value"),
        ]:
            with self.assertRaisesRegex(SettingsFault, f"^{name}: "):
                Settings.of_environment({name: value})
