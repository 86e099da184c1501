"""Web applications that are measured."""

from __future__ import annotations

import asyncio
import gzip
import importlib.util
import os
import signal
import socket
import subprocess
import sys
import tempfile
import time
import unittest
import urllib.request
from collections.abc import Iterator
from concurrent.futures import ThreadPoolExecutor
from typing import Any
from wsgiref.util import setup_testing_defaults

from tests.plans import CATALOGUE, CONFIG
from wormweekly import Dialect, Metrics, Total
from wormweekly.web import Asgi, Measures, Message, Receive, Scope, Send, Wsgi

OPEN_METRICS = "application/openmetrics-text"
EXAMPLES = os.path.join(os.path.dirname(os.path.dirname(os.path.abspath(__file__))), "examples")


def a_page(accept: str) -> tuple[Dialect, bytes]:
    return Dialect.accepted(accept), b"a page"


class Measured(unittest.TestCase):
    def setUp(self) -> None:
        text = CATALOGUE.replace("values = ['/', '/cart']", "values = ['/', '/cart', 'other']")
        self.metrics = Metrics.open(text.replace("values = [200, 404]", "values = [200, 404, 'other']"), CONFIG)
        self.measures = Measures(self.metrics, requests="requests", duration="duration", in_flight="in_flight")

    def seen(self) -> dict[tuple[object, ...], int]:
        points = self.metrics.readers[0].collect(self.metrics.instruments[0]).streams[0].points
        return {tuple(point.attributes.values()): point.value.value for point in points}  # type: ignore[union-attr]

    def check_ends(self, requests: int) -> None:
        """All were timed, and none is in flight."""
        totals = self.metrics.settle()
        self.assertEqual((totals[1].sum, totals[1].count, totals[2].count), (0, 2 * requests, requests))

    def test_wsgi(self) -> None:
        flying = []

        def application(environ: dict[str, Any], start_response: Any) -> Iterator[bytes]:
            flying.append(self.metrics.settle()[1].sum)
            if environ["PATH_INFO"] == "/fault":
                raise ZeroDivisionError
            start_response("404 Not Found" if environ["PATH_INFO"] == "/none" else "200 OK", [])
            return iter([b"a", b"b"])

        wsgi = Wsgi(application, self.measures, page=a_page)
        told: list[Any] = []
        for path in ("/", "/cart", "/none", "/metrics", "/fault"):
            environ: dict[str, Any] = {"PATH_INFO": path}
            setup_testing_defaults(environ)
            try:
                body = wsgi(environ, lambda *rest: told.append(rest))  # type: ignore[arg-type]
            except ZeroDivisionError:
                continue
            self.assertEqual(b"".join(body), b"a page" if path == "/metrics" else b"ab")
            if hasattr(body, "close"):
                body.close()
                body.close()
        self.assertEqual(self.seen(), {("/", 200): 1, ("/cart", 200): 1, ("other", 404): 1, ("other", "other"): 1})
        self.assertEqual((flying, self.metrics.instruments[0].replaced), ([1] * 4, 3))
        self.check_ends(4)

    def test_asgi(self) -> None:
        async def application(scope: Scope, receive: Receive, send: Send) -> None:
            await asyncio.sleep(0)
            if scope["type"] == "http" and scope["path"] == "/fault":
                raise ZeroDivisionError
            await send({"type": "http.response.start", "status": 200, "headers": []})
            await send({"type": "http.response.body", "body": b""})

        sent: list[Message] = []

        async def receive() -> Message:
            return {}

        async def send(message: Message) -> None:
            sent.append(message)

        async def serve() -> None:
            asgi = Asgi(application, self.measures, page=a_page)
            scopes: list[Scope] = [{"type": "http", "method": "GET", "path": path} for path in ("/", "/fault", "/metrics")]
            await asyncio.gather(*(asgi(scope, receive, send) for scope in scopes), return_exceptions=True)
            await asgi({"type": "lifespan"}, receive, send)

        asyncio.run(serve())
        self.assertEqual(self.seen(), {("/", 200): 1, ("other", "other"): 1})
        self.assertIn(b"a page", [message.get("body") for message in sent])
        self.check_ends(2)

    def test_a_page_is_what_is_asked_for(self) -> None:
        asks = {"HTTP_ACCEPT": OPEN_METRICS, "HTTP_ACCEPT_ENCODING": "gzip, deflate"}
        environ: dict[str, Any] = {"PATH_INFO": "/metrics", **asks}
        setup_testing_defaults(environ)
        told: list[Any] = []
        wsgi = Wsgi(lambda *_: [], self.measures, page=a_page)
        (body,) = wsgi(environ, lambda *rest: told.append(rest))  # type: ignore[arg-type]
        named = dict(told[0][1])
        self.assertEqual((gzip.decompress(body), named["Content-Encoding"]), (b"a page", "gzip"))
        self.assertEqual(named["Content-Type"], Dialect.OPEN_METRICS.content_type)

        async def receive() -> Message:
            return {}

        async def send(message: Message) -> None:
            told.append(message)

        asgi = Asgi(lambda *_: asyncio.sleep(0), self.measures, page=a_page)
        headers = [(b"accept", b"text/plain;q=0.1"), (b"accept", OPEN_METRICS.encode()), (b"accept-encoding", b"gzip")]
        scope: Scope = {"type": "http", "method": "GET", "path": "/metrics", "headers": headers}
        asyncio.run(asgi(scope, receive, send))
        self.assertIn((b"content-encoding", b"gzip"), told[1]["headers"])
        self.assertIn((b"content-type", Dialect.OPEN_METRICS.content_type.encode()), told[1]["headers"])
        self.assertEqual(gzip.decompress(told[2]["body"]), b"a page")

    def test_ten_thousand_tasks(self) -> None:
        recorder = "[[recorder]]\nname = '{}'\nbudget = [{{ instrument = 0, amount = 20000 }}, {{ instrument = 1, amount = 20000 }}]\n"
        text = CATALOGUE.partition("[[recorder]]")[0] + "".join(map(recorder.format, range(8)))
        metrics = Metrics.open(text, CONFIG, strict=True)
        requests, in_flight = metrics.instruments[:2]

        async def task() -> None:
            with in_flight.in_flight():
                requests.add(1, {"route": "/", "status": 200})
                await asyncio.sleep(0)
                requests.add(1, {"route": "/cart", "status": 200})

        async def run() -> None:
            await asyncio.gather(*(task() for _ in range(10_000)))

        asyncio.run(run())
        self.assertEqual(metrics.settle()[:2], (Total(20_000, 20_000), Total(20_000, 0)))


@unittest.skipUnless(importlib.util.find_spec("gunicorn"), "no gunicorn")
class Gunicorn(unittest.TestCase):
    """Four workers of gunicorn."""

    def get(self, path: str) -> bytes:
        with urllib.request.urlopen(f"http://127.0.0.1:{self.port}{path}", timeout=30) as answer:
            return bytes(answer.read())

    def begin(self, *words: str) -> subprocess.Popen[bytes]:
        with socket.create_server(("127.0.0.1", 0)) as own:
            self.port = own.getsockname()[1]
        command = [sys.executable, "-m", "gunicorn", "-w", "4", "-b", f"127.0.0.1:{self.port}", "--log-level", "error"]
        environment = os.environ | {"SHOP_METRICS": tempfile.mkdtemp()}
        server = subprocess.Popen([*command, *words, "processes:application"], cwd=EXAMPLES, env=environment)
        self.addCleanup(server.wait)
        self.addCleanup(server.terminate)
        while server.poll() is None:
            try:
                self.get("/metrics")
                break
            except OSError:
                time.sleep(0.05)
        return server

    def counted(self) -> int:
        lines = self.get("/metrics").decode().splitlines()
        return sum(int(line.rpartition(" ")[2]) for line in lines if line.startswith("http_requests_total"))

    def wait_for(self, count: int) -> None:
        """Until so much is counted: a worker writes its page each second."""
        for _ in range(300):
            if self.counted() >= count:
                break
            time.sleep(0.1)
        self.assertEqual([self.counted() for _ in range(8)], [count] * 8)

    def check(self, *words: str) -> None:
        server = self.begin(*words)
        with ThreadPoolExecutor(16) as clients:
            list(clients.map(self.get, ["/"] * 400))
        self.wait_for(400)
        server.send_signal(signal.SIGHUP)  # all workers are replaced
        time.sleep(0.5)
        list(map(self.get, ["/cart"] * 10))
        self.wait_for(410)

    def test_each_opens_its_own(self) -> None:
        self.check()

    def test_opened_before_they_are_forked(self) -> None:
        self.check("--preload")
