"""A WSGI application that is measured, and that shows its metrics at /metrics. What it records itself are names of code
that `wormweekly bind` made of its catalogue.

    python wsgi.py            serves some requests to itself, and prints the page
    python wsgi.py PORT       serves
"""

from __future__ import annotations

import sys
import threading
import urllib.error
import urllib.request
from collections.abc import Iterable
from pathlib import Path
from socketserver import ThreadingMixIn
from typing import TYPE_CHECKING
from urllib.parse import parse_qs
from wsgiref.simple_server import WSGIRequestHandler, WSGIServer, make_server

import wsgi_bound as bound
from wormweekly.exporters.pages import Page
from wormweekly.web import Measures, Wsgi

if TYPE_CHECKING:
    from wsgiref.types import StartResponse, WSGIApplication, WSGIEnvironment

CATALOGUE = Path(__file__).with_name("wsgi.toml").read_text()

CONFIG = """format = 1
[[reader]]
name = 'prometheus'
"""


class Shop:
    def __init__(self, metrics: bound.Metrics) -> None:
        self.metrics = metrics

    def __call__(self, environ: WSGIEnvironment, start_response: StartResponse) -> Iterable[bytes]:
        status, words = self.answer(environ["PATH_INFO"], parse_qs(environ["QUERY_STRING"]))
        start_response(status, [("Content-Type", "text/plain")])
        return [words]

    def answer(self, path: str, query: dict[str, list[str]]) -> tuple[str, bytes]:
        if path == "/":
            return "200 OK", b"welcome\n"
        if path != "/cart":
            return "404 Not Found", b"nothing here\n"
        country = bound.Country_of(query.get("country", [""])[0])
        if country is None:
            return "400 Bad Request", b"no such country\n"
        self.metrics.shop.orders.bind(country=country).add(1)
        return "200 OK", b"ordered\n"


class Server(ThreadingMixIn, WSGIServer):
    """A thread for each request."""

    daemon_threads = True


class Quiet(WSGIRequestHandler):
    def log_message(self, format: str, *args: object) -> None:
        pass


def opened() -> bound.Metrics:
    return bound.Metrics.open(CATALOGUE, CONFIG)


def measured(application: WSGIApplication, metrics: bound.Metrics) -> Wsgi:
    """The application, measured."""
    page = Page(metrics.own, metrics.own.reader("prometheus"), {"service.name": "shop"})
    return Wsgi(application, Measures(metrics.own), page=page.answer)


def get(url: str) -> str:
    try:
        with urllib.request.urlopen(url, timeout=5) as answer:
            return str(answer.read().decode())
    except urllib.error.HTTPError as fault:
        return fault.reason


def main(port: int | None) -> None:
    metrics = opened()
    server = make_server("127.0.0.1", port or 0, measured(Shop(metrics), metrics), Server, Quiet)
    if port is not None:
        server.serve_forever()
    threading.Thread(target=server.serve_forever, daemon=True).start()
    own = f"http://127.0.0.1:{server.server_port}"
    for path in ("/", "/cart?country=de", "/", "/nothing"):
        get(own + path)
    for line in get(own + "/metrics").splitlines():
        if not line.startswith("http_duration_milliseconds_"):
            print(line)
    server.shutdown()


if __name__ == "__main__":
    main(int(sys.argv[1]) if len(sys.argv) > 1 else None)
