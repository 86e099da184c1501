"""A service that pushes its metrics to a collector.

    python push_otlp.py            pushes to a stand-in, and prints what that takes
    python push_otlp.py URL        pushes to http://localhost:4318/v1/metrics, say
"""

from __future__ import annotations

import logging
import sys
import threading
from http.server import BaseHTTPRequestHandler, HTTPServer

from wormweekly import Metrics
from wormweekly.exporters import otlp

CATALOGUE = """format = 1
[[meter]]
name = 'shop'
[[meter.instrument]]
name = 'orders'
kind = 'counter'
range = [1, 100]
key = [{ name = 'country', values = ['de', 'fr'] }]
[[recorder]]
name = 'till'
budget = [{ instrument = 0, amount = 1000 }]
"""

CONFIG = """format = 1
[[reader]]
name = 'otlp'
temporality = { counter = 'delta', histogram = 'delta' }
"""


class Collector(BaseHTTPRequestHandler):
    """A stand-in for a collector. It refuses one post for good, and rejects a point of the last one."""

    answers = [(200, b""), (400, b""), (200, b"\n\x02\x08\x01")]
    taken: list[bytes] = []

    def do_POST(self) -> None:
        body = self.rfile.read(int(self.headers["Content-Length"]))
        status, answer = self.answers.pop(0)
        if status == 200:
            self.taken.append(body)
        self.send_response(status)
        self.send_header("Content-Length", str(len(answer)))
        self.end_headers()
        self.wfile.write(answer)

    def log_message(self, format: str, *args: object) -> None:
        pass


def main(url: str | None) -> None:
    server = HTTPServer(("127.0.0.1", 0), Collector)
    threading.Thread(target=server.serve_forever, daemon=True).start()
    own = f"http://127.0.0.1:{server.server_port}/v1/metrics"
    logging.disable(logging.WARNING)  # which say what the collector refuses
    settings = otlp.Settings(endpoint=url or own, resource={"service.name": "shop"})
    with Metrics.open(CATALOGUE, CONFIG) as metrics:
        orders = metrics.instrument("orders")
        with otlp.Exporter(metrics, metrics.reader("otlp"), settings) as exporter:
            for country in ("de", "fr", "de"):
                orders.add(2, {"country": country})
                exporter.flush()
        print(f"posted: {exporter.posted}, dropped: {exporter.dropped}, rejected points: {exporter.rejected}")
    for body in Collector.taken:
        print(f"taken in one post: {body.count(b'orders')} windows of orders")
    server.shutdown()


if __name__ == "__main__":
    main(sys.argv[1] if len(sys.argv) > 1 else None)
