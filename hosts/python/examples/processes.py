"""Four processes that serve from one socket. Each of them shows one page of all at /metrics.

    python processes.py                     serves some requests to itself, and prints what they counted
    gunicorn -w 4 processes:application     the same by gunicorn, with --preload or without

SHOP_METRICS names the folder of the pages, which is emptied before a start.
"""

from __future__ import annotations

import os
import signal
import sys
import tempfile
import urllib.request
import warnings
from collections.abc import Iterable
from concurrent.futures import ThreadPoolExecutor
from typing import TYPE_CHECKING
from wsgiref.simple_server import WSGIRequestHandler, make_server

from wormweekly import Metrics
from wormweekly.exporters.folder import PageFolder
from wormweekly.web import Measures, Wsgi

if TYPE_CHECKING:
    from wsgiref.types import StartResponse, WSGIEnvironment

CATALOGUE = """format = 1
[[meter]]
name = 'http'
[[meter.instrument]]
name = 'http.requests'
kind = 'counter'
range = [1, 1]
key = [{ name = 'route', values = ['/', '/cart', 'other'] }, { name = 'status', values = [200, 404] }]
[[meter.instrument]]
name = 'http.duration'
kind = 'histogram'
unit = 'ms'
range = [0, 60000]
boundaries = [5, 50, 500]
[[meter.instrument]]
name = 'http.in_flight'
kind = 'up_down_counter'
range = [-1, 1]
""" + "".join(
    f"""[[recorder]]
name = 'worker {number}'
budget = [{{ instrument = 0, amount = 1000000 }}, {{ instrument = 1, amount = 1000000 }}, {{ instrument = 2, amount = 2000000 }}]
"""
    for number in range(4)
)

CONFIG = "format = 1\n[[reader]]\nname = 'prometheus'\n"


def shop(environ: WSGIEnvironment, start_response: StartResponse) -> Iterable[bytes]:
    found = environ["PATH_INFO"] in ("/", "/cart")
    start_response("200 OK" if found else "404 Not Found", [("Content-Type", "text/plain")])
    return [b"welcome\n" if found else b"nothing here\n"]


metrics = Metrics.open(CATALOGUE, CONFIG, reopen_in_child=True)
folder = os.environ.get("SHOP_METRICS") or tempfile.mkdtemp()
pages = PageFolder(folder, metrics, metrics.reader("prometheus"), {"service.name": "shop"})
application = Wsgi(shop, Measures(metrics), page=pages.answer)


class Quiet(WSGIRequestHandler):
    def log_message(self, format: str, *args: object) -> None:
        pass


def main() -> None:
    server = make_server("127.0.0.1", 0, application, handler_class=Quiet)
    warnings.simplefilter("ignore", DeprecationWarning)  # of threads at a fork: that of the pages rests then
    workers = [os.fork() for _ in range(4) if os.getpid() == PARENT]
    if os.getpid() != PARENT:
        signal.signal(signal.SIGTERM, lambda *_: sys.exit(0))
        server.serve_forever()
    own = f"http://127.0.0.1:{server.server_port}"
    with ThreadPoolExecutor(16) as clients:
        for answer in clients.map(get, [own + path for path in ("/", "/cart") * 100]):
            assert answer == b"welcome\n"
    for worker in workers:
        os.kill(worker, signal.SIGTERM)
        os.waitpid(worker, 0)
    print("".join(line for line in pages.page().decode().splitlines(True) if line.startswith("http_requests")), end="")


def get(url: str) -> bytes:
    with urllib.request.urlopen(url, timeout=60) as answer:
        return bytes(answer.read())


PARENT = os.getpid()
if __name__ == "__main__":
    main()
