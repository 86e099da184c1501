"""A server of a thread for each request, for `tools/load`: `load_server.py measured`, or `plain`."""

from __future__ import annotations

import sys
import time
from collections.abc import Iterable
from pathlib import Path
from typing import TYPE_CHECKING
from wsgiref.simple_server import make_server

sys.path.insert(0, str(Path(__file__).resolve().parent.parent / "examples"))

from wsgi import Quiet, Server, measured, opened  # noqa: E402

if TYPE_CHECKING:
    from wsgiref.types import StartResponse, WSGIApplication, WSGIEnvironment


def slow(environ: WSGIEnvironment, start_response: StartResponse) -> Iterable[bytes]:
    time.sleep(0.05)
    start_response("200 OK", [("Content-Type", "text/plain"), ("Content-Length", "5")])
    return [b"done\n"]


class Busy(Server):
    request_queue_size = 256


application: WSGIApplication = slow
if sys.argv[1] == "measured":
    application = measured(slow, opened())
server = make_server("127.0.0.1", 0, application, Busy, Quiet)
print(server.server_port, flush=True)
server.serve_forever()
