"""Web applications that are measured, as WSGI and ASGI have them.

    application = Wsgi(application, Measures(metrics, route=route_of), page=Page(metrics, reader).answer)

A request counts when its answer ends, whatever becomes of it. The instruments are told of a method, a route and a
status as far as they declare the keys `method`, `route` and `status`; what they do not declare of these is recorded as
`other`, which the catalogue has to declare. A request is served, whether it is counted or not: the metrics are not to
be strict.
"""

from __future__ import annotations

import asyncio
import gzip
import time
from collections.abc import Awaitable, Callable, Iterable, Iterator, Mapping, MutableMapping
from typing import TYPE_CHECKING, Any

from wormweekly import Attributes, Dialect, Instrument, Metrics, Value
from wormweekly._metrics import accepts_gzip

if TYPE_CHECKING:
    from wsgiref.types import StartResponse, WSGIApplication, WSGIEnvironment

__all__ = ["Asgi", "Measures", "Wsgi"]

Page = Callable[[str], tuple[Dialect, bytes]]  # for whoever asks with this header `Accept`
Scope = MutableMapping[str, Any]
Message = MutableMapping[str, Any]
Receive = Callable[[], Awaitable[Message]]
Send = Callable[[Message], Awaitable[None]]
AsgiApplication = Callable[[Scope, Receive, Send], Awaitable[None]]


class Measures:
    """What is recorded of requests: each counts on `requests`, takes its time on `duration`, in units of so many
    nanoseconds, and is in flight on an up-down counter. Where a name is None, nothing is. A route is what is made of a
    path."""

    def __init__(
        self,
        metrics: Metrics,
        *,
        requests: str | None = "http.requests",
        duration: str | None = "http.duration",
        in_flight: str | None = "http.in_flight",
        route: Callable[[str], str] = str,
        unit: int = 1_000_000,
        other: str = "other",
    ) -> None:
        self.route, self.unit, self.other = route, unit, other
        self.requests, self.duration, self.in_flight = (
            None if name is None else _Measure(metrics.instrument(name), other) for name in (requests, duration, in_flight)
        )

    def begin(self, method: str, path: str) -> Request:
        """A request begins."""
        return Request(self, {"method": method, "route": self.route(path)})


class _Measure:
    def __init__(self, instrument: Instrument, other: str) -> None:
        self.instrument, self.other = instrument, other
        self.keys = [key for key in ("method", "route", "status") if instrument.declares(key)]

    def attributes(self, said: Mapping[str, Value]) -> Attributes:
        known_or = self.instrument.known_or
        return {key: known_or(key, said[key], self.other) for key in self.keys if key in said}


class Request:
    """A request under way."""

    def __init__(self, measures: Measures, said: Mapping[str, Value]) -> None:
        self.status = 500
        self._measures, self._said = measures, said
        own = measures.in_flight
        self._in_flight = None if own is None else own.instrument.in_flight(own.attributes(said))
        if self._in_flight is not None:
            self._in_flight.__enter__()
        self._began: int | None = time.perf_counter_ns()

    def end(self) -> None:
        """Records it, with its status, once."""
        if self._began is None:
            return
        took = (time.perf_counter_ns() - self._began) // self._measures.unit
        self._began = None
        if self._in_flight is not None:
            self._in_flight.__exit__(None, None, None)
        said: dict[str, Value] = {**self._said, "status": self.status}
        if (duration := self._measures.duration) is not None:
            duration.instrument.record_clamped(took, duration.attributes(said))
        if (requests := self._measures.requests) is not None:
            requests.instrument.add(1, requests.attributes(said))


class Wsgi:
    """A WSGI application that is measured, and answers with a page at a path."""

    def __init__(
        self, application: WSGIApplication, measures: Measures, page: Page | None = None, at: str = "/metrics"
    ) -> None:
        self._application, self._measures, self._page, self._at = application, measures, page, at

    def __call__(self, environ: WSGIEnvironment, start_response: StartResponse) -> Iterable[bytes]:
        path = environ.get("PATH_INFO", "")
        if self._page is not None and path == self._at:
            accepted, packing = (environ.get(name, "") for name in ("HTTP_ACCEPT", "HTTP_ACCEPT_ENCODING"))
            headers, served = _served(self._page, accepted, packing)
            start_response("200 OK", headers)
            return [served]
        request = self._measures.begin(environ["REQUEST_METHOD"], path)

        def note(status: str, *rest: Any) -> Callable[[bytes], object]:
            if (number := status[:3]).isdecimal():
                request.status = int(number)
            return start_response(status, *rest)

        try:
            body = self._application(environ, note)
        except BaseException:
            request.end()
            raise
        if isinstance(body, list | tuple):  # all of it is there, and a server may ask how long it is
            request.end()
            return body
        return _Answer(body, request)


class _Answer:
    """The parts of an answer, which ends when the server closes it."""

    def __init__(self, body: Iterable[bytes], request: Request) -> None:
        self._body, self._request = body, request

    def __iter__(self) -> Iterator[bytes]:
        return iter(self._body)

    def close(self) -> None:
        try:
            if hasattr(self._body, "close"):
                self._body.close()
        finally:
            self._request.end()


class Asgi:
    """An ASGI application that is measured, and answers with a page at a path."""

    def __init__(
        self, application: AsgiApplication, measures: Measures, page: Page | None = None, at: str = "/metrics"
    ) -> None:
        self._application, self._measures, self._page, self._at = application, measures, page, at

    async def __call__(self, scope: Scope, receive: Receive, send: Send) -> None:
        if scope["type"] != "http":
            await self._application(scope, receive, send)
        elif self._page is not None and scope["path"] == self._at:
            accepted, packing = (_header(scope, name) for name in (b"accept", b"accept-encoding"))
            named, body = await asyncio.to_thread(_served, self._page, accepted, packing)
            headers = [(name.lower().encode(), value.encode()) for name, value in named]
            await send({"type": "http.response.start", "status": 200, "headers": headers})
            await send({"type": "http.response.body", "body": body})
        else:
            await self._measure(scope, receive, send)

    async def _measure(self, scope: Scope, receive: Receive, send: Send) -> None:
        request = self._measures.begin(scope["method"], scope["path"])

        async def note(message: Message) -> None:
            if message["type"] == "http.response.start":
                request.status = message["status"]
            await send(message)

        try:
            await self._application(scope, receive, note)
        finally:
            request.end()


def _header(scope: Scope, wanted: bytes) -> str:
    """What a request says in all its headers of a name."""
    return b",".join(value for name, value in scope.get("headers", ()) if name == wanted).decode("latin-1")


def _served(page: Page, accepted: str, packing: str) -> tuple[list[tuple[str, str]], bytes]:
    """The headers and the body of a page, for these headers `Accept` and `Accept-Encoding`."""
    dialect, body = page(accepted)
    headers = [("Content-Type", dialect.content_type), ("Vary", "Accept, Accept-Encoding")]
    if accepts_gzip(packing):
        body = gzip.compress(body, 6)
        headers.append(("Content-Encoding", "gzip"))
    return [*headers, ("Content-Length", str(len(body)))], body
