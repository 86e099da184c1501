"""One page for Prometheus of several processes, which keep their own pages in a folder.

    pages = PageFolder("/run/shop-metrics", metrics, metrics.reader("prometheus"), {"service.name": "shop"})
    pages.page()  # of all processes

Each process writes its page each second, and before it gives one of all. Counters and histograms are added up, exactly;
a gauge, and what goes up and down, stands for each process that lives, with its label `pid`. What a process counted
stays after its end: who asks next adds that to `ended.page`. Of a process that was killed, what it recorded after its
last page is lost. Empty the folder when the service starts, or it goes on counting.
"""

from __future__ import annotations

import atexit
import fcntl
import logging
import os
import re
import secrets
import threading
from collections.abc import Iterator
from contextlib import contextmanager
from pathlib import Path
from typing import IO

from wormweekly import Attributes, Dialect, Ended, Metrics, Reader, ThreadRefusal
from wormweekly._metrics import at_fork
from wormweekly.exporters.pages import Gauge, Page, Pages, no_gauge

__all__ = ["PageFault", "PageFolder"]

_LOGGER = logging.getLogger("wormweekly")
_LABEL = re.compile(r'([A-Za-z0-9_]+)="(?:[^"\\]|\\.)*"')


class PageFault(ValueError):
    """A page cannot be added to others."""


class PageFolder:
    """The page of this process in a folder, and that of all of them."""

    _name: str
    _turn: threading.Lock  # held while it writes
    _ended: threading.Event
    _stopped: threading.Event  # ends the thread that writes
    _thread: threading.Thread
    _lives: IO[str]  # locked until this process ends, however it does

    def __init__(
        self,
        folder: str | os.PathLike[str],
        metrics: Metrics,
        reader: Reader,
        resource: Attributes | None = None,
        *,
        interval: float = 1.0,
        roll_over_below: float | None = None,
    ) -> None:
        """Begins, in each child of a fork anew where the metrics do. It rolls over as a `Page` does, and raises what
        that raises."""
        self._metrics = metrics
        self._page = Page(metrics, reader, resource, roll_over_below=roll_over_below)
        self._folder = Path(folder)
        self._folder.mkdir(parents=True, exist_ok=True)
        self._interval = interval
        self._begin()
        atexit.register(self.close)
        at_fork(
            self,
            before=PageFolder._rest,
            after_in_parent=PageFolder._go_on,
            after_in_child=PageFolder._begin_in_child,
        )

    def page(self) -> bytes:
        """A page of all processes, in the text format 0.0.4."""
        self.write()
        with _locked(self._folder / "folder.lock"):
            made = Pages()
            made.add(self._with_ended(), no_gauge)
            for path in sorted(self._folder.glob("*-*.page")):
                made.add(_read(path), _of_process(path))
        return made.text().encode()

    def answer(self, accept: str) -> tuple[Dialect, bytes]:
        """The same for `wormweekly.web`, whatever a request accepts."""
        return Dialect.TEXT, self.page()

    def take(self, ended: Ended) -> None:
        """Adds a run that ended to this process's page."""
        self._page.take(ended)

    def write(self) -> None:
        """Writes the page of this process."""
        with self._turn:
            if not self._ended.is_set():
                self._write()

    def close(self) -> None:
        """Writes the page a last time. It stays, as that of a process that ended."""
        with self._turn:
            if not self._ended.is_set():
                self._write()
                self._ended.set()
                self._stopped.set()
                self._lives.close()

    def _begin(self) -> None:
        self._name = f"{os.getpid()}-{secrets.token_hex(4)}"
        self._turn = threading.Lock()
        self._ended = threading.Event()
        self._lives = self._path(".lock").open("w")
        fcntl.flock(self._lives, fcntl.LOCK_EX)
        self.write()
        self._go_on()

    def _begin_in_child(self) -> None:
        self._lives.close()  # here alone
        self._turn = threading.Lock()
        self._ended = threading.Event()
        self._ended.set()
        try:
            self._metrics.part_left()
        except ThreadRefusal:  # the metrics do not go on here
            return
        self._begin()

    def _write(self) -> None:
        _replace(self._path(".page"), self._page.text())

    def _go_on(self) -> None:
        if not self._ended.is_set():
            self._stopped = threading.Event()
            self._thread = threading.Thread(target=self._run, name="wormweekly pages", daemon=True)
            self._thread.start()

    def _rest(self) -> None:
        """Ends the thread before a fork: what it holds then would be held in the child for ever."""
        self._stopped.set()
        self._thread.join()

    def _run(self) -> None:
        while not self._stopped.wait(self._interval):
            try:
                self.write()
            except Exception:  # the thread is needed again, as when there is room
                _LOGGER.exception("%s is not written", self._path(".page"))

    def _path(self, suffix: str) -> Path:
        return self._folder / f"{self._name}{suffix}"

    def _with_ended(self) -> str:
        """Adds the pages of processes that ended to that of the earlier ones. Its first line has the names of those
        that were added last: where their files are still there, whoever added them ended before it removed these."""
        path = self._folder / "ended.page"
        head, _, before = _read(path).partition("\n") if path.exists() else ("", "", "")
        for name in head.split()[1:]:
            self._remove(name)
        ended = [one for one in sorted(self._folder.glob("*-*.page")) if not _is_alive(one)]
        if not ended:
            return before
        made = Pages()
        made.add(before, no_gauge)
        for one in ended:
            made.add(_read(one), no_gauge)
        _replace(path, "\n".join([" ".join(["#", *(one.stem for one in ended)]), made.text()]))
        for one in ended:
            self._remove(one.stem)
        return made.text()

    def _remove(self, name: str) -> None:
        for suffix in (".page", ".lock"):
            (self._folder / f"{name}{suffix}").unlink(missing_ok=True)


def _of_process(path: Path) -> Gauge:
    """Gives the series of a gauge the process's label."""
    label = f'pid="{path.stem.partition("-")[0]}"'

    def named(series: str) -> str:
        name, brace, labels = series.partition("{")
        if "pid" in _LABEL.findall(labels):
            raise PageFault(f"{path}: a gauge has a label pid of its own: {series}")
        return f"{name}{{{labels[:-1]},{label}}}" if brace else f"{name}{{{label}}}"

    return named


def _is_alive(page: Path) -> bool:
    """Whether the process of a page holds its lock."""
    try:
        with page.with_suffix(".lock").open() as lock:
            fcntl.flock(lock, fcntl.LOCK_EX | fcntl.LOCK_NB)
    except BlockingIOError:
        return True
    except FileNotFoundError:
        return False
    return False


def _read(path: Path) -> str:
    """A file as it is: a label may have other ends of lines."""
    return path.read_bytes().decode()


def _replace(path: Path, text: str) -> None:
    """Writes a file so that readers find all of the old one or all of the new one."""
    new = path.with_suffix(".new")
    new.write_bytes(text.encode())
    new.replace(path)


@contextmanager
def _locked(path: Path) -> Iterator[None]:
    with path.open("w") as lock:
        fcntl.flock(lock, fcntl.LOCK_EX)
        yield
