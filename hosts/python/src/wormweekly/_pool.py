"""Recorders for threads that come and go."""

from __future__ import annotations

from collections.abc import Iterable, Iterator
from contextlib import contextmanager
from queue import Empty, Queue
from threading import local

from wormweekly._metrics import Recorder


class _Lent:
    """What was lent to a thread, and for how many blocks."""

    def __init__(self) -> None:
        self.recorders: list[Recorder] = []
        self.blocks = 0


class _Own(local):
    def __init__(self) -> None:
        self.lent = _Lent()


class Pool:
    """Lends recorders to threads in turn, so that all budgets are spent alike. Who finds none waits, so long as is
    said. A thread that has one is lent the same again, in a block in a block and in another task, and so does not wait
    for itself."""

    def __init__(self, recorders: Iterable[Recorder], timeout: float | None = None) -> None:
        self._free: Queue[Recorder] = Queue()
        self._timeout = timeout
        self._own = _Own()
        for recorder in recorders:
            self._free.put(recorder)

    @contextmanager
    def lend(self) -> Iterator[Recorder]:
        """A recorder for a `with` block. Raises a `TimeoutError` where none came back in time."""
        lent = self._own.lent
        if lent.blocks == 0:
            lent.recorders.append(self._taken())
        lent.blocks += 1
        try:
            yield lent.recorders[0]
        finally:
            lent.blocks -= 1
            if lent.blocks == 0:
                self._free.put(lent.recorders.pop())

    def _taken(self) -> Recorder:
        try:
            recorder = self._free.get(timeout=self._timeout)
        except Empty:
            raise TimeoutError("no recorder came back in time") from None
        try:
            recorder.take_over()
        except BaseException:
            self._free.put(recorder)
            raise
        return recorder
