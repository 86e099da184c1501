"""64 threads record at once over eight recorders, and then ten thousand tasks of asyncio.

It fails where a total is another. How long recordings took stands beside what does nothing and what a lock takes: a wait
of a thread or a task for a recorder would show there, and so does all other work of the machine.
"""

import asyncio
import gc
import sys
import threading
from collections import Counter
from collections.abc import Callable
from time import perf_counter_ns

from wormweekly import Metrics

TASKS, THREADS, RECORDERS = 10_000, 64, 8
EACH = 20  # recordings of a task, half of them with attributes at the call
RECORDINGS = TASKS * EACH
LONG = 1_000_000  # nanoseconds

CATALOGUE = """format = 1
[[meter]]
name = 'crowd'
[[meter.instrument]]
name = 'took'
kind = 'histogram'
range = [0, 100]
boundaries = [10]
key = [{ name = 'route', values = ['/', '/cart'] }]
""" + "".join(
    f"[[recorder]]\nname = '{number}'\nbudget = [{{ instrument = 0, amount = {RECORDINGS} }}]\n"
    for number in range(RECORDERS)
)

Work = Callable[[int], None]


def timed(work: Work, at: int, waits: list[int]) -> None:
    began = perf_counter_ns()
    work(at)
    waits.append(perf_counter_ns() - began)


def by_tasks(work: Work) -> list[int]:
    waits: list[int] = []

    async def task() -> None:
        for at in range(EACH):
            timed(work, at, waits)
            await asyncio.sleep(0)

    async def all_tasks() -> None:
        await asyncio.gather(*(task() for _ in range(TASKS)))

    asyncio.run(all_tasks())
    return waits


def by_threads(work: Work) -> list[int]:
    waits: list[list[int]] = [[] for _ in range(THREADS)]

    def thread(own: list[int]) -> None:
        for at in range(RECORDINGS // THREADS):
            timed(work, at, own)

    threads = [threading.Thread(target=thread, args=(own,)) for own in waits]
    for one in threads:
        one.start()
    for one in threads:
        one.join()
    return sum(waits, [])


def recorded(run: Callable[[Work], list[int]]) -> list[int]:
    """How long recordings took."""
    metrics = Metrics.open(CATALOGUE, "format = 1\n[[reader]]\nname = 'all'\n")
    took = metrics.instruments[0]
    bound = took.bind({"route": "/"})

    def work(at: int) -> None:
        if at % 2:
            bound.record(1)
        else:
            took.record(1, {"route": "/"})

    waits = run(work)
    if metrics.settle()[0].count != len(waits):
        sys.exit(f"{metrics.settle()[0]}, and not {len(waits)}")
    return waits


def locked(run: Callable[[Work], list[int]]) -> list[int]:
    """How long it takes to count in a dictionary, behind a lock."""
    lock, counts = threading.Lock(), Counter[str]()

    def work(_: int) -> None:
        with lock:
            counts["/"] += 1

    return run(work)


def told(waits: list[int]) -> str:
    return f"above 1 ms: {sum(one > LONG for one in waits)}, the longest {max(waits) / 1e6:.3f} ms"


def main() -> None:
    gc.disable()  # which takes longer than a millisecond where there are so many tasks
    for run, crowd in (by_threads, f"{THREADS} threads"), (by_tasks, f"{TASKS} tasks"):
        print(f"{RECORDINGS} recordings of {crowd} over {RECORDERS} recorders: {told(recorded(run))}")
        print(f"    nothing: {told(run(lambda _: None))}")
        print(f"    a lock around a dictionary: {told(locked(run))}")


if __name__ == "__main__":
    main()
