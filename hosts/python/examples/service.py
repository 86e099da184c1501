"""A whole service: four workers, seven instruments, two readers, a roll-over in the middle, and an end at which each
total is what the workers counted themselves.

    python service.py CATALOGUE CONFIG
"""

from __future__ import annotations

import sys
import threading
from collections import Counter
from pathlib import Path

from wormweekly import Buckets, Metrics, Reader, Recorder, Refusal, Sum, Total

REQUESTS = 1000
ROUTES = ("/", "/cart", "/pay")


class Worker(threading.Thread):
    """Serves requests, and counts by itself what was recorded, so that the totals can be compared."""

    def __init__(self, metrics: Metrics, recorder: Recorder) -> None:
        super().__init__(name=recorder.name)
        self.metrics = metrics
        self.recorder = recorder
        self.counts: Counter[str] = Counter()
        self.sums: Counter[str] = Counter()
        self.refused: Counter[str] = Counter()

    def run(self) -> None:
        self.recorder.take_over()
        for number in range(REQUESTS):
            self.serve(number)

    def serve(self, number: int) -> None:
        route = ROUTES[number % 3]
        status = 500 if route == "/pay" and number % 5 == 0 else 200
        duration = number * 7 % 900
        self.record("http.requests", {"route": route, "status": status}, 1)
        self.record("http.errors", {}, int(status == 500))
        self.record("http.request.duration", {"route": route}, duration)
        self.record("http.response.size", {"route": route, "status": status}, 200 + number)
        self.record("worker.latest.duration", {"worker": self.recorder.number}, duration)
        self.record("items.sold", {"route": route}, number % 2)
        self.record("items.in_stock", {}, -1 if number % 2 else 1)

    def record(self, name: str, attributes: dict[str, str | int], value: int) -> None:
        try:
            self.recorder.record(self.metrics.instrument(name), attributes, value)
        except Refusal as refusal:
            self.refused[refusal.name] += 1
        else:
            self.counts[name] += 1
            self.sums[name] += value


class Collector(threading.Thread):
    """Collects all instruments again and again, and adds up what a delta reader saw of the requests."""

    def __init__(self, metrics: Metrics, reader: Reader) -> None:
        super().__init__(name=reader.name)
        self.metrics = metrics
        self.reader = reader
        self.stopped = threading.Event()
        self.requests = 0

    def run(self) -> None:
        while not self.stopped.wait(0.005):
            self.collect()

    def collect(self) -> None:
        for instrument in self.metrics.instruments:
            for stream in self.reader.collect(instrument).streams:
                for point in stream.points if stream.name == "http.requests" else ():
                    assert isinstance(point.value, Sum)
                    self.requests += point.value.value if stream.is_delta else 0

    def end(self) -> None:
        self.stopped.set()
        self.join()
        self.collect()


def serve(metrics: Metrics) -> list[Worker]:
    workers = [Worker(metrics, recorder) for recorder in metrics.recorders]
    for worker in workers:
        worker.start()
    for worker in workers:
        worker.join()
    return workers


def compare(metrics: Metrics, workers: list[Worker], totals: tuple[Total, ...]) -> None:
    for instrument, total in zip(metrics.instruments, totals):
        name = instrument.name
        own = Total(sum(worker.counts[name] for worker in workers), sum(worker.sums[name] for worker in workers))
        if own != total:
            raise SystemExit(f"{name}: {total}, and the workers counted {own}")
        print(f"{name}: {total.sum} in {total.count} recordings")
    refused = sum((worker.refused for worker in workers), Counter[str]())
    print(f"refused: {dict(refused)}")


def main(catalogue: str, config: str) -> None:
    metrics = Metrics.open(Path(catalogue).read_text(), Path(config).read_text())
    collectors = [Collector(metrics, reader) for reader in metrics.readers]
    for collector in collectors:
        collector.start()

    # The first run. What is collected between its end and the roll-over is what a delta reader has not seen of it.
    workers = serve(metrics)
    for collector in collectors:
        collector.end()
    durations = metrics.reader("all").collect(metrics.instrument("http.request.duration"))
    compare(metrics, workers, metrics.roll_over().totals)
    value = durations.streams[0].points[0].value
    assert isinstance(value, Buckets)
    print(f"{durations.streams[0].name}: {value.count} in {value.counts}")

    # The second run, in the same seats, with fresh budgets. Its end is the shutdown.
    workers = serve(metrics)
    for instrument in metrics.instruments:
        instrument.close()
    for collector in collectors:
        collector.collect()
    compare(metrics, workers, metrics.settle())
    print(f"requests that the delta reader saw: {sum(collector.requests for collector in collectors)}")


if __name__ == "__main__":
    main(*sys.argv[1:])
