"""Threads."""

import asyncio
import sys
import threading
import unittest
from collections.abc import Callable
from concurrent.futures import ThreadPoolExecutor
from typing import TypeVar

from tests.plans import HOME, opened
from wormweekly import Bound, Pool, StrangerRefusal, Sum, ThreadRefusal

T = TypeVar("T")


def elsewhere(call: Callable[[], T]) -> T:
    """What a call answers, or raises, in another thread."""
    with ThreadPoolExecutor(1) as other:
        return other.submit(call).result()


class Threads(unittest.TestCase):
    def setUp(self) -> None:
        self.metrics = opened()
        self.requests = self.metrics.instrument("requests")
        self.first, self.second = self.metrics.recorders

    def test_a_recorder_is_one_threads(self) -> None:
        home = self.requests.bind(HOME)
        self.first.add(home, 1)
        calls: list[Callable[[], object]] = [
            lambda: self.first.add(home, 1),
            lambda: self.first.record(self.requests, HOME, 1),
            lambda: self.first.add_all([(home, 1)]),
        ]
        for call in calls:
            with self.assertRaises(ThreadRefusal) as caught:
                elsewhere(call)
            self.assertEqual(caught.exception.name, "OtherThread")
        self.assertEqual(self.metrics.settle()[0].count, 1)

    def test_a_recorder_is_taken_over(self) -> None:
        def take() -> None:
            self.first.take_over()
            self.first.record(self.requests, HOME, 1)

        self.first.record(self.requests, HOME, 1)
        elsewhere(take)
        with self.assertRaises(ThreadRefusal):
            self.first.record(self.requests, HOME, 1)
        self.first.take_over()
        self.first.record(self.requests, HOME, 1)
        self.assertEqual(self.metrics.settle()[0].count, 3)

    def test_a_pool_lends(self) -> None:
        pool = Pool(self.metrics.recorders, timeout=0.01)

        def work() -> None:
            with pool.lend() as recorder:
                recorder.record(self.requests, HOME, 1)

        def lend_another() -> None:
            with pool.lend(), self.assertRaises(TimeoutError):
                elsewhere(work)

        work()
        elsewhere(work)
        with pool.lend():
            elsewhere(lend_another)
            work()
        elsewhere(lambda: elsewhere(work))
        self.assertEqual(self.metrics.settle()[0].count, 4)

    def test_a_thread_is_lent_what_it_has(self) -> None:
        pool = Pool([self.second])

        async def work() -> None:
            with pool.lend() as first:
                await asyncio.sleep(0)
                with pool.lend() as second:
                    self.assertIs(first, second)
                    second.record(self.requests, HOME, 1)

        async def work_all() -> None:
            await asyncio.gather(*(work() for _ in range(100)))

        asyncio.run(work_all())
        with pool.lend(), self.assertRaises(ZeroDivisionError), pool.lend():
            _ = 1 // 0
        elsewhere(lambda: asyncio.run(work_all()))
        self.assertEqual(self.metrics.settle()[0].count, 200)

    def test_a_pool_lends_in_turn(self) -> None:
        pool, lent = Pool(self.metrics.recorders), []
        for _ in range(4):
            with pool.lend() as recorder:
                lent.append(recorder.number)
        self.assertEqual(lent, [0, 1, 0, 1])

    def test_all_at_once(self) -> None:
        home = self.requests.bind(HOME)
        made = 2000
        sums: list[int] = []

        def work() -> None:
            for _ in range(made):
                self.second.add(home, 1)

        def collect() -> None:
            for now in range(1, 200):
                points = self.metrics.reader("new").collect(self.requests, now).streams[0].points
                sums.extend(point.value.value for point in points if isinstance(point.value, Sum))
                self.requests.bind(HOME)

        def settle() -> None:
            for _ in range(100):
                self.metrics.settle()

        threads = [threading.Thread(target=call) for call in (work, collect, collect, settle)]
        for thread in threads:
            thread.start()
        for thread in threads:
            thread.join()
        collect()
        self.assertEqual(sum(sums), made)
        self.assertEqual(self.metrics.settle()[0].sum, made)

    def test_no_recording_is_lost_in_a_roll_over(self) -> None:
        home = self.requests.bind(HOME)
        made = 20_000
        totals: list[int] = []

        def work() -> None:
            for _ in range(made):
                self.second.add(home, 1)

        worker = threading.Thread(target=work)
        worker.start()
        while worker.is_alive():
            totals.append(self.metrics.roll_over().totals[0].count)
        worker.join()
        self.assertEqual(sum(totals) + self.metrics.settle()[0].count, made)

    def test_a_list_that_another_thread_empties(self) -> None:
        # The only bound set of another run goes while this thread waits for its recorder.
        items: list[tuple[Bound, int]] = []
        refused = 0
        ended = threading.Event()

        def settle() -> None:
            while not ended.is_set():
                self.metrics.settle()

        def empty() -> None:
            while not ended.is_set():
                items.clear()

        others = [threading.Thread(target=work) for work in (settle, settle, empty)]
        interval = sys.getswitchinterval()
        sys.setswitchinterval(1e-6)
        for other in others:
            other.start()
        for _ in range(200):
            items.append((opened().instrument("requests").bind(HOME), 1))
            try:
                self.first.add_all(items)
            except StrangerRefusal:
                refused += 1
        ended.set()
        for other in others:
            other.join()
        sys.setswitchinterval(interval)
        self.assertEqual(self.metrics.settle()[0].count, 0)
        self.assertTrue(refused <= 200)
