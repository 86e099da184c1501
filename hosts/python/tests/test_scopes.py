"""Blocks that are timed, or counted in and out."""

import logging
import time
import unittest
from concurrent.futures import ThreadPoolExecutor
from threading import Barrier
from typing import Any

from tests.plans import HOME, opened
from wormweekly import Buckets, Sum, Total


class Scopes(unittest.TestCase):
    def setUp(self) -> None:
        logging.getLogger("wormweekly").setLevel(logging.CRITICAL)
        self.metrics = opened()
        self.reader = self.metrics.readers[0]
        self.duration = self.metrics.instrument("duration")
        self.in_flight = self.metrics.instrument("in_flight")

    def tearDown(self) -> None:
        logging.getLogger("wormweekly").setLevel(logging.NOTSET)

    def under_way(self) -> object:
        """What is in flight."""
        return self.reader.collect(self.in_flight).streams[0].points[0].value

    def test_a_block_is_timed(self) -> None:
        with self.duration.time({"route": "/"}), self.duration.bind({"route": "/"}).time(unit=1_000):
            time.sleep(0.02)
        value = self.reader.collect(self.duration).streams[0].points[0].value
        assert isinstance(value, Buckets)
        self.assertEqual(value.count, 2)
        self.assertTrue(20 <= value.least < 60_000)
        self.assertTrue(20_000 <= value.greatest <= 60_000)

    def test_a_block_is_counted_in_and_out(self) -> None:
        bound = self.in_flight.bind({})
        with self.in_flight.in_flight(), bound.in_flight(), self.in_flight.in_flight({}) as block:
            self.assertTrue(block.is_counted)
            self.assertEqual(self.under_way(), Sum(3))
        self.assertEqual((self.under_way(), block.is_counted), (Sum(0), False))

    def test_a_value_above_the_range_is_its_greatest(self) -> None:
        for value in (5, 60_000, 60_001, 1 << 70):
            self.duration.record_clamped(value, {"route": "/"})
        self.assertEqual((self.metrics.settle()[2], self.duration.clamped), (Total(4, 180_005), 2))
        for value, attributes in ((-1, {"route": "/"}), (-1 << 70, {"route": "/"}), (1 << 70, {"route": "/x"})):
            self.duration.record_clamped(value, attributes)
        self.assertEqual(self.duration.refused, {"ValueRange": 2, "UnknownValue": 1})
        self.metrics.instrument("temperature").record_clamped(51)
        self.duration.close()
        self.duration.record_clamped(60_001, {"route": "/"})
        clamped = (self.metrics.settle()[3], self.metrics.instrument("temperature").clamped, self.duration.clamped)
        self.assertEqual(clamped, (Total(1, 50), 1, 2))

    def test_what_is_refused_before_a_block(self) -> None:
        wrong: list[Any] = [{"unit": 0}, {"unit": -5}, {"unit": 1.5}, {"attributes": {"route": "/x"}}, {"attributes": []}]
        for given in wrong:
            with self.duration.time(**({"attributes": {"route": "/"}} | given)):
                pass
        with self.duration.bind({"route": "/"}).time(0), self.in_flight.in_flight(HOME) as block:
            self.assertFalse(block.is_counted)
        self.assertEqual(self.duration.refused, {"WrongType": 5, "UnknownValue": 1})
        self.assertEqual(self.in_flight.refused, {"UnknownKey": 1})
        self.assertEqual(self.metrics.settle()[1:3], (Total(0, 0), Total(0, 0)))

    def test_a_block_that_was_not_entered(self) -> None:
        for block in (self.duration.time({"route": "/"}), self.in_flight.in_flight()):
            with self.assertRaises(RuntimeError):
                block.__exit__(None, None, None)

    def test_threads_leave_their_own_blocks_of_one_timer(self) -> None:
        # Whoever enters last leaves last, so that the last block to be entered is not the next one to be left.
        timer, both = self.duration.bind({"route": "/"}).time(), Barrier(2)

        def work(first: bool) -> None:
            if not first:
                both.wait()
            with timer:
                if first:
                    time.sleep(0.1)
                    both.wait()
                    time.sleep(0.1)
                else:
                    time.sleep(0.3)

        with ThreadPoolExecutor(2) as threads:
            list(threads.map(work, (True, False)))
        value = self.reader.collect(self.duration).streams[0].points[0].value
        assert isinstance(value, Buckets)
        self.assertTrue(200 <= value.least and 300 <= value.greatest, value)

    def test_another_thread_leaves_a_block(self) -> None:
        timer = self.duration.bind({"route": "/"}).time()
        timer.__enter__()
        with ThreadPoolExecutor(1) as other:
            other.submit(timer.__exit__, None, None, None).result()
        self.assertEqual(self.metrics.settle()[2].count, 1)

    def test_many_blocks_of_one_scope(self) -> None:
        block = self.in_flight.in_flight()
        for _ in range(90):
            block.__enter__()
        self.assertEqual(self.under_way(), Sum(90))
        for _ in range(90):
            block.__exit__(None, None, None)
        self.assertEqual(self.metrics.settle()[1], Total(180, 0))
