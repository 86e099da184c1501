"""Recordings of any thread."""

import asyncio
import logging
import sys
import threading
import unittest
from collections.abc import Callable
from typing import Any

from tests.plans import CATALOGUE, CONFIG, HOME, opened
from wormweekly import (
    AttributeRefusal,
    Batch,
    Buckets,
    BudgetRefusal,
    ClosedRefusal,
    Instrument,
    Last,
    Metrics,
    RangeRefusal,
    Refusal,
    Spare,
    StrangerRefusal,
    Sum,
    Total,
)

EXTRA = "[[meter.instrument]]\nname = 'orders'\nkind = 'counter'\nrange = [1, 100]\nspare = 5\n"
SPENT = CATALOGUE.replace("[[recorder]]", EXTRA + "[[recorder]]", 1)
SPENT = SPENT.replace("amount = 1 },\n]", "amount = 1 },\n    { instrument = 4, amount = 3 },\n]")


def repeat(count: int, instrument: Instrument) -> None:
    """Records so often."""
    for _ in range(count):
        instrument.record(1)


def sum_of(batch: Batch) -> int:
    """What the points of its first stream add up to."""
    return sum(point.value.value for point in batch.streams[0].points if isinstance(point.value, Sum))


def run_all(count: int, work: Callable[[], object]) -> None:
    """Runs it in so many threads at once."""
    threads = [threading.Thread(target=work) for _ in range(count)]
    for thread in threads:
        thread.start()
    for thread in threads:
        thread.join()


class Shared(unittest.TestCase):
    def setUp(self) -> None:
        logging.getLogger("wormweekly").setLevel(logging.CRITICAL)
        self.metrics = opened()
        self.reader = self.metrics.readers[0]
        self.requests = self.metrics.instrument("requests")

    def tearDown(self) -> None:
        logging.getLogger("wormweekly").setLevel(logging.NOTSET)

    def test_instruments_record(self) -> None:
        self.requests.add(2, HOME)
        self.requests.bind(HOME).add(3)
        self.metrics.instrument("duration").record(12, {"route": "/"})
        self.metrics.instrument("temperature").record(-7)
        counts = [Total(2, 5), Total(0, 0), Total(1, 12), Total(1, -7)]
        self.assertEqual(self.metrics.settle(), tuple(counts))
        last = self.reader.collect(self.metrics.instrument("temperature"))
        self.assertEqual(last.streams[0].points[0].value, Last(-7))

    def test_eight_threads_record_and_nothing_is_lost(self) -> None:
        bound = self.requests.bind(HOME)

        def work() -> None:
            for _ in range(5_000):
                bound.add(1)
                self.requests.add(2, HOME)

        run_all(8, work)
        self.assertEqual(self.metrics.settle()[0], Total(80_000, 120_000))
        self.assertEqual(self.requests.refused, {})
        # Of the first recorder all that it has, of the second the rest.
        self.assertEqual(self.metrics.recorder("first").budget(self.requests).left, 0)

    def test_a_spent_recorder_hands_on_and_then_the_spare_is_asked(self) -> None:
        metrics = Metrics.open(SPENT, CONFIG, start=0)
        orders = metrics.instrument("orders")
        for made in range(1, 12):
            orders.add(1)
            self.assertEqual(metrics.settle()[4].count, made)
            self.assertEqual(orders.spare().granted, max(0, made - 6))
        self.assertEqual(orders.spare(), Spare(5, 5, 0))
        for _ in range(3):
            orders.add(1)
        self.assertEqual(metrics.settle()[4], Total(11, 11))
        self.assertEqual(orders.refused, {"Budget": 3})
        metrics.roll_over(1)
        orders.add(1)
        self.assertEqual(metrics.settle()[4], Total(1, 1))

    def test_what_threads_race_for_is_made_or_refused(self) -> None:
        for _ in range(20):
            metrics = Metrics.open(SPENT, CONFIG, start=0)
            orders = metrics.instrument("orders")
            run_all(8, lambda: repeat(2, orders))
            self.assertEqual(metrics.settle()[4].count, 11)
            self.assertEqual(orders.refused, {"Budget": 5})

    def test_what_is_granted_by_hand_is_found(self) -> None:
        metrics = Metrics.open(SPENT, CONFIG, start=0)
        orders = metrics.instrument("orders")
        orders.grant(metrics.recorders[1], 5)
        for _ in range(12):
            orders.add(1)
        self.assertEqual((metrics.settle()[4].count, orders.refused), (11, {"Budget": 1}))

    def test_each_reason_is_counted_and_logged_once(self) -> None:
        logging.getLogger("wormweekly").setLevel(logging.WARNING)
        wrong: list[Any] = [{"route": "/x", "status": 200}, {"route": "/", "status": "200"}, None, [], {"route": 1.5}]
        with self.assertLogs("wormweekly", "WARNING") as logs:
            for attributes in wrong * 2:
                self.requests.add(1, attributes)
            for value in (0, 101, 1 << 70, "1"):
                self.requests.add(value, HOME)  # type: ignore[arg-type]
            self.requests.bind(HOME).add(101)
        self.assertEqual(self.requests.refused, {"UnknownValue": 4, "WrongType": 7, "ValueRange": 4})
        self.assertEqual(
            [record.getMessage() for record in logs.records],
            [
                "instrument 'requests' does not record (UnknownValue, told once): "
                'requests: key "route" has no value "/x"',
                "instrument 'requests' does not record (WrongType, told once): it takes a mapping of attributes, not NoneType",
                "instrument 'requests' does not record (ValueRange, told once): "
                "requests: value 0 is not in the range from 1 to 100",
            ],
        )
        self.assertEqual(self.metrics.settle()[0].count, 0)

    def test_a_strict_run_raises(self) -> None:
        metrics = Metrics.open(CATALOGUE, CONFIG, start=0, strict=True)
        requests = metrics.instrument("requests")
        cases: list[tuple[type[Refusal], Callable[[], object]]] = [
            (AttributeRefusal, lambda: requests.add(1, {"route": "/x", "status": 200})),
            (RangeRefusal, lambda: requests.bind(HOME).add(0)),
            (AttributeRefusal, lambda: requests.time({"route": "/"})),
            (BudgetRefusal, lambda: repeat(5, metrics.instrument("temperature"))),
        ]
        for family, call in cases:
            self.assertRaises(family, call)
        self.assertEqual(requests.refused, {"UnknownValue": 1, "ValueRange": 1, "MissingKey": 1})
        duration = metrics.instrument("duration")
        with self.assertRaises(ZeroDivisionError), duration.time({"route": "/"}):
            duration.close()
            raise ZeroDivisionError
        with self.assertRaises(ClosedRefusal), metrics.instrument("in_flight").in_flight():
            metrics.instrument("in_flight").close()

    def test_calls_that_are_none_are_raised_in_any_run(self) -> None:
        calls: list[Any] = [self.requests.add, lambda: self.requests.add(1, HOME, 2)]  # type: ignore[call-arg]
        for call in calls:
            self.assertRaises(TypeError, call)
        self.assertRaises(ZeroDivisionError, self.requests.add, 1, Failing())

    def test_blocks(self) -> None:
        duration, in_flight = self.metrics.instrument("duration"), self.metrics.instrument("in_flight")
        with duration.time({"route": "/"}), in_flight.in_flight() as block:
            self.assertTrue(block.is_counted)
            self.assertEqual(self.reader.collect(in_flight).streams[0].points[0].value, Sum(1))
        with duration.time({"route": "/"}, unit=1):
            threading.Event().wait(0.001)
        self.assertEqual(self.reader.collect(in_flight).streams[0].points[0].value, Sum(0))
        value = self.reader.collect(duration).streams[0].points[0].value
        assert isinstance(value, Buckets)
        self.assertEqual((value.count, value.greatest, duration.clamped), (2, 60_000, 1))
        with duration.time({"route": "/x"}):
            pass
        self.assertEqual((duration.refused, self.metrics.settle()[2].count), ({"UnknownValue": 1}, 2))

    def test_a_block_is_entered_again(self) -> None:
        in_flight = self.metrics.instrument("in_flight")
        block, timer = in_flight.in_flight(), self.metrics.instrument("duration").time({"route": "/"})

        def work() -> None:
            for _ in range(5):
                with block, timer, timer:
                    pass

        with block:
            run_all(8, work)
        totals = self.metrics.settle()
        self.assertEqual((totals[1], totals[2].count, block.is_counted), (Total(82, 0), 80, False))

    def test_what_is_counted_in_is_counted_out(self) -> None:
        in_flight = self.metrics.instrument("in_flight")
        blocks = [in_flight.in_flight() for _ in range(110)]
        for block in blocks:
            block.__enter__()
        self.assertEqual(sum(block.is_counted for block in blocks), 100)
        for block in blocks:
            block.__exit__(None, None, None)
        self.assertEqual(self.metrics.settle()[1], Total(200, 0))
        self.assertEqual(in_flight.refused, {"Budget": 10})

    def test_a_block_that_goes_over_is_counted_out_in_no_run(self) -> None:
        in_flight = self.metrics.instrument("in_flight")
        with in_flight.in_flight():
            self.assertEqual(self.metrics.roll_over(1).totals[1], Total(1, 1))
        self.assertEqual(self.metrics.settle()[1], Total(0, 0))

    def test_runs_go_over_under_traffic(self) -> None:
        bound, is_over, made = self.requests.bind(HOME), threading.Event(), []

        def work() -> None:
            own = 0
            while not is_over.is_set():
                bound.add(1)
                own += 1
            made.append(own)

        threads = [threading.Thread(target=work) for _ in range(4)]
        for thread in threads:
            thread.start()
        settled = sum(self.metrics.roll_over(start).totals[0].count for start in range(1, 30))
        is_over.set()
        for thread in threads:
            thread.join()
        settled += self.metrics.settle()[0].count
        self.assertEqual(settled + self.requests.refused.get("Budget", 0), sum(made))

    def test_an_undeclared_value_is_another(self) -> None:
        known_or = self.requests.known_or
        self.assertEqual([known_or("route", path, "/cart") for path in ("/", "/cart", "/none")], ["/", "/cart", "/cart"])
        self.assertEqual([known_or("status", status, 404) for status in (200, 500, True)], [200, 404, 404])
        self.assertEqual(self.requests.replaced, 3)
        # what else is wrong is told by the recording
        self.assertEqual((known_or("town", "x", "y"), known_or("route", 1.5, "/")), ("x", 1.5))  # type: ignore[arg-type]
        self.assertEqual((known_or(7, "x", "y"), self.requests.replaced), ("x", 3))  # type: ignore[arg-type]
        self.assertEqual([self.requests.declares(key) for key in ("route", "cached", "town", "")], [True, True, False, False])
        with self.assertRaises(TypeError):
            known_or("route", "x")  # type: ignore[call-arg]
        with self.assertRaises(TypeError):
            known_or([], "x", "y")  # type: ignore[arg-type]
        self.metrics.instrument("duration").record_clamped(70_000, {"route": "/"})
        self.metrics.instrument("duration").record_clamped(5, {"route": "/none"})
        self.assertEqual(self.metrics.settle()[2], Total(1, 60_000))
        self.assertEqual(self.metrics.instrument("duration").clamped, 1)

    def test_a_with_closes_all(self) -> None:
        with self.metrics as metrics:
            metrics.instruments[1].close()
        self.requests.add(1, HOME)
        self.assertEqual(self.requests.refused, {"Closed": 1})

    def test_each_recording_is_collected_once(self) -> None:
        # A service of four threads whose readers collect now and then, and after each end of a run.
        bound, seen, is_over = self.requests.bind(HOME), [0, 0], threading.Event()
        all_of, new = self.metrics.readers

        def collect(metrics: Metrics, is_ended: bool) -> None:
            seen[1] += sum_of(metrics.readers[new.number].collect(metrics.instruments[0]))
            if is_ended:
                seen[0] += sum_of(metrics.readers[all_of.number].collect(metrics.instruments[0]))

        def work() -> None:
            made = 0
            while made < 30_000 or not is_over.is_set():
                bound.add(1)
                made += 1
            all_made.append(made)

        all_made: list[int] = []
        interval = sys.getswitchinterval()
        sys.setswitchinterval(1e-5)
        threads = [threading.Thread(target=work) for _ in range(4)]
        for thread in threads:
            thread.start()
        for _ in range(20):
            collect(self.metrics, False)
            collect(self.metrics.roll_over(), True)
        is_over.set()
        for thread in threads:
            thread.join()
        sys.setswitchinterval(interval)
        collect(self.metrics.roll_over(), True)
        refused = self.requests.refused.get("Budget", 0)
        self.assertEqual(seen, [sum(all_made) - refused] * 2)

    def test_a_run_that_has_ended(self) -> None:
        self.requests.add(3, HOME)
        self.assertEqual(self.metrics.part_left(), 200_004 / 200_005)
        ended = self.metrics.roll_over(5)
        self.assertEqual((ended.totals[0], ended.settle()), (Total(1, 3), ended.totals))
        self.assertEqual(sum_of(ended.readers[0].collect(ended.instruments[0])), 3)
        self.assertIn(b"requests_total{", ended.page(ended.readers[0]))
        ended.instruments[0].add(1, HOME)
        self.assertEqual(ended.instruments[0].refused, {"Closed": 1})
        self.assertEqual((self.metrics.settle()[0], self.metrics.part_left()), (Total(0, 0), 1.0))
        with self.assertRaises(StrangerRefusal):
            self.metrics.readers[0].collect(ended.instruments[0])


CROWD = """format = 1
[[meter]]
name = 'crowd'
[[meter.instrument]]
name = 'requests'
kind = 'counter'
range = [1, 9]
key = [{ name = 'route', values = ['/', '/cart'] }]
[[meter.instrument]]
name = 'in_flight'
kind = 'up_down_counter'
range = [-1, 1]
""" + "".join(
    f"[[recorder]]\nname = '{number}'\nbudget = [{{ instrument = 0, amount = 6000 }}, {{ instrument = 1, amount = 20000 }}]\n"
    for number in range(8)
)


class Crowd(unittest.TestCase):
    def test_ten_thousand_tasks_record_over_eight_recorders(self) -> None:
        metrics = Metrics.open(CROWD, CONFIG.partition("[[reader]]\nname = 'new'")[0])
        requests, in_flight = metrics.instruments
        cart = requests.bind({"route": "/cart"})

        async def task() -> None:
            with in_flight.in_flight():
                requests.add(2, {"route": "/"})
                cart.add(3)
                await asyncio.sleep(0)

        async def work() -> None:
            await asyncio.gather(*(task() for _ in range(5_000)))

        run_all(2, lambda: asyncio.run(work()))
        self.assertEqual(metrics.settle(), (Total(20_000, 50_000), Total(20_000, 0)))
        self.assertEqual((requests.refused, in_flight.refused), ({}, {}))


class Failing:
    def keys(self) -> list[str]:
        raise ZeroDivisionError
