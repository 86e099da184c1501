"""Each misuse is told by name, and nothing of it is counted."""

import copy
import pickle
import unittest
from collections import ChainMap
from collections.abc import Callable
from typing import Any

import wormweekly
from tests.plans import CATALOGUE, CONFIG, HOME, opened
from wormweekly import (
    AttributeRefusal,
    Budget,
    BudgetRefusal,
    ClockRefusal,
    ClosedRefusal,
    Metrics,
    OpenFault,
    RangeRefusal,
    Refusal,
    ResourceRefusal,
    Spare,
    StrangerRefusal,
    Sum,
    TypeRefusal,
    UnknownName,
)

# Attributes and a value, and what recording them is refused for.
REFUSED: list[tuple[Any, Any, type[Refusal], str]] = [
    ({**HOME, "colour": "red"}, 1, AttributeRefusal, "UnknownKey"),
    ({"route": "/admin", "status": 200}, 1, AttributeRefusal, "UnknownValue"),
    ({"route": "/", "status": "200"}, 1, AttributeRefusal, "UnknownValue"),
    ({"route": "/", "status": True}, 1, AttributeRefusal, "UnknownValue"),
    ({"route": "/", "status": 1 << 64}, 1, AttributeRefusal, "UnknownValue"),
    ({**HOME, "cached": 1}, 1, AttributeRefusal, "UnknownValue"),
    ({"route": "/"}, 1, AttributeRefusal, "MissingKey"),
    ({}, 1, AttributeRefusal, "MissingKey"),
    ({"route": "\ud800", "status": 200}, 1, AttributeRefusal, "NoText"),
    ({f"key {number}": "" for number in range(100)}, 1, AttributeRefusal, "UnknownKey"),
    ({"x" * 100_000: ""}, 1, AttributeRefusal, "UnknownKey"),
    (HOME, 0, RangeRefusal, "ValueRange"),
    (HOME, 101, RangeRefusal, "ValueRange"),
    (HOME, 1 << 64, RangeRefusal, "ValueRange"),
    (HOME, -(1 << 64), RangeRefusal, "ValueRange"),
    (HOME, 1.0, TypeRefusal, "WrongType"),
    (HOME, None, TypeRefusal, "WrongType"),
    ({"route": "/", "status": 200.0}, 1, TypeRefusal, "WrongType"),
    ({1: "/", "status": 200}, 1, TypeRefusal, "WrongType"),
    ([("route", "/")], 1, TypeRefusal, "WrongType"),
    (None, 1, TypeRefusal, "WrongType"),
]

# What a refusal is about.
TOLD: list[tuple[Any, Any, str]] = [
    ({**HOME, "colour": "red"}, 1, 'requests: key "colour" is not declared'),
    ({"route": "/admin", "status": 200}, 1, 'requests: key "route" has no value "/admin"'),
    ({"route": "\x1b[2J", "status": 200}, 1, 'requests: key "route" has no value "\\u{1b}[2J"'),
    ({"route": "/"}, 1, 'requests: key "status" is missing'),
    (HOME, 0, "requests: value 0 is not in the range from 1 to 100"),
    ({f"key {number}": "" for number in range(100_000)}, 1, 'requests: key "key 0" is not declared'),
]

# Of format 3.
SHARED = """format = 3
[[key]]
id = 'country'
values = ['de', 'fr']
[[meter]]
name = 'shop'
[[meter.instrument]]
name = 'orders'
kind = 'counter'
range = [1, 9]
key = ['country']
[[recorder]]
name = 'till'
count = 2
budget = { orders = 5 }
"""

FAULTS: list[tuple[Any, Any, type[Refusal]]] = [
    ("format = 4\n", CONFIG, OpenFault),
    (CATALOGUE, "format = 9\n", OpenFault),
    ("", "", OpenFault),
    (CATALOGUE, CATALOGUE, OpenFault),
    (CATALOGUE, None, TypeRefusal),
    (b"format = 2\n", CONFIG, TypeRefusal),
    ("\ud800", CONFIG, AttributeRefusal),
]


class Nameless(type):
    """A type whose name is no text, or raises."""

    name: object

    def __new__(cls, name: object) -> "Nameless":
        made = super().__new__(cls, "Nameless", (), {})
        made.name = name
        return made

    def __init__(cls, name: object) -> None:
        pass

    @property
    def __name__(cls) -> object:  # type: ignore[override]
        if isinstance(cls.name, BaseException):
            raise cls.name
        return cls.name


class Refusals(unittest.TestCase):
    def setUp(self) -> None:
        self.metrics = opened()
        self.requests = self.metrics.instrument("requests")
        self.first, self.second = self.metrics.recorders

    def refused(self, family: type[Refusal], name: str, call: Any, *arguments: Any) -> Refusal:
        with self.assertRaises(Refusal) as caught:
            call(*arguments)
        self.assertIs(type(caught.exception), family)
        self.assertEqual(caught.exception.name, name)
        self.assertTrue(str(caught.exception))
        return caught.exception

    def test_recordings(self) -> None:
        for attributes, value, family, name in REFUSED:
            with self.subTest(attributes=str(attributes)[:50], value=value):
                self.refused(family, name, self.first.record, self.requests, attributes, value)
        self.assertEqual(self.metrics.settle()[0].count, 0)

    def test_bound_sets(self) -> None:
        for attributes, _, family, name in REFUSED:
            if family is AttributeRefusal:
                with self.subTest(attributes=str(attributes)[:50]):
                    self.refused(family, name, self.requests.bind, attributes)
        home = self.requests.bind(HOME)
        for _, value, family, name in REFUSED:
            if family is RangeRefusal:
                with self.subTest(value=value):
                    self.refused(family, name, self.first.add, home, value)
        self.assertEqual(self.metrics.settle()[0].count, 0)

    def test_arguments(self) -> None:
        home = self.requests.bind(HOME)
        reader = self.metrics.readers[0]
        calls: list[tuple[Any, ...]] = [
            (self.first.record, "requests", HOME, 1),
            (self.first.record, self.requests, HOME),
            (self.first.record, self.first, HOME, 1),
            (self.first.add, self.requests, 1),
            (self.first.add, home),
            (self.first.add, home, "1"),
            (self.first.add_all, home),
            (self.first.add_all, [home]),
            (self.first.add_all, [(home, 1, 1)]),
            (self.first.add_all, [(home, 1.5)]),
            (self.requests.grant, 0, 1),
            (self.requests.bind, "route"),
            (reader.collect, self.first),
            (reader.text, None),
            (reader.collect, self.requests, 1.5),
        ]
        for call, *arguments in calls:
            with self.subTest(call=call.__name__, arguments=str(arguments)):
                self.refused(TypeRefusal, "WrongType", call, *arguments)
        self.assertEqual(self.metrics.settle()[0].count, 0)

    def test_types_without_a_name(self) -> None:
        for name in (12345, KeyError("no name")):
            with self.subTest(name=name):
                self.refused(TypeRefusal, "WrongType", self.first.record, self.requests, HOME, Nameless(name)())
        interrupting: Any = Nameless(KeyboardInterrupt())()
        with self.assertRaises(KeyboardInterrupt):
            self.first.record(self.requests, HOME, interrupting)
        self.assertEqual(self.metrics.settle()[0].count, 0)

    def test_budget(self) -> None:
        for _ in range(5):
            self.first.record(self.requests, HOME, 1)
        self.refused(BudgetRefusal, "Budget", self.first.record, self.requests, HOME, 1)
        self.refused(BudgetRefusal, "Budget", self.first.add, self.requests.bind(HOME), 1)
        self.second.record(self.requests, HOME, 1)

    def test_spare(self) -> None:
        temperature = self.metrics.instrument("temperature")
        self.first.record(temperature, {}, 20)
        self.refused(BudgetRefusal, "Budget", self.first.record, temperature, {}, 21)
        self.refused(BudgetRefusal, "NoSpare", temperature.grant, self.first, 3)
        self.refused(BudgetRefusal, "NoSpare", temperature.grant, self.first, -1)
        self.refused(BudgetRefusal, "NoSpare", temperature.grant, self.first, 1 << 64)
        temperature.grant(self.first, 2)
        self.first.record(temperature, {}, 21)

    def test_asking(self) -> None:
        temperature = self.metrics.instrument("temperature")
        self.first.record(temperature, {}, 20)
        self.assertEqual(self.first.budget(temperature), Budget(declared=1, granted=0, spent=1, left=0))
        self.assertEqual(temperature.spare(), Spare(declared=2, granted=0, left=2))
        self.refused(BudgetRefusal, "NoSpare", self.first.ask, temperature, 3)
        self.first.ask(temperature, 2)
        self.assertEqual(self.first.budget(temperature), Budget(declared=1, granted=2, spent=1, left=2))
        self.assertEqual(temperature.spare(), Spare(declared=2, granted=2, left=0))
        self.refused(StrangerRefusal, "Stranger", self.first.budget, opened().instrument("temperature"))
        self.refused(TypeRefusal, "WrongType", self.first.budget, "temperature")

    def test_resources(self) -> None:
        self.second.record(self.requests, HOME, 1)
        reader = self.metrics.reader("new")
        refused: list[tuple[Any, type[Refusal], str]] = [
            ({f"key {number}": 1 for number in range(65)}, ResourceRefusal, "TooMany"),
            ({"": "shop"}, ResourceRefusal, "EmptyKey"),
            ({"service.name": 1.5}, TypeRefusal, "WrongType"),
            (None, TypeRefusal, "WrongType"),
        ]
        for resource, family, name in refused:
            with self.subTest(name=name):
                self.refused(family, name, reader.otlp, self.requests, resource)
        self.assertEqual(reader.collect(self.requests).streams[0].points[0].value, Sum(1))

    def test_closed(self) -> None:
        home = self.requests.bind(HOME)
        self.requests.close()
        self.refused(ClosedRefusal, "Closed", self.requests.close)
        self.refused(ClosedRefusal, "Closed", self.first.record, self.requests, HOME, 1)
        self.refused(ClosedRefusal, "Closed", self.first.add, home, 1)
        self.assertEqual(self.metrics.readers[0].collect(self.requests).streams[0].points, ())

    def test_another_run(self) -> None:
        other = opened()
        theirs = other.instrument("requests")
        self.refused(StrangerRefusal, "Stranger", self.first.record, theirs, HOME, 1)
        self.refused(StrangerRefusal, "Stranger", self.first.add, theirs.bind(HOME), 1)
        self.refused(StrangerRefusal, "Stranger", self.first.add_all, [(theirs.bind(HOME), 1)])
        self.refused(StrangerRefusal, "Stranger", self.metrics.readers[0].collect, theirs)
        self.refused(StrangerRefusal, "Stranger", theirs.grant, self.first, 1)
        self.assertEqual(other.settle()[0].count, 0)
        self.assertEqual(self.metrics.settle()[0].count, 0)

    def test_lists(self) -> None:
        home = self.requests.bind(HOME)
        away = self.metrics.instrument("duration").bind({"route": "/"})
        self.assertEqual(self.second.add_all([]), 0)
        self.assertEqual(self.second.add_all([(home, 1)] * 100), 100)
        ended = [
            (RangeRefusal, "ValueRange", [(home, 1), (home, 2), (home, 101), (home, 1)], 2),
            (StrangerRefusal, "UnknownInstrument", [(home, 1), (away, 1), (home, 1)], 1),
            (RangeRefusal, "ValueRange", [(home, 0)], 0),
        ]
        for family, name, items, made in ended:
            with self.subTest(name=name):
                self.assertEqual(self.refused(family, name, self.second.add_all, items).made, made)
        self.assertEqual(self.metrics.settle()[0].count, 103)

    def test_clock(self) -> None:
        for now in (-1, 1 << 64):
            with self.subTest(now=now):
                self.refused(ClockRefusal, "WrongClock", self.metrics.readers[0].collect, self.requests, now)
        with self.assertRaises(ClockRefusal):
            Metrics.open(CATALOGUE, CONFIG, start=-1)

    def test_faults(self) -> None:
        for catalogue, config, family in FAULTS:
            with self.subTest(catalogue=catalogue, config=config), self.assertRaises(family):
                Metrics.open(catalogue, config)
        with self.assertRaisesRegex(OpenFault, "^certificate: the tables are not those"):
            Metrics.open(CATALOGUE, CONFIG, certificate="format = 9\n")
        asks: list[Any] = [Metrics.open, wormweekly.lint]
        for ask in asks:
            with self.assertRaisesRegex(OpenFault, "^catalogue:1:1: catalogue format 4 is not supported"):
                ask("format = 4\n", CONFIG)

    def test_format_3(self) -> None:
        config = "format = 1\nreader = [{ name = 'main' }]\n"
        metrics = Metrics.open(SHARED, config, start=0)
        orders = metrics.instrument("orders")
        metrics.recorder("till 1").record(orders, {"country": "fr"}, 3)
        self.assertIn('"country"="fr"', metrics.reader("main").text(orders, 1000))
        told = '^catalogue:11:[0-9]+: instrument 0 "orders": field "key": no key has the id "land"'
        with self.assertRaisesRegex(OpenFault, told):
            Metrics.open(SHARED.replace("['country']", "['land']"), config)

    def test_refusals_tell_what_they_are_about(self) -> None:
        for attributes, value, words in TOLD:
            with self.subTest(words=words), self.assertRaises(Refusal) as told:
                self.first.record(self.requests, attributes, value)
            self.assertEqual(str(told.exception), words)
        with self.assertRaisesRegex(AttributeRefusal, 'requests: key "status" is missing'):
            self.requests.bind({"route": "/"})
        self.assertEqual(self.metrics.settle()[0].count, 0)

    def test_remarks(self) -> None:
        self.assertEqual(wormweekly.lint(CATALOGUE, CONFIG), [])
        unread = wormweekly.lint(CATALOGUE, "format = 1\n")
        self.assertEqual(unread, ["config:1:1: there is no reader, so nothing is collected"])

    def test_names(self) -> None:
        finds: list[Callable[[str], object]] = [self.metrics.instrument, self.metrics.recorder, self.metrics.reader]
        for find in finds:
            with self.assertRaises(UnknownName):
                find("nothing")

    def test_seats_are_not_made(self) -> None:
        for kind in (wormweekly.Instrument, wormweekly.Recorder, wormweekly.Reader, wormweekly.Bound):
            with self.subTest(kind=kind.__name__), self.assertRaisesRegex(TypeError, "Metrics.open makes it"):
                kind()
        makes: list[Callable[[object], object]] = [copy.copy, copy.deepcopy, pickle.dumps]
        for seat in (self.requests, self.first, self.metrics.readers[0], self.requests.bind(HOME)):
            for make in makes:
                with self.subTest(seat=seat, make=make), self.assertRaises((TypeError, pickle.PicklingError)):
                    make(seat)

    def test_refusals_are_pickled(self) -> None:
        refusal = self.refused(RangeRefusal, "ValueRange", self.first.record, self.requests, HOME, 0)
        again = pickle.loads(pickle.dumps(refusal))
        self.assertEqual((type(again), again.name, str(again)), (RangeRefusal, "ValueRange", str(refusal)))

    def test_mappings(self) -> None:
        self.first.record(self.requests, ChainMap({"route": "/"}, {"status": 200}), 1)
        self.assertEqual(self.metrics.settle()[0].count, 1)

    def test_refusals_are_what_python_calls_them(self) -> None:
        for family, builtin in [
            (AttributeRefusal, ValueError),
            (RangeRefusal, ValueError),
            (TypeRefusal, TypeError),
            (wormweekly.MemoryRefusal, MemoryError),
            (wormweekly.ThreadRefusal, RuntimeError),
            (StrangerRefusal, LookupError),
        ]:
            self.assertTrue(issubclass(family, builtin))
