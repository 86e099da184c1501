"""Whether instruments mean what a program was made for."""

import unittest

from tests.plans import CATALOGUE, CONFIG, opened
from wormweekly import ExpectedKey, Instrument, Kind, MeaningFault, Metrics, TypeRefusal, UnknownName

ROUTE = ExpectedKey("route", ("/", "/cart"))
STATUS = ExpectedKey("status", (200, 404))
CACHED = ExpectedKey("cached", (True, False), optional=True)
KEYS = (ROUTE, STATUS, CACHED)

# What is changed in the catalogue, and what is told.
OTHERS = [
    ("['/', '/cart']", "['/cart', '/']", 'key "route" has no value "/" at place 1'),
    ("['/', '/cart']", "['/', '/car']", 'key "route" has no value "/cart" at place 2'),
    ("[200, 404]", "['200', 404]", 'key "status" has no value 200 at place 1'),
    ("[true, false], optional = true", "[true, false]", 'key "cached" may not be left out'),
    ("'counter'", "'up_down_counter'", "it is an up-down counter"),
    ("'status'", "'state'", 'key "state" stands in place of "status"'),
]

# What changes no meaning.
LATER = [
    ("amount = 5", "amount = 6"),
    ("[1, 100]", "[1, 99]"),
    ("['/', '/cart']", "['/', '/cart', '/pay']"),
    ("[true, false], optional = true },", "[true, false], optional = true }, { name = 'coupon', values = [1], optional = true },"),
]


def found(catalogue: str) -> Instrument:
    return Metrics.open(catalogue, CONFIG, start=0).expect("shop", "requests", Kind.COUNTER, "", KEYS)


class Expected(unittest.TestCase):
    def test_what_it_was_made_for_is_found(self) -> None:
        self.assertEqual(found(CATALOGUE).number, 0)
        for before, after in LATER:
            catalogue = CATALOGUE.replace(before, after, 1)
            self.assertNotEqual(catalogue, CATALOGUE)
            self.assertEqual(found(catalogue).number, 0)

    def test_fewer_values_and_optional_keys_do(self) -> None:
        keys = [ExpectedKey("route", ("/",)), STATUS]
        self.assertEqual(opened().expect("shop", "requests", Kind.COUNTER, "", keys).number, 0)

    def test_what_means_something_else_is_told(self) -> None:
        for before, after, words in OTHERS:
            with self.subTest(words):
                catalogue = CATALOGUE.replace(before, after, 1)
                self.assertNotEqual(catalogue, CATALOGUE)
                with self.assertRaises(MeaningFault) as told:
                    found(catalogue)
                self.assertEqual((told.exception.name, str(told.exception)), ("Meaning", f"shop/requests: {words}"))

    def test_a_key_too_few_and_one_without_values_are_told(self) -> None:
        for keys in [(ROUTE,), (ROUTE, STATUS, ExpectedKey("cached", ()))]:
            with self.assertRaises(MeaningFault):
                opened().expect("shop", "requests", Kind.COUNTER, "", keys)

    def test_another_name_is_unknown(self) -> None:
        with self.assertRaises(UnknownName):
            opened().expect("shop", "orders", Kind.COUNTER, "")

    def test_a_value_of_another_type_is_refused(self) -> None:
        with self.assertRaises(TypeRefusal):
            opened().expect("shop", "requests", Kind.COUNTER, "", [ExpectedKey("route", (1.5,))])  # type: ignore[arg-type]
