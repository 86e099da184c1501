# Made by `wormweekly bind --for python`, not to be edited: `wormweekly bind --check` compares it.
"""What the service may record."""

from __future__ import annotations

from typing import Literal

import wormweekly as _w

# The values of the key country.
Country = Literal[
    "de",
    "fr",
]
_Country: dict[str, Country] = {
    "de": "de",
    "fr": "fr",
}


def Country_of(text: str) -> Country | None:
    """The value of this text, where it is declared."""
    return _Country.get(text)



class _On_shop__orders:
    # shop orders: a counter, 1 to 100.
    __slots__ = ("_bound", "on")

    def __init__(self, on: _w.Instrument) -> None:
        self.on = on
        self._bound: dict[object, _w.Bound] = {}

    def bind(self, *, country: Country) -> _w.Bound:
        """These attributes, for recordings by any recorder, or by one of your own; or raises a `Refusal`."""
        at = (country, )
        if at in self._bound:
            return self._bound[at]
        said: dict[str, _w.Value] = {}
        said["country"] = country
        return self._bound.setdefault(at, self.on.bind(said))

    def add(self, seat: _w.Recorder, value: int, *, country: Country) -> None:
        """Adds a value, or raises a `Refusal`: nothing is counted then."""
        own = self._bound.get((country, ))
        seat.add(self.bind(country=country) if own is None else own, value)


class _Meter_shop:
    def __init__(self, own: _w.Metrics) -> None:
        self.orders = _On_shop__orders(
            own.expect("shop", "orders", _w.Kind.COUNTER, "", [
                _w.ExpectedKey(
                    "country",
                    (
                        "de",
                        "fr",
                    ),
                    False,
                ),
            ])
        )


class Metrics:
    """All instruments, each under its meter, and the recorders."""

    def __init__(self, own: _w.Metrics) -> None:
        """Compares a run that is opened with what this file was made of."""
        self.own = own
        self.readers = own.readers
        self.recorders = Recorders(own)
        self.shop = _Meter_shop(own)

    @classmethod
    def open(cls, catalogue: str, config: str, *, certificate: str | None = None, start: int | None = None) -> Metrics:
        """Opens a run, and compares it with what this file was made of."""
        return cls(_w.Metrics.open(catalogue, config, certificate=certificate, start=start))


class Recorders:
    """The recorders by their names; those that are numbered from 0 are a list."""

    def __init__(self, own: _w.Metrics) -> None:
        self.own = own.recorders
        self.till = own.recorder("till")
