from collections.abc import Callable, Mapping
from types import TracebackType
from typing import TypeVar

from wormweekly._refusals import Refusal

_I = TypeVar("_I", bound=Instrument)
_R = TypeVar("_R", bound=Recorder)
_S = TypeVar("_S", bound=Reader)
_Value = str | int | bool
_Attributes = Mapping[str, _Value]
_Point = tuple[dict[str, str | int | bool], bool, int | None, int, int, int, tuple[int, ...]]
_Stream = tuple[tuple[str, str, str, str, str, str], int, int, bool, tuple[int, ...], tuple[_Point, ...]]
_Total = tuple[int, bool, int, int]
_Batch = tuple[int, int, int, tuple[_Stream, ...], str]

class Bound:
    """A set of attributes that was looked up once."""

    def add(self, value: int, /) -> None:
        """Adds to a counter or an up-down counter. Any thread may."""
    def record(self, value: int, /) -> None:
        """Records a value of a histogram or a gauge. Any thread may."""
    def time(self, unit: int = ...) -> Timer:
        """The same as `Instrument.time`, of this set."""
    def in_flight(self) -> InFlight:
        """The same as `Instrument.in_flight`, of this set."""

class _Scope:
    def __exit__(
        self, kind: type[BaseException] | None, fault: BaseException | None, at: TracebackType | None, /
    ) -> None: ...

class Timer(_Scope):
    """Records how long a block took, by any recorder."""

    def __enter__(self) -> Timer: ...

class InFlight(_Scope):
    """Counts a block in and out, by any recorder."""

    @property
    def is_counted(self) -> bool:
        """Whether it is counted in."""
    def __enter__(self) -> InFlight: ...

class Instrument:
    def add(self, value: int, attributes: _Attributes = ..., /) -> None:
        """Adds to a counter or an up-down counter. Any thread may."""
    def record(self, value: int, attributes: _Attributes = ..., /) -> None:
        """Records a value of a histogram or a gauge. Any thread may."""
    def known_or(self, key: str, value: _Value, other: _Value, /) -> _Value:
        """The value, where the instrument declares it for the key; else the other one, and `replaced` counts it. A
        recording tells what else is wrong."""
    def declares(self, key: str, /) -> bool:
        """Whether it declares a key."""
    def _replaced(self) -> int: ...
    def _refused(self) -> dict[str, int]: ...
    def record_clamped(self, value: int, attributes: _Attributes = ..., /) -> None:
        """Records a value, and one above the range as its greatest value, which `clamped` counts."""
    def time(self, attributes: _Attributes | None = None, unit: int = ...) -> Timer:
        """A `with` that records how long its block took, in units of so many nanoseconds: milliseconds, if nothing else
        is said. What is above the range is recorded as its greatest value, and `clamped` counts it. The attributes are
        looked up before the block. Threads may share one; of tasks in one thread, each takes its own."""
    def in_flight(self, attributes: _Attributes | None = None) -> InFlight:
        """A `with` that counts its block in and out, on an up-down counter. What could not be counted out is not
        counted in: where fewer than two recordings are left for it, beside those that count out what is under way, it
        is refused. The attributes are looked up before the block."""
    def bind(self, attributes: _Attributes, /) -> Bound:
        """Finds a set of attributes once, for recordings by `Bound.add`, or by `Recorder.add`."""
    def grant(self, recorder: Recorder, amount: int, /) -> None:
        """Grants a recorder so many recordings beside its budget, of what is left of the spare budget."""
    def _spare(self) -> tuple[int, int, int]: ...
    def _clamped(self) -> int: ...
    def close(self) -> None:
        """Ends the recordings. The instrument is collected and settled as before."""

class Recorder:
    def record(self, instrument: Instrument, attributes: _Attributes, value: int, /) -> None:
        """Makes a recording."""
    def add(self, bound: Bound, value: int, /) -> None:
        """Makes a recording with a bound set of attributes."""
    def add_all(self, items: list[tuple[Bound, int]], /) -> int:
        """Makes several on one instrument in one call, and answers how many. The first that is refused ends them: the
        refusal's `made` is how many stand before it."""
    def ask(self, instrument: Instrument, amount: int, /) -> None:
        """Grants this recorder so many recordings beside its budget, of what is left of the spare budget."""
    def _budget(self, instrument: Instrument, /) -> tuple[int, int, int, int]: ...
    def take_over(self) -> None:
        """Makes the recorder this thread's. Who calls it knows that the thread before is done with it."""

class Reader:
    def _collect(self, instrument: Instrument, now: int, /) -> _Batch: ...
    def _collect_text(self, instrument: Instrument, now: int, /) -> str: ...
    def _collect_otlp(
        self, instrument: Instrument | None, now: int, resource: _Attributes, is_line: bool, /
    ) -> bytes: ...
    def _collect_page(self, instrument: Instrument | None, now: int, dialect: int, /) -> bytes: ...
    def _target(self, resource: _Attributes, dialect: int, /) -> bytes: ...
    def expose(self) -> None:
        """Raises an `ExposureFault` where the streams can not stand in a page: ask before anything is recorded."""
    def _last(self) -> _Batch | None: ...

class Run:
    def __new__(
        cls,
        catalogue: str,
        config: str,
        certificate: str | None,
        start: int,
        is_strict: bool,
        tell: Callable[[int, Refusal], object],
        /,
    ) -> Run: ...
    def open_anew(self, catalogue: str, config: str, certificate: str | None, start: int, /) -> None: ...
    @classmethod
    def lint(cls, catalogue: str, config: str, /) -> str: ...
    def counts(self) -> tuple[int, int, int]: ...
    def name(self, kind: int, number: int, /) -> str: ...
    def warnings(self) -> str: ...
    def instrument(self, kind: type[_I], number: int, /) -> _I: ...
    def recorder(self, kind: type[_R], number: int, /) -> _R: ...
    def reader(self, kind: type[_S], number: int, /) -> _S: ...
    def expect(self, number: int, kind: int, declared: list[tuple[str, _Value]], optional: int, /) -> None: ...
    def settle(self, number: int, /) -> _Total: ...
    def roll_over(self, start: int, /) -> tuple[Run, tuple[_Total, ...]]: ...
