"""Why calls are refused. What is refused has changed nothing."""

from __future__ import annotations

import logging
from typing import ClassVar

_LOGGER = logging.getLogger("wormweekly")


class Refusal(Exception):
    """A call that was refused: `name` is why, in one word; `made` is how many recordings of a list were made before."""

    names: ClassVar[dict[int, tuple[str, str]]] = {}

    def __init__(self, name: str, sentence: str, made: int = 0) -> None:
        super().__init__(sentence)
        self.name = name
        self.made = made

    def __reduce__(self) -> tuple[type[Refusal], tuple[str, str, int]]:
        return type(self), (self.name, str(self), self.made)


class AttributeRefusal(Refusal, ValueError):
    """The attributes are not those that the instrument declares."""

    names = {
        3: ("DuplicateKey", "a key stands twice among the attributes"),
        4: ("UnknownKey", "the instrument does not declare a key"),
        5: ("UnknownValue", "a key does not declare its value"),
        6: ("MissingKey", "a required key is missing"),
        13: ("Combination", "the instrument does not allow this combination of values"),
        101: ("NoText", "a text is no UTF-8"),
    }


class RangeRefusal(Refusal, ValueError):
    """The value is outside the instrument's range."""

    names = {7: ("ValueRange", "the value is outside the instrument's range")}


class BudgetRefusal(Refusal):
    """As many recordings are made as are certified."""

    names = {
        9: ("Budget", "the recorder's budget is spent"),
        14: ("NoSpare", "less is left of the spare budget than is asked for"),
    }


class ClosedRefusal(Refusal):
    """The instrument is closed."""

    names = {8: ("Closed", "the instrument is closed")}


class StrangerRefusal(Refusal, LookupError):
    """Something is of another run, or not there."""

    names = {
        1: ("UnknownInstrument", "the plan has no such instrument"),
        2: ("UnknownRecorder", "the instrument has no such recorder"),
        12: ("Stranger", "the recorder or reader is of another run"),
        106: ("Unknown", "there is nothing of this number"),
    }


class SettleRefusal(Refusal):
    """Totals are not settled."""

    names = {
        104: ("RecorderMissing", "some recorder is missing"),
        105: ("AuditMismatch", "an instrument's state is not what its recorders were told"),
    }


class MemoryRefusal(Refusal, MemoryError):
    """Out of memory."""

    names = {11: ("Memory", "out of memory")}


class ResourceRefusal(Refusal, ValueError):
    """The attributes of a resource are not taken."""

    names = {
        107: ("TooMany", "a resource has more than 64 attributes"),
        108: ("EmptyKey", "an attribute of a resource has an empty key"),
        110: ("BadLabel", "a key of a resource has no letter and no digit, so that its label in a page says nothing"),
        111: ("LabelCollision", "two keys of a resource have one label in a page"),
    }


class OpenFault(Refusal, ValueError):
    """The catalogue or the config is at fault, or the two are not safe together: the first fault, with its place."""

    names = {103: ("Fault", "the catalogue or the config is at fault")}


class ExposureFault(Refusal, ValueError):
    """The streams of a reader can not stand in a page: a server would refuse samples, or take one for another."""

    names = {1005: ("NotExposed", "the streams of the reader can not stand in a page")}


class MeaningFault(Refusal, ValueError):
    """An instrument is not what the program was made for: the first difference."""

    names = {1006: ("Meaning", "an instrument is not what the program was made for")}


class TypeRefusal(Refusal, TypeError):
    """An argument is of another type."""

    names = {1000: ("WrongType", "an argument is of another type")}


class ThreadRefusal(Refusal, RuntimeError):
    """A thread or a process uses what is another's."""

    names = {
        1001: ("OtherThread", "the recorder is another thread's: that one ends first, then this one calls take_over()"),
        1002: ("Forked", "the run was opened before this process was forked: open one in the child"),
        1003: ("InUse", "the reader is in use by this very thread"),
    }


class ClockRefusal(Refusal, ValueError):
    """A time is no count of nanoseconds since 1970 in 64 bits."""

    names = {1004: ("WrongClock", "a time is no count of nanoseconds in 64 bits")}


class OtherRefusal(Refusal):
    """The library answered a number that this package does not know."""


_FAMILIES = (
    AttributeRefusal,
    RangeRefusal,
    BudgetRefusal,
    ClosedRefusal,
    StrangerRefusal,
    SettleRefusal,
    MemoryRefusal,
    ResourceRefusal,
    OpenFault,
    ExposureFault,
    MeaningFault,
    TypeRefusal,
    ThreadRefusal,
    ClockRefusal,
)
_BY_ANSWER = {answer: (family, *words) for family in _FAMILIES for answer, words in family.names.items()}


class Teller:
    """Tells by `logging`, as the logger `wormweekly`, why an instrument of a number does not record."""

    def __init__(self) -> None:
        self.names: list[str] = []

    def __call__(self, number: int, refusal: Refusal) -> None:
        name = self.names[number] if number < len(self.names) else f"number {number}"
        _LOGGER.warning("instrument %r does not record (%s, told once): %s", name, refusal.name, refusal)


def refusal_of(answer: int, told: str | int | None) -> Refusal:
    """The exception for an answer, with what was told beside it: a fault, a type, or how many recordings were made."""
    family, name, sentence = _BY_ANSWER.get(answer, (OtherRefusal, "Other", f"the library answered {answer}"))
    if isinstance(told, int):
        return family(name, f"after {told} recordings: {sentence}", told)
    if told is None:
        return family(name, sentence)
    return family(name, f"it takes {told}" if family is TypeRefusal else told)
