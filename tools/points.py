"""The points of batches, read from the text that the program prints (docs/FORMATS.md, "Batches")."""
import re
from dataclasses import dataclass, field

# A text in quotes, and a field of a line.
QUOTED = r'"(?:[^"\\]|\\.)*"'
FIELD = re.compile(rf"(\w+)=({QUOTED}|\[[^\]]*\]|\S+)")
PAIR = re.compile(rf"({QUOTED})=({QUOTED}|true|false|-?\d+)")
POINT = re.compile(rf"point \{{((?:{PAIR.pattern},?)*)\}} (.*)")
ESCAPES = {"n": "\n", "r": "\r", "t": "\t"}


@dataclass
class Point:
    """One series in one window: a value, or what a histogram has."""

    attributes: list
    start: int
    time: int
    value: int | None = None
    count: int | None = None
    buckets: list | None = None
    sum: int | None = None
    min: int | None = None
    max: int | None = None


@dataclass
class Stream:
    """A stream of a batch with its points. `kind` is sum, last or histogram; the boundaries are those of a histogram."""

    reader: str
    meter: str
    version: str
    schema: str
    name: str
    unit: str
    description: str
    kind: str
    temporality: str
    monotonic: bool
    boundaries: list
    points: list = field(default_factory=list)


def unquoted(text):
    return re.sub(r"\\(.)", lambda it: ESCAPES.get(it[1], it[1]), text[1:-1], flags=re.S)


def value_of(word):
    """An attribute's value: a text, a flag or a whole number."""
    if word.startswith('"'):
        return unquoted(word)
    return word == "true" if word in ("true", "false") else int(word)


def numbers_of(word):
    return [int(number) for number in word[1:-1].split(",") if number]


def stream_of(line):
    it = dict(FIELD.findall(line))
    texts = [unquoted(it[name]) for name in ("reader", "meter", "version", "schema", "name", "unit", "description")]
    boundaries = numbers_of(it.get("bounds", "[]"))
    return Stream(*texts, it["kind"], it["temporality"], it.get("monotonic") == "yes", boundaries)


def point_of(line):
    found = POINT.fullmatch(line)
    attributes = [(unquoted(key), value_of(value)) for key, value in PAIR.findall(found[1])]
    it = dict(FIELD.findall(found[found.lastindex]))
    buckets = numbers_of(it.pop("buckets")) if "buckets" in it else None
    return Point(attributes, buckets=buckets, **{name: int(number) for name, number in it.items()})


def batches_of(text):
    """The batches of a text, each a list of its streams. Lines of other replies are passed over."""
    batches = []
    for line in text.split("\n"):
        if line.startswith("collected "):
            batches.append([])
        elif line.startswith("stream "):
            batches[-1].append(stream_of(line))
        elif line.startswith("point "):
            batches[-1][-1].points.append(point_of(line))
    return batches
