"""The library for hosts, called as C calls it: runs of a script, with all that may leave."""
import ctypes
from ctypes import Structure, byref, c_char_p, c_int64, c_size_t, c_uint32, c_uint64, c_void_p

from points import PAIR, unquoted, value_of

# How long a fault is told at most.
FAULT = 1000


class Handle(Structure):
    _fields_ = [("at", c_void_p)]


class Attribute(Structure):
    _fields_ = [("key", c_size_t), ("kind", c_size_t), ("text", c_size_t), ("whole", c_int64)]


class Counts(Structure):
    _fields_ = [("instruments", c_size_t), ("recorders", c_size_t), ("readers", c_size_t)]


class Total(Structure):
    _fields_ = [("count", c_uint64), ("negative", c_uint64), ("high", c_uint64), ("low", c_uint64)]


def attributes_of(pairs):
    """Attributes as calls take them: their texts, how long these are, the list, and how many there are."""
    texts, found = b"", []
    for key, value in pairs:
        key = key.encode()
        if isinstance(value, str):
            text = value.encode()
            found.append(Attribute(len(key), 0, len(text), 0))
            texts += key + text
        else:
            kind = 3 if value is True else 2 if value is False else 1
            found.append(Attribute(len(key), kind, 0, value if kind == 1 else 0))
            texts += key
    return c_char_p(texts), c_size_t(len(texts)), (Attribute * len(found))(*found), c_size_t(len(found))


class Run:
    """A run of a plan."""

    def __init__(self, library, catalogue, config, start):
        self.instruments = self.recorders = self.readers = ()
        self.calls = ctypes.CDLL(str(library))
        self.fault = ctypes.create_string_buffer(FAULT)
        counts = Counts()
        self.open(catalogue, config, start, counts)
        self.instruments, self.recorders, self.readers = (
            (Handle * count)() for count in (counts.instruments, counts.recorders, counts.readers)
        )
        self.done("wormweekly_open", self.open(catalogue, config, start, counts))

    def open(self, catalogue, config, start, counts):
        lists = (self.instruments, self.recorders, self.readers)
        handles = [it for handles in lists for it in (handles or None, c_size_t(len(handles)))]
        texts = [it for text in (catalogue, config) for it in (c_char_p(text), c_size_t(len(text)))]
        told = (self.fault, c_size_t(FAULT), byref(c_size_t()))
        return self.calls.wormweekly_open(*texts, c_uint64(start), *handles, byref(counts), *told)

    def __del__(self):
        for kind, handles in (("instrument", self.instruments), ("recorder", self.recorders), ("reader", self.readers)):
            for handle in handles:
                getattr(self.calls, f"wormweekly_free_{kind}")(byref(handle))

    def done(self, call, answer):
        if answer != 0:
            raise ValueError(f"{call} answers {answer} {self.fault.value.decode()}")

    def record(self, recorder, instrument, value, pairs):
        handles = byref(self.instruments[instrument]), byref(self.recorders[recorder])
        answer = self.calls.wormweekly_record(*handles, *attributes_of(pairs), c_int64(value))
        self.done("wormweekly_record", answer)

    def collect(self, reader, instrument, now):
        handles = byref(self.instruments[instrument]), byref(self.readers[reader])
        self.done("wormweekly_collect", self.calls.wormweekly_collect(*handles, c_uint64(now)))

    def told(self, call, *words):
        """What a call writes: asked for its length first."""
        length = c_size_t()
        asked = getattr(self.calls, call)
        asked(*words, None, c_size_t(0), byref(length))
        out = ctypes.create_string_buffer(max(1, length.value))
        self.done(call, asked(*words, out, c_size_t(length.value), byref(length)))
        return out.raw[: length.value]

    def text(self, reader):
        return self.told("wormweekly_text", byref(self.readers[reader]))

    def otlp(self, reader, json, resource):
        return self.told("wormweekly_otlp", byref(self.readers[reader]), c_uint32(json), *attributes_of(resource))

    def page_lines(self, reader, dialect):
        return self.told("wormweekly_prometheus", byref(self.readers[reader]), c_uint32(dialect))

    def target(self, dialect, resource):
        return self.told("wormweekly_prometheus_target", c_uint32(dialect), *attributes_of(resource))

    def settled(self, instrument):
        """The sum of what all recorders recorded of an instrument, in how many recordings."""
        total = Total()
        recorders = self.recorders, c_size_t(len(self.recorders))
        self.done("wormweekly_settle", self.calls.wormweekly_settle(byref(self.instruments[instrument]), *recorders, byref(total)))
        return total.count, (total.high << 64 | total.low) * (-1 if total.negative else 1)


class Outcome:
    """What leaves of a script's collections: the text, a request and lines of OTLP, and the pages of all dialects."""

    def __init__(self, library, files, script, resource):
        catalogue, config = (file.read_bytes() for file in files)
        events = [line.split(" ", 4) for line in script.splitlines()]
        self.run = Run(library, catalogue, config, int(events[0][1]))
        self.resource, self.text, self.request, self.lines = resource, b"", b"", b""
        self.pages = [{}, {}, {}]
        for event in events[1:]:
            self.follow(event)

    def follow(self, event):
        word, seat, instrument, number = event[0], *map(int, event[1:4])
        if word == "record":
            pairs = [(unquoted(key), value_of(value)) for key, value in PAIR.findall(event[4] if len(event) > 4 else "")]
            self.run.record(seat, instrument, number, pairs)
            return
        self.run.collect(seat, instrument, number)
        self.text += self.run.text(seat)
        self.request += self.run.otlp(seat, 0, self.resource)
        self.lines += self.run.otlp(seat, 1, self.resource)
        for dialect, lines in enumerate(self.pages):
            lines[instrument] = self.run.page_lines(seat, dialect)

    def page(self, dialect):
        """The page of the last collection of each instrument."""
        lines = b"".join(lines for _, lines in sorted(self.pages[dialect].items()))
        return (self.run.target(dialect, self.resource) + lines + (b"# EOF\n" if dialect > 0 else b"")).decode()
