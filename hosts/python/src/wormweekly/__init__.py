"""Metrics that are counted exactly, as it is proved of the library that this package links.

A *catalogue* declares what may ever be recorded: instruments with the values of their attributes, and recorders with
their budgets; a *config* declares readers and views. `Metrics.open` certifies that nothing can overflow, and gives the
instruments, with a `Recorder` for each recorder and a `Reader` for each reader.

    metrics = wormweekly.Metrics.open(catalogue, config)
    orders = metrics.instrument("orders")
    orders.add(2, {"country": "de"})
    german = orders.bind({"country": "de"})
    german.add(1)
    print(metrics.reader("console").text(orders))
    print(metrics.settle())

Any thread records on an instrument. The recorders that the catalogue declares are its shards: a recording takes one
that is free, goes on to the next where a budget is spent, then asks the spare budget, and only then is it refused. What
is refused is counted by `Instrument.refused` and logged once for each reason, by the logger `wormweekly`; with
`strict=True` it is raised as a `Refusal`, with the reason as its `name` and in words with the key and the value.

A thread that wants a recorder of its own takes one from `Metrics.recorders`. It belongs to one thread at a time: to the
first one that records with it, until another calls `take_over`; a `Pool` lends them to threads that come and go. `lint`
tells what looks like a mistake in a catalogue and a config. After a fork, a run is refused in the child.
"""

from wormweekly._batches import Batch, Buckets, Kind, Last, Point, Stream, Sum, Value
from wormweekly._library import Bound, InFlight, Timer
from wormweekly._metrics import (
    Attributes,
    Budget,
    Dialect,
    Ended,
    ExpectedKey,
    Instrument,
    Metrics,
    Reader,
    Recorder,
    Spare,
    Total,
    UnknownName,
    lint,
)
from wormweekly._pool import Pool
from wormweekly._refusals import (
    AttributeRefusal,
    BudgetRefusal,
    ClockRefusal,
    ClosedRefusal,
    ExposureFault,
    MeaningFault,
    MemoryRefusal,
    OpenFault,
    OtherRefusal,
    RangeRefusal,
    Refusal,
    ResourceRefusal,
    SettleRefusal,
    StrangerRefusal,
    ThreadRefusal,
    TypeRefusal,
)

__version__ = "0.4.0"

__all__ = [
    "AttributeRefusal",
    "Attributes",
    "Batch",
    "Bound",
    "Buckets",
    "Budget",
    "BudgetRefusal",
    "ClockRefusal",
    "ClosedRefusal",
    "Dialect",
    "Ended",
    "ExpectedKey",
    "ExposureFault",
    "InFlight",
    "Instrument",
    "Kind",
    "Last",
    "MeaningFault",
    "MemoryRefusal",
    "Metrics",
    "OpenFault",
    "OtherRefusal",
    "Point",
    "Pool",
    "RangeRefusal",
    "Reader",
    "Recorder",
    "Refusal",
    "ResourceRefusal",
    "SettleRefusal",
    "Spare",
    "Stream",
    "StrangerRefusal",
    "Sum",
    "ThreadRefusal",
    "Timer",
    "Total",
    "TypeRefusal",
    "UnknownName",
    "Value",
    "lint",
]
