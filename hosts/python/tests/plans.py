"""The plans of the tests."""

from wormweekly import Attributes, Metrics

CATALOGUE = """format = 2
[[meter]]
name = 'shop'
version = '1.0'
[[meter.instrument]]
name = 'requests'
kind = 'counter'
range = [1, 100]
key = [
    { name = 'route', values = ['/', '/cart'] },
    { name = 'status', values = [200, 404] },
    { name = 'cached', values = [true, false], optional = true },
]
[[meter.instrument]]
name = 'in_flight'
kind = 'up_down_counter'
range = [-1, 1]
[[meter.instrument]]
name = 'duration'
kind = 'histogram'
unit = 'ms'
range = [0, 60000]
boundaries = [10, 100, 1000]
key = [{ name = 'route', values = ['/', '/cart'] }]
[[meter.instrument]]
name = 'temperature'
kind = 'gauge'
range = [-50, 50]
spare = 2
[[recorder]]
name = 'first'
budget = [
    { instrument = 0, amount = 5 },
    { instrument = 1, amount = 100 },
    { instrument = 2, amount = 1000 },
    { instrument = 3, amount = 1 },
]
[[recorder]]
name = 'second'
budget = [
    { instrument = 0, amount = 200000 },
    { instrument = 1, amount = 100 },
    { instrument = 2, amount = 1000 },
    { instrument = 3, amount = 1 },
]
"""

CONFIG = """format = 1
[[reader]]
name = 'all'
[[reader]]
name = 'new'
temporality = { counter = 'delta', histogram = 'delta' }
"""

HOME: Attributes = {"route": "/", "status": 200}


def opened() -> Metrics:
    """A run since the time 0."""
    return Metrics.open(CATALOGUE, CONFIG, start=0)
