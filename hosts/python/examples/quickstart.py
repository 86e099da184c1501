"""The quick start: a plan is certified, two orders are recorded and one is refused, and what is collected is printed."""

import logging
import sys
from pathlib import Path

import quickstart_bound as bound

CATALOGUE = Path(__file__).with_name("quickstart.toml").read_text()

CONFIG = """format = 1
[[reader]]
name = 'console'
"""

logging.basicConfig(stream=sys.stdout, format="%(message)s")

metrics = bound.Metrics.open(CATALOGUE, CONFIG, start=0)  # two texts; an OpenFault tells the first fault
orders = metrics.shop.orders
orders.bind(country="de").add(2)  # in any thread; another country does not pass mypy
french = orders.bind(country="fr")  # looked up once
french.add(1)
orders.on.add(1, {"country": "uk"})  # by texts: not counted, but logged once, or raised where the run is strict
print(f"refused: {orders.on.refused}")
print(metrics.own.reader("console").text(orders.on, 1_000), end="")
for total in metrics.own.roll_over().totals:  # and the next run begins, in the same seats
    print(f"settled: {total.sum} in {total.count} recordings")
