"""Replays scripts under certificates that have each stream by product, so that its table has a place for each series.

Catalogues, configs and scripts are put together by seeds. A trial, whose tables find series by hash, gives the same.
"""

import random
import re
import subprocess
import sys

SEEDS, EVENTS, RECORDERS, READERS = 24, 160, 3, 16

# What may be declared of an instrument, each beside its neighbours.
BOUNDARIES = ["", "boundaries = []", "boundaries = [0]", "boundaries = [-5, 0, 5]"]
FIRST = "{ name = 'k0', values = ['a', 'b'] }"
WIDE = "{ name = 'k0', values = ['a', 'b', 'c \"d'] }"
OPTIONAL = "{ name = 'k0', values = ['a', 'b'], optional = true }"
TWO = "{ name = 'k1', values = [true, -2], optional = true }"
ONE = "{ name = 'k1', values = [-2], optional = true }"
KEYS = [WIDE, WIDE.replace(" }", ", optional = true }"), f"{FIRST}, {TWO}", f"{OPTIONAL}, {ONE}"]
COMBINED = [(KEYS[0], "[1], [3]"), (KEYS[2], "[1, 0], [2, 1], [1, 2]"), (KEYS[3], "[0, 0], [2, 0]"), ("", "")]
KINDS = [("counter", "[0, 9]"), ("up_down_counter", "[-9, 9]"), ("histogram", "[0, 9]"), ("gauge", "[-9, 9]")]
BUDGETS = [0, 2, 9, 1000]

# What may be said of a reader, and of all instruments.
TEMPORALITIES = ["", "counter = 'delta', gauge = 'delta'", "up_down_counter = 'delta', histogram = 'delta'"]
SPREAD = "counter = 'explicit_bucket_histogram', gauge = 'explicit_bucket_histogram'"
AGGREGATIONS = ["", "histogram = 'sum'", SPREAD]
VIEWS = ["", "keep = []", "exclude = ['k0']", "keep = ['k1', 'k2']", "aggregation = 'sum'"]

VALUES = [0, 1, 2, 4, 5, 7, 9, 10, -1, -9, 2**63 - 1, -(2**63)]
ATTRIBUTES = ["", '"k0"="a"', '"k0"="b"', '"k0"="c \\"d"', '"k1"=-2 "k0"="a"', '"k0"="b" "k1"=true']
ATTRIBUTES += ['"k0"="a" "k0"="b"', '"k9"=true']
TIMES = [0, 7, 250, 400, 600, 800, 999]

# What the replies to all scripts have in them.
SEEN = "accepted closed UnknownInstrument UnknownRecorder UnknownReader DuplicateKey UnknownKey UnknownValue MissingKey"
SEEN += " Combination ValueRange Closed Budget kind=sum kind=last kind=histogram sum="
SEEN += " temporality=delta temporality=cumulative"


def catalogue_of(dice):
    lines = ["format = 2", "[[meter]]", "name = 'm'"]
    for number, (kind, values) in enumerate([*KINDS, KINDS[0]]):
        lines += ["[[meter.instrument]]", f"name = 'i{number}'", f"kind = '{kind}'", f"range = {values}"]
        lines += [dice.choice(BOUNDARIES)]
        keys, allowed = (dice.choice(KEYS), None) if number < len(KINDS) else dice.choice(COMBINED)
        lines += [f"key = [{keys}]"] if keys else []
        lines += [f"allowed = [{allowed}]"] if allowed is not None else []
    for number in range(RECORDERS):
        amounts = [(one, dice.choice(BUDGETS)) for one in range(len(KINDS) + 1)]
        budget = ", ".join(f"{{ instrument = {one}, amount = {amount} }}" for one, amount in amounts)
        lines += ["[[recorder]]", f"name = 'p{number}'", f"budget = [{budget}]"]
    return lines


def config_of(dice):
    lines = ["format = 1"]
    for number in range(READERS):
        lines += ["[[reader]]", f"name = 'q{number}'"]
        lines += [f"temporality = {{ {dice.choice(TEMPORALITIES)} }}"]
        lines += [f"aggregation = {{ {dice.choice(AGGREGATIONS)} }}"]
    view = dice.choice(VIEWS)
    return [*lines, "[[view]]", view] if view else lines


def event_of(dice):
    """An event, of which a recorder, a reader or an instrument may be one that there is not."""
    instrument = dice.choice([*range(len(KINDS) + 1)] * 3 + [len(KINDS) + 1])
    recorder = dice.choice([*range(RECORDERS)] * 4 + [RECORDERS])
    roll = dice.randrange(80)
    if roll == 0:
        return f"close {instrument}"
    if roll < 50:
        return f"record {recorder} {instrument} {dice.choice(VALUES)} {dice.choice(ATTRIBUTES)}".strip()
    if roll < 54:
        return f"grant {recorder} {instrument} {dice.choice([0, 1, 3, 2**64 - 1])}"
    return f"collect {dice.randrange(READERS + 1)} {instrument} {dice.choice(TIMES)}"


def ran(program, words, parts):
    """What a command line writes on these parts, or what it tells."""
    given = "".join(f"%% {name}\n" + "".join(f"{line}\n" for line in lines) for name, lines in parts.items())
    ended = subprocess.run([program, *words], input=given, capture_output=True, text=True, check=False)
    return ended.stdout if ended.returncode == 0 else f"{ended.stderr}status {ended.returncode}\n"


def replies_of(program, seed):
    """The replies under a certificate, those of a trial, and whether each stream is by product."""
    dice = random.Random(seed)
    parts = {"catalogue": catalogue_of(dice), "config": config_of(dice)}
    certificate = ran(program, ["make"], parts)
    script = {"script": ["start 300", *(event_of(dice) for _ in range(EVENTS))]}
    dense = ran(program, ["replay"], {**parts, "certificate": certificate.splitlines(), **script})
    plain = ran(program, ["replay", "--trial"], {**parts, **script})
    return dense, plain, set(re.findall(r'by = "(\w+)"', certificate)) == {"product"}


def main(program):
    told = [replies_of(program, seed) for seed in range(SEEDS)]
    wrong = [seed for seed, (dense, plain, is_dense) in enumerate(told) if not is_dense or dense != plain]
    unseen = [word for word in SEEN.split() if not any(word in dense for dense, _, _ in told)]
    print(f"{len(told)} scripts, answered otherwise: those of the seeds {wrong}; not seen: {unseen}")
    return 1 if wrong or unseen else 0


sys.exit(main(sys.argv[1]))
