"""Which changes of a catalogue and a config break: `diff --deny breaking` ends with 1 for these alone, and tells each
change. Each kind of change is denied, and left out, by its name."""

import json
import subprocess
import sys
import tempfile
from pathlib import Path

PROGRAM = sys.argv[2]
CATALOGUE = """format = 2
[[meter]]
name = 'shop'
version = '1'
[[meter.instrument]]
name = 'orders.total'
kind = 'counter'
unit = '1'
description = 'Orders.'
range = [1, 100]
spare = 7
key = [{ name = 'country', values = ['de', 'us'] }, { name = 'status', values = [200, 404, 500] }, { name = 'route', values = ['/', '/cart'], optional = true }]
[[meter.instrument]]
name = 'latency'
kind = 'histogram'
unit = 'ms'
range = [0, 1000]
boundaries = [100, 500, 800]
key = [{ name = 'route', values = ['/', '/cart'] }]
allowed = [[1], [2]]
[[meter.instrument]]
name = 'queue'
kind = 'up_down_counter'
range = [-5, 5]
[[meter]]
name = 'pay'
[[meter.instrument]]
name = 'delay'
kind = 'gauge'
range = [0, 9]
[[recorder]]
name = 'web'
budget = [{ instrument = 0, amount = 1000 }, { instrument = 1, amount = 900 }]
[[recorder]]
name = 'job'
budget = [{ instrument = 2, amount = 50 }, { instrument = 3, amount = 60 }]
"""
CONFIG = """format = 1
[[reader]]
name = 'page'
[[reader]]
name = 'push'
temporality = { counter = 'delta' }
limit = { counter = 500 }
[[view]]
instrument_name = 'orders.total'
exclude = ['route']
[[view]]
instrument_name = 'latency'
stream_name = 'duration'
"""
C, F, BREAKS, STAYS = "catalogue.toml", "config.toml", 1, 0
NEW = "[[meter.instrument]]\nname = 'wait'\nkind = 'counter'\nrange = [0, 1]\n[[recorder]]\nname = 'web'"
# What is changed, in which file, from what, to what, and whether it breaks.
CHANGES = [
    ("an instrument is renamed", C, "name = 'queue'", "name = 'line'", BREAKS),
    ("an instrument is named in capitals", C, "name = 'queue'", "name = 'QUEUE'", BREAKS),
    ("an instrument is of another kind", C, "'up_down_counter'", "'gauge'", BREAKS),
    ("an instrument is new", C, "[[recorder]]\nname = 'web'", NEW, STAYS),
    ("an instrument is of another meter", C, "[[meter]]\nname = 'pay'\n", "", BREAKS),
    ("a unit is another", C, "unit = 'ms'", "unit = 's'", BREAKS),
    ("a unit is left out", C, "unit = 'ms'\n", "", BREAKS),
    ("a description is another", C, "'Orders.'", "'All orders.'", STAYS),
    ("a description goes", C, "description = 'Orders.'\n", "", STAYS),
    ("a meter is renamed", C, "name = 'pay'", "name = 'payment'", BREAKS),
    ("a meter has another version", C, "version = '1'", "version = '2'", BREAKS),
    ("a value goes", C, "['de', 'us']", "['de']", BREAKS),
    ("a value is renamed", C, "['de', 'us']", "['de', 'usa']", BREAKS),
    ("a value is new", C, "['de', 'us']", "['de', 'us', 'fr']", STAYS),
    ("values stand in another order", C, "['de', 'us']", "['us', 'de']", STAYS),
    ("values are of another type", C, "[200, 404, 500]", "['200', '404', '500']", BREAKS),
    ("a key goes", C, "{ name = 'country', values = ['de', 'us'] }, ", "", BREAKS),
    ("a key is renamed", C, "name = 'country'", "name = 'land'", BREAKS),
    ("a key that is required is new", C, "key = [{ name = 'c", "key = [{ name = 'app', values = ['a'] }, { name = 'c", BREAKS),
    ("a key that may be left out is new", C, "key = [{ name = 'c", "key = [{ name = 'app', values = ['a'], optional = true }, { name = 'c", STAYS),
    ("a key is required", C, ", optional = true", "", BREAKS),
    ("a key may be left out", C, "['de', 'us'] }", "['de', 'us'], optional = true }", STAYS),
    ("a combination is refused", C, "allowed = [[1], [2]]", "allowed = [[1]]", BREAKS),
    ("none is allowed", C, "allowed = [[1], [2]]", "allowed = []", BREAKS),
    ("combinations are no longer listed", C, "allowed = [[1], [2]]\n", "", STAYS),
    ("combinations stand in another order", C, "[[1], [2]]", "[[2], [1]]", STAYS),
    ("values and combinations are turned over", C, "['/', '/cart'] }]\nallowed = [[1], [2]]", "['/cart', '/'] }]\nallowed = [[2], [1]]", STAYS),
    ("a range is narrower", C, "[1, 100]", "[1, 99]", BREAKS),
    ("a range begins later", C, "[1, 100]", "[2, 100]", BREAKS),
    ("a range is wider", C, "[1, 100]", "[0, 101]", STAYS),
    ("a boundary goes", C, "[100, 500, 800]", "[100, 800]", BREAKS),
    ("a boundary is moved", C, "[100, 500, 800]", "[100, 501, 800]", BREAKS),
    ("a boundary is new", C, "[100, 500, 800]", "[100, 250, 500, 800]", STAYS),
    ("a view takes the boundaries away", F, "stream_name = 'duration'", "stream_name = 'duration'\nboundaries = []", BREAKS),
    ("a recorder is renamed", C, "name = 'job'", "name = 'worker'", BREAKS),
    ("a recorder is new", C, "[[recorder]]\nname = 'web'", "[[recorder]]\nname = 'app'\n[[recorder]]\nname = 'web'", STAYS),
    ("a budget is 0", C, "amount = 1000", "amount = 0", BREAKS),
    ("a budget is less", C, "amount = 1000", "amount = 1", BREAKS),
    ("a budget is more", C, "amount = 1000", "amount = 2000", STAYS),
    ("a spare budget is less", C, "spare = 7", "spare = 6", BREAKS),
    ("a reader is renamed", F, "name = 'push'", "name = 'send'", STAYS),
    ("a reader goes", F, "[[reader]]\nname = 'page'\n", "", BREAKS),
    ("a reader is new", F, "[[reader]]\nname = 'page'", "[[reader]]\nname = 'log'\n[[reader]]\nname = 'page'", STAYS),
    ("a reader takes totals", F, "temporality = { counter = 'delta' }\n", "", BREAKS),
    ("a limit is another", F, "counter = 500", "counter = 400", STAYS),
    ("a stream is renamed", F, "'duration'", "'time'", BREAKS),
    ("a stream drops a key", F, "exclude = ['route']", "exclude = ['route', 'status']", BREAKS),
    ("a stream keeps a key that it dropped", F, "exclude = ['route']", "description = 'All.'", STAYS),
    ("a stream takes the name of another", F, "'duration'", "'queue'", BREAKS),
    ("nothing", F, "counter = 500", "counter = 500", STAYS),
]


# The names of the kinds: what differs, and behind `gone-` or `new-` what only one side has.
DIFFERS = """reader series name description unit kind aggregation boundaries limit temporality instrument key range
spare combinations budget headroom"""
ONE_SIDED = "reader collision stream key instrument value combination recorder"
KINDS = {*DIFFERS.split(), *(f"{side}-{what}" for side in ("gone", "new") for what in ONE_SIDED.split())}


def diffed(folder, old, new, *options):
    """What is told of a change, and the status."""
    for name, text in zip((f"old-{C}", f"old-{F}", C, F), (*old, *new)):
        (folder / name).write_text(text, encoding="utf-8")
    line = [PROGRAM, "diff", f"old-{C}", f"old-{F}", C, F, *options]
    ran = subprocess.run(line, cwd=folder, capture_output=True, text=True, timeout=60, check=False)
    return ran.stdout + ran.stderr, ran.returncode


def sides_of(file, before, after):
    """The files before and after a change."""
    old = (CATALOGUE, CONFIG)
    assert before in (CATALOGUE if file == C else CONFIG)
    return old, tuple(text.replace(before, after, 1) if name == file else text for name, text in zip((C, F), old))


def wrong_of(folder, file, before, after, breaks):
    """What is wrong with how a change is told."""
    told, status = diffed(folder, *sides_of(file, before, after), "--deny", "breaking", "--json")
    wrong = [f"ends with {status}: {told}"] * (status != breaks)
    same = before == after or after in ("['us', 'de']", "[[2], [1]]") or "'/cart', '/'" in after
    return wrong + [f"tells {told}"] * ((rows_of(told) == []) != same)


def kind_of(row):
    """The kind of a change, by what is told of it."""
    what = "budget" if row["what"].startswith("budget of ") else row["what"]
    return what if row["change"] == "differs" else f"{row['change']}-{what}"


def rows_of(told):
    """The changes that are told, without the line of the schema, and what becomes of programs."""
    rows = [json.loads(line) for line in told.splitlines()][1:]
    return [row for row in rows if row["change"] != "programs"]


def wrong_kinds(folder, sides, tried):
    """What is wrong with how changes between two sides are denied and left out by kinds that were not tried yet."""
    told, _ = diffed(folder, *sides, "--json")
    rows, wrong = rows_of(told), []
    for kind in {kind_of(row) for row in rows} - tried:
        tried.add(kind)
        denied, status = diffed(folder, *sides, "--json", "--deny", kind)
        wrong += [f"{kind} is not denied: {denied}"] * ((denied, status) != (told, 1))
        left, status = diffed(folder, *sides, "--json", "--deny", kind, "--allow", kind)
        others = [row for row in rows if kind_of(row) != kind]
        wrong += [f"{kind} is not left out: {left}"] * ((rows_of(left), status) != (others, 0))
    return wrong


def main():
    tried = set()
    with tempfile.TemporaryDirectory() as scratch:
        wrong = [f"{what}: {it}" for what, *rest in CHANGES for it in wrong_of(Path(scratch), *rest)]
        for _, *change, _ in CHANGES:
            for way in (1, -1):
                wrong += wrong_kinds(Path(scratch), sides_of(*change)[::way], tried)
    wrong += [f"the kind {kind} is {'not told' if kind in KINDS else 'unknown'}" for kind in sorted(KINDS ^ tried)]
    counts = f"{len(CHANGES)} changes, {len(tried)} kinds, {len(wrong)} faults of how they are told"
    print("\n".join([*wrong, counts]))
    sys.exit(bool(wrong))


main()
