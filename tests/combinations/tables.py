"""Tables of allowed combinations of several shapes: which sets of values are recorded, and which are refused.

Each row of a table is recorded, and sets beside rows; a set is accepted where the table has it, and otherwise refused.
"""

import subprocess
import sys

KEYS = 8
CONFIG = 'format = 1\nreader = [{ name = "main" }]\n'
HEAD = 'format = 2\n[[meter]]\nname = "m"\n[[meter.instrument]]\nname = "c"\nkind = "counter"\nrange = [0, 9]\n'
RECORDER = '[[recorder]]\nname = "r"\nbudget = [{ instrument = 0, amount = 10000 }]\n'


def row(*entries):
    return [*entries, *[0] * (KEYS - len(entries))]


def strewn(n, by):
    return n * by % 65536 * 40503 % 65536 % 1001


# How the rows of a table are made from their numbers.
SHAPES = {
    "all rows under one first entry": lambda n: row(7, n // 64, n % 64 + 1),
    "three keys of 16 values each": lambda n: row(n // 256 % 16 * 60, n // 16 % 16 * 60, n % 16 * 60),
    "two entries far apart for each pair of the first two keys": lambda n: row(n // 128, n // 2 % 64, n % 2 * 1000),
    "32 numbers one after the other, and 32 that are nearly as far apart": lambda n: row(
        n // 64, 1, max(n % 64, max(n % 64 - 31, 0) * 31 - 1)
    ),
    "three keys of 1,000 values, strewn": lambda n: row(strewn(n, 7), strewn(n, 11), n % 1001, n // 1001),
    "eight keys, of which one in three entries is absent": lambda n: [n // 3**key % 3 * 499 for key in range(KEYS)],
}

# A shape, and how many rows.
TABLES = [("all rows under one first entry", count) for count in (0, 1, 300)]
TABLES += [(shape, 4096 if "strewn" in shape else 300) for shape in list(SHAPES)[1:]]


def beside(one, key):
    """A row with another entry of one key."""
    return [entry + 1 if place == key else entry for place, entry in enumerate(one)]


def catalogue(rows, most):
    """A counter with these combinations, whose keys have as many values as an entry may name."""
    values = [list(range(1, top + 1)) for top in most]
    keys = ", ".join(f'{{ name = "k{key}", values = {own}, optional = true }}' for key, own in enumerate(values))
    return f"{HEAD}key = [{keys}]\nallowed = {rows}\n{RECORDER}"


def event(one):
    attributes = "".join(f' "k{key}"={entry}' for key, entry in enumerate(one) if entry)
    return f"record 0 0 1{attributes}\n"


def replies(program, rows, most, sets):
    script = "start 0\n" + "".join(event(one) for one in sets)
    given = f"%% catalogue\n{catalogue(rows, most)}%% config\n{CONFIG}%% script\n{script}"
    ran = subprocess.run([program, "replay", "--trial"], input=given.encode(), capture_output=True, check=False)
    return ran.stdout.decode().splitlines() if ran.returncode == 0 else [ran.stderr.decode()]


def wrong_of(program, shape, count):
    """The first set of a table that is told otherwise than the table has it."""
    rows = [SHAPES[shape](n) for n in range(count)]
    others = [beside(one, n % KEYS) for n, one in enumerate(rows) if n % 31 == 0]
    most = [min(max((one[key] for one in [*rows, *others]), default=1), 1000) or 1 for key in range(KEYS)]
    sets = [one for one in [*rows, *others, row()] if all(entry <= top for entry, top in zip(one, most))]
    dues = ["accepted" if one in rows else "refused 13 Combination" for one in sets]
    tolds = replies(program, rows, most, sets)
    if len(tolds) != len(sets):
        return [f"{shape}: {len(tolds)} replies to {len(sets)} events: {tolds[:1]}"]
    wrong = [f"{shape}: {one} is {due}, told {told}" for one, due, told in zip(sets, dues, tolds) if due != told]
    return wrong[:1]


def main(program):
    wrong = [one for shape, count in TABLES for one in wrong_of(program, shape, count)]
    print("\n".join([*wrong, f"{len(TABLES)} tables, {len(wrong)} told otherwise"]))
    return 1 if wrong else 0


sys.exit(main(sys.argv[1]))
