"""Refuses each allocation of a command in turn: that memory is out is told, behind a beginning of what is due."""

import os
import subprocess
import sys
import tempfile
from concurrent.futures import ThreadPoolExecutor
from pathlib import Path

WATCH = Path(__file__).resolve().parent.parent.parent / "tools/allocations/watch.c"

# More series than a table begins with room for, and a collection between them.
RECORDS = [f'record 0 0 1 "k"={number}\n' for number in range(40)]
SCRIPT = "".join(["start 0\n", *RECORDS[:20], "collect 0 0 10\n", *RECORDS[20:], "collect 0 0 20\n"])
REPLAY = f"""%% catalogue
format = 1
[[meter]]
name = 'm'
[[meter.instrument]]
name = 'hits'
kind = 'counter'
range = [0, 9]
key = [{{ name = 'k', values = {list(range(40))} }}]
[[recorder]]
name = 'r'
budget = [{{ instrument = 0, amount = 40 }}]
%% config
format = 1
reader = [{{ name = 'main' }}]
%% script
{SCRIPT}"""

# A catalogue of each kind of value, with combinations.
SHOW = """%% catalogue
format = 2
[[meter]]
name = "shop"
version = "2.1"
[[meter.instrument]]
name = "hits"
kind = "counter"
unit = "{hit}"
description = "pages asked for"
range = [0, 900]
boundaries = [10, 20, 500]
key = [{ name = "route", values = ["/a", ""] }, { name = "code", values = [200, true], optional = true }]
allowed = [[1, 1], [2, 2]]
[[recorder]]
name = "till"
budget = [{ instrument = 0, amount = 7 }]
%% config
format = 1
reader = [{ name = 'main' }]
"""

EXPAND = """format = 3
[[key]]
id = "route"
name = "http.route"
values = ["/cart", "/"]
other = "other"
[[meter]]
name = "shop"
[[meter.instrument]]
name = "hits"
kind = "counter"
range = [0, 9]
key = ["route"]
[[recorder]]
name = "worker"
count = 2
budget = { "*" = 5, "shop/hits" = 7 }
"""

# The program's place among the arguments, words of a command, its input, and how the line ends that is told.
COMMANDS = [
    (1, ["replay", "--trial"], REPLAY, "refused: memory\n"),
    (1, ["show"], SHOW, "refused: memory\n"),
    (2, ["expand", "-"], EXPAND, "out of memory\n"),
]

# After so many allocations whose refusal changes nothing there is none.
MANY = 50


def ran(command, watch):
    place, words, given, _ = command
    line = [sys.argv[place], *words]
    ended = subprocess.run(line, input=given, capture_output=True, text=True, env=watch, check=False)
    return ended.stdout, ended.stderr, ended.returncode


def is_told(out, errors, status, due, end):
    return status == 4 and errors.endswith(end) and errors.count("\n") == 1 and due.startswith(out)


def misled(command, library, pool):
    """What is told otherwise than it is due, and how many allocations are refused."""
    watch = {"LD_PRELOAD": library, "WATCH_ALL": "1"}
    due, tolds = ran(command, watch), []
    while set(tolds[-MANY:]) != {due}:
        numbers = range(len(tolds) + 1, len(tolds) + 1 + MANY)
        tolds += pool.map(lambda number: ran(command, {**watch, "WATCH_AT": str(number)}), numbers)
    refused = [told for told in tolds if told != due]
    wrong = [told for told in refused if not is_told(*told, due[0], command[3])]
    return wrong if refused and due[1:] == ("", 0) else [due], len(refused)


with tempfile.TemporaryDirectory() as scratch, ThreadPoolExecutor(os.cpu_count()) as pool:
    library = f"{scratch}/watch.so"
    subprocess.run(["cc", "-O2", "-shared", "-fPIC", "-o", library, WATCH], check=True)
    results = [(command[1], *misled(command, library, pool)) for command in COMMANDS]
for words, wrong, count in results:
    print(*words, f"{count} allocations refused, {len(wrong)} told otherwise than is due", *wrong[:2])
sys.exit(any(wrong for _, wrong, _ in results))
