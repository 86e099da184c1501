"""Alters the certificates of tests/certificates/made.txt in one place everywhere, and cuts one of them at each letter, as it
is made and as it is written by hand.

A plain test of validity, tools/certificates/judge.py, tells the first fault of each, and `metric_kit check` has to tell
the same.
"""

import os
import re
import subprocess
import sys
import tomllib
from concurrent.futures import ThreadPoolExecutor
from pathlib import Path

HERE = Path(__file__).resolve().parent
sys.path.insert(0, str(HERE.parent.parent / "tools"))

from case_files import cases_of  # noqa: E402
from certificates.declarations import Catalogue, Config, Instrument, Key, Reader, View  # noqa: E402
from certificates.judge import CRITERIA, first_fault  # noqa: E402

SAMPLES = [
    "two counters, of which a view selects the second",
    "an optional key, two recorders, and views that select by other criteria than the name",
    "streams by budget, names that differ in case, a sum of negative values, a histogram and a gauge",
    "no instruments",
    "two combinations: as many recordings are allowed too, and the list comes first",
    "three combinations, more than the limit, and two recordings",
    "rows that are not in order, and that fall together where one key alone is kept",
]

# What each of these may be written in place of.
WORDS = ["product", "list", "budget", *CRITERIA]

# Lists that lose, gain or join lists.
LISTS = [("[], ", ""), (", []", ""), ("[]", "[], []"), ("[]", "[0]"), ("], [", ", "), ("], [", "], [], [")]


# ---- the declarations, as the plain test has them


def catalogue_of(table):
    instruments, meters = [], []
    for meter in table.get("meter", []):
        meters.append((meter["name"], meter.get("version", ""), meter.get("schema_url", "")))
        for one in meter.get("instrument", []):
            keys = [Key(len(key["values"]), key.get("optional", False)) for key in one.get("key", [])]
            named = [len(meters) - 1, one["name"], one["kind"], one.get("unit", ""), tuple(one["range"]), keys]
            instruments.append(Instrument(*named, one.get("allowed"), one.get("spare", 0)))
    budgets = [{it["instrument"]: it["amount"] for it in one.get("budget", [])} for one in table.get("recorder", [])]
    amounts = [[own.get(number) for number in range(len(instruments))] for own in budgets]
    return Catalogue(table["format"], meters, instruments, amounts)


def config_of(table, names):
    """The config, in which keys are called by their places, which `names` tells."""
    views = []
    for view in table.get("view", []):
        criteria = {name: value for name, value in view.items() if name.startswith(("instrument_", "meter_"))}
        settings = {name: value for name, value in view.items() if name not in criteria}
        for name in ("keep", "exclude"):
            if name in settings:
                settings[name] = [names[key] for key in settings[name]]
        views.append(View(criteria, settings))
    readers = [Reader(one.get("aggregation", {}), one.get("limit", {})) for one in table.get("reader", [])]
    return Config(readers, views)


def names_in(table):
    instruments = [one for meter in table.get("meter", []) for one in meter.get("instrument", [])]
    return {key["name"]: f"k{place}" for one in instruments for place, key in enumerate(one.get("key", []))}


# ---- texts that differ from another in one place


def pieces(text, joint):
    """Where the pieces between joints stand."""
    at, found = 0, []
    for piece in text.split(joint):
        found.append((at, at + len(piece)))
        at += len(piece) + len(joint)
    return found


def moved(text, joint, places):
    """Each piece removed with one joint beside it, doubled, and swapped with the next."""
    for start, end in places:
        before, own, after = text[:start], text[start:end], text[end:]
        yield before + after.removeprefix(joint) if after.startswith(joint) else before.removesuffix(joint) + after
        yield before + own + joint + own + after
    for (start, end), (later, last) in zip(places, places[1:]):
        yield text[:start] + text[later:last] + text[end:later] + text[start:end] + text[last:]


def replaced(text, old, new):
    """Each place of one text with another in it."""
    for start in (found.start() for found in re.finditer(re.escape(old), text)):
        yield text[:start] + new + text[start + len(old) :]


def altered(text):
    """All texts that differ from this one in one number, one word, one line, one list or one table."""
    numbers = [found.span() for found in re.finditer(r"\d+", text)]
    for start, end in numbers:
        number = int(text[start:end])
        for other in (number + 1, max(number - 1, 0), number * 2):
            yield text[:start] + str(other) + text[end:]
    yield from moved(text, ", ", numbers)
    for joint in ("\n", "\n\n"):
        yield from moved(text, joint, pieces(text, joint))
    for old, new in [*LISTS, *((f'"{word}"', f'"{other}"') for word in WORDS for other in WORDS)]:
        yield from replaced(text, old, new)


# ---- what is told of them


def due_of(catalogue, config, text):
    try:
        return first_fault(catalogue, config, tomllib.loads(text)) or "accepted"
    except tomllib.TOMLDecodeError:
        return "NotToml"


def told_of(program, parts, text):
    given = "".join(f"%% {name}\n{part}" for name, part in {**parts, "certificate": text}.items())
    ran = subprocess.run([program, "check"], input=given.encode(), capture_output=True, check=False)
    return (ran.stdout or ran.stderr).decode().split()[-1]


def misjudged(program, sample, pool):
    """The alterations of a sample that are judged otherwise than they are due, and how many there are."""
    files = {name: text.decode() for name, text in sample.written().items()}
    parts = {name: files[f"{name}.toml"] for name in ("catalogue", "config")}
    tables = {name: tomllib.loads(text) for name, text in parts.items()}
    catalogue, config = catalogue_of(tables["catalogue"]), config_of(tables["config"], names_in(tables["catalogue"]))
    made = sample.runs[0]["stdout"].decode()
    texts = list(altered(made))
    if sample.name == SAMPLES[0]:
        texts += [whole[:end] for whole in (made, files["by-hand.toml"]) for end in range(len(whole))]
    dues = [due_of(catalogue, config, text) for text in texts]
    tolds = list(pool.map(lambda text: told_of(program, parts, text), texts))
    wrong = [f"due {due}, told {told}:\n{text}" for due, told, text in zip(dues, tolds, texts) if due != told]
    if "accepted" not in dues or len(set(dues)) < 2:
        wrong.append(f"all of {sample.name} are judged alike")
    return wrong, len(texts)


def main(program):
    wrong, count = [], 0
    samples = {case.name: case for case in cases_of(HERE / "made.txt")}
    with ThreadPoolExecutor(os.cpu_count()) as pool:
        for name in SAMPLES:
            some, tried = misjudged(program, samples[name], pool)
            wrong, count = wrong + some, count + tried
    print("\n".join([*wrong[:3], f"{count} altered certificates, {len(wrong)} judged otherwise"]))
    return 1 if wrong else 0


sys.exit(main(sys.argv[1]))
