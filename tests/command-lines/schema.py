"""Lines of `--json` have the fields that docs/WORMWEEKLY.md gives each command, in that order and of those types."""

import json
import re
import subprocess
import sys
import tempfile
from pathlib import Path

PROGRAM = sys.argv[2]
TOP = Path(__file__).resolve().parents[2]
LINES = [
    "lint catalogue.toml remarkable.toml",
    "lint exposed.toml deltas.toml --for prometheus --for otlp",
    "show catalogue.toml colliding.toml",
    "show gauge.toml unfit.toml",
    "headroom catalogue.toml config.toml",
    "headroom large.toml config.toml --lasts 9",
    "diff catalogue.toml config.toml next.toml moved.toml",
    "diff catalogue.toml config.toml large.toml config.toml",
    "diff catalogue.toml config.toml catalogue.toml config.toml",
    "queries catalogue.toml config.toml queries.promql",
]


def is_number(value):
    return type(value) is int and abs(value) <= 1 << 53 or isinstance(value, str) and bool(re.fullmatch(r"-?[0-9]{16,}", value))


FAULTS = {
    "lint misspelled.toml config.toml": 3,
    "show catalogue.toml nowhere.toml": 3,
    "headroom config.toml config.toml": 3,
    "diff misspelled.toml config.toml catalogue.toml config.toml": 3,
    "make misspelled.toml config.toml": 3,
    "make catalogue.toml narrow.toml": 1,
    "check catalogue.toml config.toml nowhere.toml": 3,
    "check catalogue.toml config.toml format.toml": 1,
    "replay catalogue.toml config.toml faulty.txt": 3,
    "draw catalogue.toml misspelled.toml": 3,
    "report misspelled.toml config.toml": 3,
    "report catalogue.toml config.toml --for prometheus=nobody": 2,
}
IS = {
    "text": lambda value: isinstance(value, str),
    "number": is_number,
    "boolean": lambda value: isinstance(value, bool),
    "null": lambda value: value is None,
    "texts": lambda value: isinstance(value, list) and all(isinstance(one, str) for one in value),
    "numbers": lambda value: isinstance(value, list) and all(is_number(one) for one in value),
}


def schema():
    """The fields of each command, with their types."""
    page = (TOP / "docs/WORMWEEKLY.md").read_text(encoding="utf-8").partition("## Lines of JSON")[2].partition("## ")[0]
    rows = re.findall(r"^\| (`\w+`(?:, `\w+`)*) \| (.*) \|$", page, re.M)
    return {
        name: [re.match(r"`(\w+)` (.*)", field).groups() for field in fields.split("; ")]
        for names, fields in rows
        for name in re.findall(r"\w+", names)
    }


def wrong_of(fields, row):
    """What is wrong with a row."""
    if list(row) != [name for name, _ in fields]:
        return [f"the fields {list(row)}"]
    return [f"{name}: {row[name]!r} is no {types}" for name, types in fields if not any(IS[one](row[name]) for one in types.split(" or "))]


def main():
    with tempfile.NamedTemporaryFile() as certificate:
        made = ["make", "catalogue.toml", "config.toml", "-o", certificate.name, "--json"]
        subprocess.run([PROGRAM, *made], cwd=TOP / "crates/wormweekly/data", check=True, timeout=60)
        compare([*LINES, f"check catalogue.toml config.toml {certificate.name}", *FAULTS])


def compare(lines):
    fields, wrong = schema(), []
    for line in lines:
        command = line.split()[0]
        ran = subprocess.run(
            [PROGRAM, *line.split(), "--json"], cwd=TOP / "crates/wormweekly/data", capture_output=True, text=True, timeout=60, check=False
        )
        first, *rows = map(json.loads, ran.stdout.splitlines())
        wanted = [one for one in fields["fault" if line in FAULTS else command] if one[0] != "early" or "--lasts" in line]
        wrong += [f"{line}: the status {ran.returncode}"] * (ran.returncode != FAULTS.get(line, ran.returncode))
        wrong += [f"{line}: {len(rows)} faults, and {ran.stderr!r}"] * (line in FAULTS and (len(rows), ran.stderr) != (1, ""))
        wrong += [f"{line}: the first line {first}"] * (first != {"schema": 1})
        wrong += [f"{line}: {told}" for row in rows for told in wrong_of(wanted, row)]
    print("\n".join([*wrong, f"{len(lines)} command lines, {len(wrong)} faults of their lines of JSON"]))
    sys.exit(bool(wrong))


main()
