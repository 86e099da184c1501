"""What `wormweekly` tells of inputs that a formula makes: more budgets than a short file may have, more bytes than a
file may have, more warnings than are told one by one, more resources than a page may have, too long a name of a file,
and a device that is full."""

import os
import subprocess
import sys
import tempfile
from pathlib import Path

PROGRAM = sys.argv[2]
CATALOGUE = """format = 1
[[meter]]
name = 'm'
[[meter.instrument]]
name = 'g'
kind = 'gauge'
range = [0, 9]
"""


def told(words, status, device=None, **files):
    """The lines on standard error of a command over these files, whose status has to be this."""
    with tempfile.TemporaryDirectory() as scratch:
        for name, text in files.items():
            Path(scratch, f"{name}.toml").write_text(text)
        with open(device or os.devnull, "w") as stdout:
            ran = subprocess.run(
                [PROGRAM, *words.split()], cwd=scratch, stdout=stdout, stderr=subprocess.PIPE, check=False, text=True,
                timeout=60,
            )
    assert ran.returncode == status, f"{words}: status {ran.returncode}: {ran.stderr[:500]}"
    return ran.stderr.splitlines()


def wants(lines, *wanted):
    """Each of these lines is told."""
    for line in wanted:
        assert line in lines, f"{line!r} is not among {lines[:9]}"


budgets = ", ".join(f"i{number} = 1" for number in range(514))
short = f"format = 3\n[[recorder]]\nname = 'r'\nbudget = {{ {budgets} }}\n"
wants(
    told("expand short.toml", 3, short=short),
    'short.toml:4:1: recorder 0 "r": field "budget" is too long; at most 512 budgets are allowed',
)

config = "format = 1\n[[reader]]\nname = 'r'\n" + "[[view]]\naggregation = 'sum'\n" * 103
lines = told("show catalogue.toml config.toml", 0, catalogue=CATALOGUE, config=config)
wants(lines, "and 3 more warnings")
assert sum(line.startswith("config.toml:") for line in lines) == 100

wants(
    told("show catalogue.toml config.toml", 3, catalogue=CATALOGUE, config="#" * ((64 << 20) + 1)),
    "config.toml: it has more than 67108864 bytes",
)

config = "format = 1\n[[reader]]\nname = 'r'\n"
resources = " ".join(f"--resource k{number}=1" for number in range(65))
wants(
    told(f"replay catalogue.toml config.toml script.toml --as otlp-json {resources}", 2),
    "error: '--resource' is given more than 64 times",
)

lines = told(f"make catalogue.toml config.toml -o {'n' * 256}", 5, catalogue=CATALOGUE, config=config)
assert len(lines) == 1 and lines[0].endswith(": its name is too long"), lines

lines = told("make catalogue.toml config.toml", 5, "/dev/full", catalogue=CATALOGUE, config=config)
wants(lines, "standard output: a write failed")
