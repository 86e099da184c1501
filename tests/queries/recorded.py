"""What `wormweekly queries` tells of a name that is an expression: it is held against a thousand recorded names, and of more not
told."""

import subprocess
import sys
import tempfile
from pathlib import Path

PROGRAM = sys.argv[2]
MOST = 1000
CATALOGUE = "format = 1\n[[meter]]\nname = 'm'\n[[meter.instrument]]\nname = 'a'\nkind = 'counter'\nrange = [1, 1]\n"
CONFIG = "format = 1\n[[reader]]\nname = 'page'\n"


def told(count, name):
    """How often a name, of which each line is, is told beside so many recorded ones."""
    rules = "".join(f"      - record: r:{number:04}\n        expr: a_total\n" for number in range(count))
    rules = f"groups:\n  - name: g\n    rules:\n{rules}      - alert: A\n        expr: '{{__name__=~\"{name}\"}}'\n"
    with tempfile.TemporaryDirectory() as scratch:
        for file, text in (("catalogue.toml", CATALOGUE), ("config.toml", CONFIG), ("rules.yaml", rules)):
            Path(scratch, file).write_text(text)
        words = [PROGRAM, "queries", "catalogue.toml", "config.toml", "rules.yaml"]
        ran = subprocess.run(words, cwd=scratch, capture_output=True, check=True, text=True, timeout=60)
    return ran.stdout.count("rules.yaml:")


assert told(MOST, f"r:{MOST - 1:04}") == 0, "the last recorded name is not looked at"
assert told(MOST, "r:none") == 1, "a name that nobody records is not told"
assert told(MOST + 1, "r:none") == 0, "a name is told that may be recorded"
