"""What a catalogue comes to in full is bounded: the values of a key count for each instrument that has it."""

import subprocess
import sys
import tempfile
from pathlib import Path

MOST = 8_388_608

# 512 instruments of eight keys: 2,048 bytes for each of both, of which a value takes 16 beside its own.
VALUE = "é" * 1016


def catalogue(first):
    """A catalogue of format 3 whose first key has this value."""
    keys = [f'[[key]]\nid = "k{n}"\nvalues = ["{first if n == 0 else VALUE}"]\n' for n in range(8)]
    names = ", ".join(f'"k{n}"' for n in range(8))
    instruments = [
        f'[[meter.instrument]]\nname = "i{n}"\nkind = "counter"\nrange = [0, 1]\nkey = [{names}]\n' for n in range(512)
    ]
    return "\n".join(["format = 3", *keys, "[[meter]]", 'name = "m"', *instruments])


def expanded(text):
    """What `expand` answers of a catalogue: its status, its output and what it tells."""
    with tempfile.TemporaryDirectory() as folder:
        Path(folder, "short.toml").write_text(text)
        ran = subprocess.run([sys.argv[2], "expand", "short.toml"], cwd=folder, capture_output=True, text=True, timeout=120, check=False)
    return ran.returncode, ran.stdout, ran.stderr


status, printed, told = expanded(catalogue(VALUE))
assert (status, told) == (0, ""), (status, told)
assert MOST < len(printed.encode()) and printed.count("[[meter.instrument.key]]") == 4096
assert expanded(printed)[:2] == (0, printed)

status, printed, told = expanded(catalogue(VALUE + "é"))
assert (status, printed) == (3, ""), (status, printed[:100])
assert told == "short.toml: in full it has more than 8388608 bytes of values, with 16 more for each\n", told
