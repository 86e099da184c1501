"""Replays a long script in each form: of its events few are held at a time, so that it takes little beside its text."""

import os
import subprocess
import sys
import tempfile
from pathlib import Path

RECORDINGS, EACH = 200_000, 20_000
MOST_KIB = 40 << 10

CATALOGUE = """format = 2
[[meter]]
name = 'm'
[[meter.instrument]]
name = 'made'
kind = 'counter'
range = [0, 9]
key = [{ name = 'side', values = ['left', 'right'] }]
[[recorder]]
name = 'w'
budget = [{ instrument = 0, amount = 1000000 }]
"""
CONFIG = "format = 1\n[[reader]]\nname = 'page'\n"
FORMS = [[], ["--as", "otlp-json"], ["--as", "otlp-bytes"], ["--as", "openmetrics"]]


def script():
    for number in range(RECORDINGS):
        yield f'record 0 0 1 "side"="{("left", "right", "up")[number % 3]}"\n'
        if number % EACH == EACH - 1:
            yield f"collect 0 0 {number + 1}\n"


def replayed(program, folder, form):
    """What a replay writes, how it ends, and the most memory that it took, in KiB."""
    words = [program, "replay", "catalogue.toml", "config.toml", "script.txt", *form]
    with tempfile.TemporaryFile() as written, tempfile.TemporaryFile() as told:
        process = subprocess.Popen(words, cwd=folder, stdout=written, stderr=told)
        _, status, usage = os.wait4(process.pid, 0)
        written.seek(0)
        told.seek(0)
        return written.read(), told.read().decode(), os.waitstatus_to_exitcode(status), usage.ru_maxrss


def wrong_of(form, written, told, status, most):
    refused = RECORDINGS // 3
    wrong = [f"status {status}"] * (status != 0) + [f"{most} KiB"] * (most > MOST_KIB)
    if form:
        all_events = RECORDINGS + RECORDINGS // EACH
        line = f"script.txt: events refused: {refused} of {all_events} ({refused} UnknownValue)\n"
        return wrong + [f"told {told!r}"] * (told != line) + ["nothing written"] * (not written)
    return wrong + ["replies"] * (written.count(b"refused ") != refused or written.count(b"accepted\n") != RECORDINGS - refused)


def main():
    wrong = []
    with tempfile.TemporaryDirectory() as folder:
        for name, text in ("catalogue.toml", CATALOGUE), ("config.toml", CONFIG), ("script.txt", f"start 0\n{''.join(script())}"):
            Path(folder, name).write_text(text)
        for form in FORMS:
            wrong += [f"{' '.join(form) or 'replies'}: {what}" for what in wrong_of(form, *replayed(sys.argv[2], folder, form))]
    print("\n".join([*wrong, f"{len(FORMS)} forms of a script of {RECORDINGS} recordings, {len(wrong)} faults"]))
    sys.exit(bool(wrong))


main()
