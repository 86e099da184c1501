"""Gives a replay a file with room for each number of bytes that is too small.

What is written is a beginning of the replies, and that a write failed is told.
"""

import resource
import subprocess
import sys
import tempfile
from pathlib import Path

HERE = Path(__file__).resolve().parent
sys.path.insert(0, str(HERE.parent.parent / "tools"))

from case_files import cases_of  # noqa: E402

# A case of runs.txt, and what is told of it.
SAMPLE = "a key whose values have escaped signs"
TOLD = (b"refused: write\n", 5)


def ran(program, given, room, folder):
    """What a trial tells, its status, and what it leaves in a file with this room."""
    with open(folder / "replies", "w+b") as replies:
        # (Python lets the signal of a full file pass, which else would end the program)
        ended = subprocess.run(
            [program, "replay", "--trial"],
            input=given,
            stdout=replies,
            stderr=subprocess.PIPE,
            restore_signals=False,
            preexec_fn=lambda: resource.setrlimit(resource.RLIMIT_FSIZE, (room, room)),
            check=False,
        )
        return ended.stderr, ended.returncode, (folder / "replies").read_bytes()


def main(program):
    case = next(case for case in cases_of(HERE / "runs.txt") if case.name == SAMPLE)
    files, due = case.written(), case.runs[0]["stdout"]
    given = b"".join(b"%% " + name.partition(".")[0].encode() + b"\n" + files[name] for name in sorted(files))
    with tempfile.TemporaryDirectory() as scratch:
        answers = [ran(program, given, room, Path(scratch)) for room in range(len(due) + 1)]
    wanted = [(*TOLD, due[:room]) for room in range(len(due))] + [(b"", 0, due)]
    wrong = [f"room {room}: {told}" for room, (told, one) in enumerate(zip(answers, wanted)) if told != one]
    print("\n".join([*wrong[:3], f"{len(answers)} files, {len(wrong)} otherwise than is due"]))
    return 1 if wrong else 0


sys.exit(main(sys.argv[1]))
