"""A tree of links to the crates of the repository, in which some of them lie otherwise than in it."""

import shutil
from pathlib import Path

TOP = Path(__file__).resolve().parent.parent
PARTS = ("src", "specs", "proofs", "out")


def lay_out(room, edits=(), anew=()):
    """Links all crates into a folder. Of those in `edits` the edits that are tried by hand lie where the gate has its own; those
    in `anew` are copied, without what an earlier check kept."""
    (room / ".git").mkdir()
    for file in ("crates.txt", "HANDLES"):
        (room / file).symlink_to(TOP / file)
    for crate in sorted((TOP / "crates").iterdir()):
        copy = room / "crates" / crate.name
        copy.mkdir(parents=True)
        (crate / "out").mkdir(exist_ok=True)
        for part in PARTS:
            if crate.name in anew:
                copy_part(crate / part, copy / part)
            elif (crate / part).is_dir():
                (copy / part).symlink_to(crate / part)
        if crate.name in edits:
            (copy / "must-fail").symlink_to(crate / "edits")


def copy_part(part, to):
    """Copies a part of a crate, where it is there and is not what checks keep."""
    if part.is_dir() and part.name != "out":
        shutil.copytree(part, to)
