"""Builds the package over the static library `libwormweekly.a`: in the folder that WORMWEEKLY_LIB names, with
`../include` beside it, else in `lib` beside this folder (a copied distribution), else in `../out` (the repository,
after `tools/hosts`). One build serves each Python from 3.10 on."""

import os
from pathlib import Path

from setuptools import Extension, setup

HERE = Path(__file__).resolve().parent
os.chdir(HERE)
ARCHIVE = "libwormweekly.a"
HEADER = "wormweekly.h"
SOURCES = Path("library")  # a path that setuptools takes is below this folder


def found(name: str, folders: list[Path]) -> Path:
    for folder in folders:
        if (folder / name).is_file():
            return folder / name
    raise SystemExit(f"no {name} in {', '.join(map(str, folders))}: name the archive's folder in WORMWEEKLY_LIB")


named = os.environ.get("WORMWEEKLY_LIB")
archive = found(ARCHIVE, [Path(named)] if named else [HERE.parent / "lib", HERE.parent / "out"])
beside = [Path(named).resolve().parent] if named else []
header = found(HEADER, [folder / "include" for folder in (*beside, HERE.parent)] + [HERE.parent / "c"])

setup(
    ext_modules=[
        Extension(
            "wormweekly._library",
            sorted(map(str, SOURCES.glob("*.c"))),
            include_dirs=[str(header.parent)],
            extra_objects=[str(archive)],
            depends=[str(archive), str(header), *map(str, SOURCES.glob("*.h"))],
            define_macros=[("Py_LIMITED_API", "0x030A0000")],
            extra_compile_args=["-std=gnu11", "-Wall", "-Wextra", "-fvisibility=hidden"],
            extra_link_args=["-Wl,--exclude-libs,ALL", "-lpthread"],
            py_limited_api=True,
        )
    ],
    options={"bdist_wheel": {"py_limited_api": "cp310"}},
)
