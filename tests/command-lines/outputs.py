"""What `-o` does to the file at its path: its mode, links, long names, and what stands beside it; and why a file is not
read or written."""

import ctypes
import fcntl
import os
import resource
import subprocess
import sys
import tempfile
from pathlib import Path

PROGRAM = sys.argv[2]
CATALOGUE = "format = 1\n[[meter]]\nname = 'm'\n[[meter.instrument]]\nname = 'g'\nkind = 'gauge'\nrange = [0, 9]\n"
CONFIG = "format = 1\n[[reader]]\nname = 'r'\n"
# Of linux/capability.h and linux/prctl.h.
CAP_DAC_OVERRIDE, CAP_DAC_READ_SEARCH, PR_CAPBSET_DROP = 1, 2, 24


def is_held_to_modes():
    """Takes from a process of root what lets it pass over the modes of files, from its next program on."""
    for capability in (CAP_DAC_OVERRIDE, CAP_DAC_READ_SEARCH):
        ctypes.CDLL(None).prctl(PR_CAPBSET_DROP, capability, 0, 0, 0)


def writes_no_byte():
    """Holds a process to files of no length."""
    resource.setrlimit(resource.RLIMIT_FSIZE, (0, 0))


def told(folder, words, status, before=is_held_to_modes):
    """What a command tells on standard error, with this status."""
    how = {"cwd": folder, "capture_output": True, "text": True, "timeout": 60, "check": False}
    # (a write past the limit is an error, and no signal)
    ran = subprocess.run([PROGRAM, *words], preexec_fn=before, restore_signals=False, **how)
    assert ran.returncode == status, f"{words}: status {ran.returncode}: {ran.stderr}"
    return ran.stderr


def made(folder, path, status=0, before=is_held_to_modes):
    """What `make` tells on standard error when it writes a certificate to a path, with this status."""
    return told(folder, ["make", "catalogue.toml", "config.toml", "-o", path], status, before)


def is_certificate(path):
    return "fingerprint" in path.read_text() or path.read_text().startswith("format = ")


with tempfile.TemporaryDirectory() as scratch:
    folder = Path(scratch)
    (folder / "catalogue.toml").write_text(CATALOGUE)
    (folder / "config.toml").write_text(CONFIG)
    os.umask(0o022)
    for mode in (0o600, 0o755, 0o640):
        old = folder / "old.toml"
        old.write_text("old")
        old.chmod(mode)
        made(folder, "old.toml")
        assert is_certificate(old) and old.stat().st_mode & 0o7777 == mode, oct(old.stat().st_mode)

    made(folder, "new.toml")
    assert (folder / "new.toml").stat().st_mode & 0o7777 == 0o644

    (folder / "link.toml").symlink_to("there.toml")
    made(folder, "link.toml")
    assert (folder / "link.toml").is_symlink() and is_certificate(folder / "there.toml")
    made(folder, "link.toml")
    assert (folder / "link.toml").is_symlink() and is_certificate(folder / "there.toml")

    (folder / "loop.toml").symlink_to("loop.toml")
    assert made(folder, "loop.toml", 5) == "loop.toml: it cannot be written\n"
    assert (folder / "loop.toml").is_symlink()

    for length in (240, 250, 255):
        made(folder, "n" * length)
        made(folder, "n" * length)
        assert is_certificate(folder / ("n" * length))
    (folder / "below").mkdir()
    made(folder, "below/certificate.toml")
    assert is_certificate(folder / "below/certificate.toml")

    # What a run that was ended has left is removed; a link there is not, nor a file that a run holds.
    (folder / "below/.wormweekly.0.new").write_text("half of a certificate")
    (folder / "below/.wormweekly.1.new").symlink_to("certificate.toml")
    (folder / "below/.wormweekly.2.new").write_text("half of another one")
    with open(folder / "below/.wormweekly.2.new", encoding="utf-8") as held:
        fcntl.flock(held, fcntl.LOCK_EX)
        made(folder, "below/certificate.toml")
    names = sorted(name for name in os.listdir(folder / "below") if name.endswith(".new"))
    assert names == [".wormweekly.1.new", ".wormweekly.2.new"], names
    assert is_certificate(folder / "below/certificate.toml")
    (folder / "below/.wormweekly.1.new").unlink()
    (folder / "below/.wormweekly.0.new").write_text("half of a certificate")
    made(folder, "below/certificate.toml")
    made(folder, "below/certificate.toml")

    if not os.geteuid():
        os.chown(old, 65534, 65534)
        old.chmod(0o600)
        made(folder, "old.toml", before=None)
        owned = old.stat()
        assert (owned.st_uid, owned.st_gid, owned.st_mode & 0o7777) == (65534, 65534, 0o600), owned

    old.write_text("old")
    assert made(folder, "old.toml", 5, writes_no_byte) == "old.toml: no space is left for it\n"
    assert made(folder, "/dev/full", 5) == "/dev/full: no space is left for it\n"
    old.chmod(0o444)
    assert made(folder, "old.toml", 5) == "old.toml: the permission to write it is denied\n"
    assert made(folder, "below/none/old.toml", 5) == "below/none/old.toml: there is no such directory\n"
    assert made(folder, "below", 5) == "below: it is a directory\n"
    assert made(folder, "n" * 256, 5) == "n" * 256 + ": its name is too long\n"
    assert old.read_text() == "old"

    old.chmod(0o000)
    denied = "old.toml: the permission to read it is denied\n"
    assert told(folder, ["show", "old.toml", "config.toml"], 3) == denied
    endless = "/dev/zero: it cannot be read, or has more than 67108864 bytes\n"
    assert told(folder, ["show", "/dev/zero", "config.toml"], 3) == endless
    left = [name for name in os.listdir(folder) + os.listdir(folder / "below") if name.endswith(".new")]
    assert not left, left
