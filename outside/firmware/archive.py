#!/usr/bin/env python3
"""Makes target/firmware/libtashmirok.a: the crate `firmware_c`, proved, as `rt lib` builds it."""

import fcntl
import os
import shutil
import subprocess
import sys
from pathlib import Path

sys.dont_write_bytecode = True
sys.path.insert(0, str(Path(__file__).resolve().parent.parent))

import programs
from programs import ROOT, TARGET, look_for, newest_source, prove

CRATE = "firmware_c"
ARCHIVE = TARGET / "firmware" / "libtashmirok.a"


def make():
    """Proves the crate and makes the archive."""
    look_for("rt")
    print("proving the firmware and making its archive (10 to 15 minutes where nothing is proved yet)", flush=True)
    prove("lib", CRATE)
    shutil.copyfile(programs.made(CRATE, f"lib{CRATE}.a"), ARCHIVE)


def build():
    """Makes the archive where a source is newer than it, and gives its path."""
    ARCHIVE.parent.mkdir(parents=True, exist_ok=True)
    with open(ARCHIVE.parent / "lock", "w") as lock:
        # Tests run side by side: the second one waits for the archive that the first one makes.
        fcntl.flock(lock, fcntl.LOCK_EX)
        if not ARCHIVE.is_file() or newest_source() > ARCHIVE.stat().st_mtime:
            make()
    return ARCHIVE


def cargo(package, made, place=None):
    """Builds a Rust package that links an archive; gives the folder of its programs, or none, and what cargo said.

    Where a place of the code is given, cargo is told it, and builds in a folder that no other place's build undoes.
    """
    look_for("cargo", "rustc", "cc")
    target = TARGET / "firmware" / package.name
    given = dict(os.environ, TASHMIROK_FOLDER=str(made.parent))
    if place is not None:
        target /= f"place-{place}"
        given["TASHMIROK_PLACE"] = str(place)
    given["CARGO_TARGET_DIR"] = str(target)
    done = subprocess.run(["cargo", "build", "--release", "--offline", "--locked", "-j1"], cwd=package, env=given,
                          text=True, stdout=subprocess.PIPE, stderr=subprocess.STDOUT, check=False)
    return (target / "release" if done.returncode == 0 else None), done.stdout


if __name__ == "__main__":
    print(build().relative_to(ROOT))
