"""Where the programs stand and how they are built.

`python3 outside/programs.py takelist` runs one in the folder that it is called in, on the input that it is given.
"""

import argparse
import os
import re
import shutil
import subprocess
import time
from pathlib import Path

ROOT = Path(__file__).resolve().parent.parent
CRATES = ROOT / "crates"
TARGET = ROOT / "target"
REFERENCE = ROOT / "outside" / "reference"
PROGRAMS = ("takelist", "cutlist")

# What the commands run, and what each is.
TOOLS = {"rt": "the Rattle kit", "cargo": "Rust", "rustc": "Rust", "cc": "a C compiler", "nm": "binutils"}
# The last lines of a proof name its crate, and then say how it came out.
CRATE = re.compile(r"crate (\w+): modules ")
PROVED = re.compile(r"logic=proved ")


def arguments(description):
    """The one argument of everything that runs the programs: others to try in their place."""
    parser = argparse.ArgumentParser(description=description)
    parser.add_argument("--programs", help="a folder with takelist and cutlist to try instead")
    return parser


def look_for(*tools):
    """Ends in one line where the path lacks a tool: its use may come only after minutes of proving."""
    missing = [f"{tool} ({TOOLS[tool]})" for tool in tools if shutil.which(tool) is None]
    if missing:
        raise SystemExit("not found on the path: " + ", ".join(missing))


def made(name, file):
    """Where `rt` leaves what it makes of a crate."""
    return CRATES / name / "out" / file


def prove(verb, name):
    """Has `rt` prove a crate and those below, and build it; a line for each that is proved anew, and all that it says if it fails."""
    began, crate, said = time.monotonic(), name, []
    with subprocess.Popen(["rt", verb], cwd=CRATES / name, stdin=subprocess.DEVNULL, text=True, errors="replace",
                          stdout=subprocess.PIPE, stderr=subprocess.STDOUT) as child:
        for line in child.stdout:
            said.append(line)
            found = CRATE.match(line)
            crate = found[1] if found else crate
            if PROVED.match(line):
                print(f"  proved after {time.monotonic() - began:.0f} s: {crate}", flush=True)
    if child.returncode != 0:
        raise SystemExit("".join(said) + f"rt {verb} in crates/{name}: status {child.returncode}")


def program(name, folder=None):
    """The command of a proved program, or of one of that name in another folder."""
    if folder is not None:
        return [str(Path(folder).resolve() / name)]
    if not up_to_date():
        raise SystemExit(f"{name} is not built, or a source is newer: `make run` proves and builds it")
    return [str(made(name, name))]


def newest_source():
    """When a source was last changed."""
    paths = [path for crate in CRATES.iterdir() if crate.is_dir() for part in crate.iterdir() if part.name != "out"
             for path in (part, *part.rglob("*"))]
    return max(path.stat().st_mtime for path in [ROOT / "crates.txt", *filter(Path.is_file, paths)])


def up_to_date():
    """Whether both programs stand and are newer than every source."""
    built = [made(name, name) for name in PROGRAMS]
    return (all(path.is_file() for path in built)
            and newest_source() <= min(path.stat().st_mtime for path in built))


def build_programs():
    """Has `rt` prove and build the programs where that is due."""
    if up_to_date():
        return
    look_for("rt")
    print("proving and building the programs (10 to 15 minutes where nothing is proved yet)", flush=True)
    for name in PROGRAMS:
        # It is run there too, finds no file of its job, says so and writes nothing.
        prove("run", name)
        # rt goes by what the sources hold and leaves a program that is still the right one.
        made(name, name).touch()


def cargo(*words):
    """Runs cargo on the reference, its output under the repository's `target/`."""
    look_for("cargo", "rustc", "cc")
    target = dict(os.environ, CARGO_TARGET_DIR=str(TARGET / "reference"))
    return subprocess.run(
        ["cargo", *words, "--release", "--offline", "-j1"], cwd=REFERENCE, env=target,
        text=True, stdout=subprocess.PIPE, stderr=subprocess.STDOUT, check=False)


def build_reference():
    """Builds the reference and its generator."""
    built = cargo("build")
    if built.returncode != 0:
        raise SystemExit(built.stdout + "the reference does not build")


def reference(name):
    """The command of one of the reference's programs, once built."""
    return [str(TARGET / "reference" / "release" / name)]


def main():
    """Becomes a program: its input, its lines and its end are the caller's."""
    parser = argparse.ArgumentParser(description=__doc__)
    parser.add_argument("name", choices=PROGRAMS)
    command = program(parser.parse_args().name)
    os.execv(command[0], command)


if __name__ == "__main__":
    main()
