"""Times the firmware's functions: `make bench`. It says what it found, and judges nothing.

`--archive FILE` times another archive with the same functions.
"""

import argparse
import json
import os
import subprocess
import sys
from itertools import groupby
from pathlib import Path
from statistics import fmean, median

sys.dont_write_bytecode = True
OUTSIDE = Path(__file__).resolve().parent
sys.path.insert(0, str(OUTSIDE / "firmware"))

import archive
from programs import look_for

# Where code and data happen to lie can tell more on a time than the code does. So all code is put at four places that
# go through a line of 64 bytes, and the runs of each have their data elsewhere.
PLACES = 4
RUNS = 3


def processor():
    """The processor's name, as the system tells it."""
    try:
        told = subprocess.run(["lscpu"], env=dict(os.environ, LC_ALL="C"), capture_output=True, text=True,
                              check=True).stdout
    except (OSError, subprocess.CalledProcessError):
        told = Path("/proc/cpuinfo").read_text(encoding="utf-8", errors="replace").replace("model name", "Model name:")
    names = [line.split(":")[-1].strip() for line in told.splitlines() if line.startswith("Model name:")]
    return f"{names[0] if names else 'of no name'} ({os.uname().machine})"


def build(made, place):
    """The program with its code at one place."""
    built, said = archive.cargo(OUTSIDE / "bench", made, place)
    if built is None:
        raise SystemExit(said + "the bench does not build")
    return built / "bench"


def measure(program, run):
    """What one run found: of each row, known by its table, name and frames, the sides' times and the ratios."""
    done = subprocess.run([program, str(run)], stdout=subprocess.PIPE, text=True, check=False)
    if done.returncode != 0:
        raise SystemExit(f"{program}: status {done.returncode}; there are no times")
    rows = map(json.loads, done.stdout.splitlines())
    return {(table, what, frames): (times, ratios) for table, what, frames, times, ratios in rows}


def over_all(places):
    """Of each place the middle of its runs, which one that was disturbed does not move; of the places the mean.

    A run has a list of numbers, and each of its numbers is taken by itself.
    """
    return [fmean(numbers) for numbers in zip(*([median(numbers) for numbers in zip(*runs)] for runs in places))]


def title(what):
    """The head of a table."""
    print(f"\n{what:31}|       ns a call        |      ns a frame      |   proved to")
    print(f"{'':31}|  proved   rival  least | proved  rival  least | rival  least")


def show(what, frames, times, ratios):
    """A row of a table; a refusal has no least and no frames."""
    calls = [f"{time:.1f}" for time in times]
    each = [f"{time / frames:.2f}" for time in times if frames]
    shown = [f"{ratio:.2f}" for ratio in ratios]
    fields = [(texts + [""] * count)[:count] for texts, count in ((calls, 3), (each, 3), (shown, 2))]
    print("{:31}|{:>8} {:>7} {:>6} |{:>7} {:>6} {:>6} |{:>6} {:>6}".format(what, *sum(fields, [])))


def main():
    parser = argparse.ArgumentParser(description=__doc__)
    parser.add_argument("--archive", type=Path, help="an archive to time instead, named libtashmirok.a")
    given = parser.parse_args().archive
    look_for("cargo", "rustc", "cc")
    made = given.resolve() if given else archive.build()
    programs = [build(made, place) for place in range(PLACES)]
    print(f"Processor: {processor()}", flush=True)
    # All places take turns, so that a while in which the machine is disturbed does not fall on one of them.
    rounds = [[measure(program, run) for program in programs] for run in range(RUNS)]
    places = list(zip(*rounds))
    print("Both sides give the same answers, tracks, packets and counts. "
          f"Times and ratios are means over {PLACES} places of the code, of the middle of {RUNS} runs at each: "
          "of a run, one round in twenty is faster than its time, and its ratio is the middle of all rounds'.")
    for table, rows in groupby(rounds[0][0], key=lambda row: row[0]):
        title(table)
        for row in rows:
            times, ratios = ([[run[row][part] for run in runs] for runs in places] for part in (0, 1))
            show(*row[1:], over_all(times), over_all(ratios))
    print("\nrival: an independent implementation in Rust, optimised and compiled for any processor of this kind, "
          "as the proved one is.")
    print("least: as many bytes as are written cleared (following) or copied (cutting).")


if __name__ == "__main__":
    main()
