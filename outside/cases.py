"""Runs a program on a case: its files copied into a fresh folder, its input from a file."""

import shutil
import subprocess
import tempfile
from dataclasses import dataclass
from pathlib import Path

from programs import TARGET

INPUT = "stdin.bin"
SECONDS = 30


@dataclass
class Job:
    """One of the two programs: its job file, its output file, the size of an input record."""
    name: str
    job: str
    output: str
    record: int


TAKELIST = Job("takelist", "wanted.bin", "track.bin", 1472)
CUTLIST = Job("cutlist", "cut.bin", "cut.cap", 24)


@dataclass
class Outcome:
    """What a run leaves: its lines, the output file, what stands there, and what else it said."""
    lines: bytes
    output: bytes
    left: str
    said: str = "nothing on standard error"

    def well(self):
        """Whether it ended as it has to, wrote its file and had no fault to tell."""
        return self.left == "a file" and self.said == Outcome.said


def copy_files(case, folder):
    for file in case.iterdir():
        if file.is_dir():
            (folder / file.name).mkdir()
        elif file.name != INPUT:
            shutil.copy(file, folder / file.name)


def start(command, folder, given, variables=None, shown=subprocess.PIPE):
    """Runs a command in a folder, its input an open file; gives nothing where it doesn't end."""
    try:
        # SIGPIPE stays ignored, as it is here, so that a pipe that nobody reads is an error that a program can say.
        return subprocess.run(command, cwd=folder, stdin=given, stdout=shown, stderr=subprocess.PIPE, timeout=SECONDS,
                              env=variables, restore_signals=False, check=False)
    except subprocess.TimeoutExpired:
        return None


def bad_end(status, fault):
    """What is wrong with a status, if anything: it has to be 0; after a fault it is the program's own.

    No signal may end a program: its status is negative, or over 128 where a shell stands before it.
    """
    if status < 0 or status > 128:
        return f"ended by signal {-status if status < 0 else status - 128}"
    return f"ended with status {status}" if status and not fault else None


def left_in(folder, job, done):
    """The outcome of a run in its folder; no output file and an empty one differ."""
    if done is None:
        return Outcome(b"", b"", f"no end after {SECONDS} seconds")
    bad = bad_end(done.returncode, fault=bool(done.stderr))
    if bad:
        return Outcome(done.stdout, b"", bad)
    # The words are each program's own; that there are some is not.
    said = "something on standard error" if done.stderr else Outcome.said
    path = folder / job.output
    if path.is_file():
        return Outcome(done.stdout, path.read_bytes(), "a file", said)
    return Outcome(done.stdout, b"", "a folder" if path.is_dir() else "no file", said)


def run(command, job, case):
    """Runs a command on a case and gives its outcome."""
    TARGET.mkdir(exist_ok=True)
    with tempfile.TemporaryDirectory(prefix="case-", dir=TARGET) as name:
        folder = Path(name)
        copy_files(case, folder)
        with open(case / INPUT, "rb") as given:
            done = start(command, folder, given)
        return left_in(folder, job, done)


def save(case, files, given):
    """Writes a case anew."""
    shutil.rmtree(case, ignore_errors=True)
    case.mkdir(parents=True)
    (case / INPUT).write_bytes(given)
    for name, content in files.items():
        (case / name).write_bytes(content)
