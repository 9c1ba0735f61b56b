"""docs/FORMATS.md is true: its answers are those of the list of words, and its example prints what it shows."""

import re
import subprocess
import sys
import tempfile
from pathlib import Path

sys.dont_write_bytecode = True
OUTSIDE = Path(__file__).resolve().parent.parent
sys.path.insert(0, str(OUTSIDE))

import words
from programs import PROGRAMS, ROOT, TARGET, program
from report import report

PAGE = ROOT / "docs" / "FORMATS.md"
FOLDER = "target/mine"
SECONDS = 60


def listed(page):
    """The table of answers has every answer in its order, in the words of the list."""
    rows = re.findall(r"^\| (\d+) \| ([^|]+) \| ([^|]+) \|$", page, re.M)
    return [(int(number), name, meaning) for number, name, meaning in rows] == [
        (number, *said) for number, said in words.answers().items()]


def example(page):
    """The shell's commands, in a folder of their own beside the one that they name, print what the page shows."""
    found = re.search(r"^```sh\n(.*?)^```\n\nIt prints:\n\n```\n(.*?)^```$", page, re.M | re.S)
    if not found or FOLDER not in found[1]:
        return False
    for name in PROGRAMS:
        program(name)
    with tempfile.TemporaryDirectory(prefix="mine-", dir=TARGET) as folder:
        commands = found[1].replace(FOLDER, str(Path(folder).relative_to(ROOT)))
        done = subprocess.run(["sh", "-e", "-c", commands], cwd=ROOT, capture_output=True, text=True,
                              timeout=SECONDS, check=False)
    print("" if done.stdout == found[2] else done.stdout + done.stderr, end="")
    return done.returncode == 0 and done.stdout == found[2] and not done.stderr


def main():
    page = PAGE.read_text(encoding="utf-8")
    return report([("the answers are those of the list", listed(page)), ("the example prints what it shows", example(page))])


if __name__ == "__main__":
    sys.exit(main())
