"""Builds the reference, runs its tests, and sees that the generator comes to every answer."""

import re
import subprocess
import sys
import tempfile
from pathlib import Path

sys.dont_write_bytecode = True
sys.path.insert(0, str(Path(__file__).resolve().parent.parent))

from programs import TARGET, build_reference, cargo, reference

CASES = 1000


def unit_tests():
    """The package's own tests: how many passed and how many failed."""
    done = cargo("test")
    print(done.stdout, end="")
    results = re.findall(r"(\d+) passed; (\d+) failed", done.stdout)
    passed = sum(int(row[0]) for row in results)
    failed = sum(int(row[1]) for row in results)
    return passed, failed or int(done.returncode != 0)


def every_answer(kind):
    """A thousand cases of a kind come to each of its answers."""
    with tempfile.TemporaryDirectory(prefix="answers-", dir=TARGET) as folder:
        command = [*reference("generate"), kind, "1", str(CASES), folder]
        done = subprocess.run(command, capture_output=True, text=True, check=False)
    print(f"{kind}, {CASES} cases:\n{done.stdout}{done.stderr}", end="")
    return (1, 0) if done.returncode == 0 and "never: []" in done.stdout else (0, 1)


def main():
    build_reference()
    results = [unit_tests(), every_answer("takes"), every_answer("cuts")]
    passed, failed = (sum(column) for column in zip(*results))
    print(f"{passed} passed, {failed} failed")
    return 1 if failed or not passed else 0


if __name__ == "__main__":
    sys.exit(main())
