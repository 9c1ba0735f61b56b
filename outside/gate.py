#!/usr/bin/env python3
"""Runs the Rattle gate and then the tests under outside/tests, and closes with one line that sums both.

The tests run two at a time, and test_edits.py, which checks two crates at a time, after them. Exit status 0 only where nothing failed. The
Rattle gate has failed too where it calls a must-fail edit bad, or does not say that all is well. A test file that is gone, or that stands
there and is not named here, has failed.
"""
import re
import subprocess
import sys
import time
from concurrent.futures import ThreadPoolExecutor

sys.dont_write_bytecode = True

from programs import ROOT, look_for

TESTS = ROOT / "outside" / "tests"
BESIDE = ("test_differential.py", "test_faults.py", "test_firmware.py", "test_formats.py", "test_missing.py", "test_programs.py",
          "test_promises.py", "test_real.py", "test_record.py", "test_reference.py", "test_samples.py")
ALONE = ("test_edits.py",)
EXPECTED = (*BESIDE, *ALONE)
LAST = re.compile(r"^(\d+) passed, (\d+) failed$")
# The line by which `rt ci` says that all is well, and its word of must-fail edits that try nothing.
WELL = "rt: ok"
BAD = re.compile(r", \d+ bad\b")


def show(text):
    print(text, end="", flush=True)


def run(words, tell):
    """Runs a command, tells each line that it prints, and gives the counts on its last one."""
    began = time.time()
    child = subprocess.Popen(words, cwd=ROOT, stdin=subprocess.DEVNULL, stdout=subprocess.PIPE, stderr=subprocess.STDOUT, text=True,
                             errors="replace")
    last = ""
    for line in child.stdout:
        tell(line)
        if line.strip():
            last = line.strip()
    status = child.wait()
    shown = ["python3" if word == sys.executable else word for word in words]
    tell(f"-- {' '.join(shown)}: {time.time() - began:.0f} s\n")
    found = LAST.match(last)
    passed, failed = (int(found.group(1)), int(found.group(2))) if found else (0, 0)
    if passed == 0 or (status != 0 and failed == 0):
        failed += 1
    return passed, failed


def run_rattle():
    """Runs the Rattle gate; gives its counts, one failure more where it does not say that all is well, with no bad edit."""
    lines = []

    def tell(line):
        lines.append(line)
        show(line)

    passed, failed = run(["rt", "ci"], tell)
    said = [line for line in lines if line.startswith(WELL)]
    why = f"rt ci has no line '{WELL}'" if not said else "rt ci calls must-fail edits bad" if BAD.search(said[-1]) else ""
    if why:
        print(why)
    return passed, failed + bool(why)


def run_test(name):
    """Runs a test file; gives all that it prints, and its counts."""
    lines = []
    counts = run([sys.executable, str((TESTS / name).relative_to(ROOT))], lines.append)
    return "".join(lines), counts


def run_tests(names, lanes):
    """Runs so many test files at a time, shows what each prints when it and those before it are done, and gives their counts."""
    with ThreadPoolExecutor(lanes) as pool:
        for said, counts in pool.map(run_test, names):
            show(said)
            yield counts


def unexpected(folder):
    """The expected test files that a folder lacks, and the test files that it has beside them: a line each."""
    found = {path.name for path in folder.glob("test_*.py")}
    return ([f"{name} is gone" for name in sorted(set(EXPECTED) - found)]
            + [f"{name} is not named in outside/gate.py" for name in sorted(found - set(EXPECTED))])


def main():
    look_for("rt", "cargo", "rustc", "cc", "nm")
    wrong = unexpected(TESTS)
    results = [run_rattle()]
    for names, lanes in ((BESIDE, 2), (ALONE, 1)):
        results += run_tests([name for name in names if (TESTS / name).is_file()], lanes)
    passed, failed = (sum(column) for column in zip(*results))
    failed += len(wrong)
    for line in wrong:
        print("outside/tests: " + line)
    print(f"{passed} passed, {failed} failed")
    return 1 if failed else 0


if __name__ == "__main__":
    sys.exit(main())
